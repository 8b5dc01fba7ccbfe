//! Cutting a message into packets of at most P octets.

use crate::values::{hold, refusal, Refusal, Sender, Settings, Tested, Values};
use crate::write::{header_size, lay, test_values, Sequence, Writer};
use crate::{
    CONTINUATION, COUNTERS, FIRST, HEADER_LIMIT, LAST, PACKET_LIMIT, PRIMARY, SEGMENTS_LIMIT, SEQUENCE_COUNTS, UNSEGMENTED,
};

/// The largest message body.
const BODY_LIMIT: u64 = 1_048_576;

/// How a message is cut.
struct Plan {
    settings: Tested,
    header: usize,
    /// How many packets: 1 is one unsegmented packet.
    count: u64,
    /// The body octets of each packet but the last.
    carried: usize,
}

/// 15 to 29, in their order.
fn plan(settings: Settings, p: u64, v: &Values, body: u64, sender: Sender) -> Result<Plan, Refusal> {
    let s = settings.test()?;
    hold((27..=PACKET_LIMIT as u64).contains(&p), 15)?;
    hold(sender.sequence_count < SEQUENCE_COUNTS && sender.counter < COUNTERS, 22)?;
    test_values(Writer::Today, s, v)?;
    hold(body <= BODY_LIMIT, 23)?;
    let header = header_size(s, v);
    if (PRIMARY + header) as u64 + body <= p {
        hold(header <= HEADER_LIMIT, 12)?;
        return Ok(Plan { settings: s, header, count: 1, carried: body as usize });
    }
    hold(header + 4 <= HEADER_LIMIT, 12)?;
    let carried = (p as usize).checked_sub(header + 10).filter(|c| *c > 0).ok_or(refusal(24))?;
    let count = body.div_ceil(carried as u64);
    hold(count <= SEGMENTS_LIMIT, 29)?;
    Ok(Plan { settings: s, header, count, carried })
}

/// How many packets a message takes, and the sender's two numbers after it.
pub fn count(settings: impl Into<Settings>, p: u64, v: &Values, body: u64, sender: Sender) -> Result<(u64, Sender), Refusal> {
    let plan = plan(settings.into(), p, v, body, sender)?;
    let segments = if plan.count == 1 { 0 } else { plan.count };
    let counter = (sender.counter + segments) % COUNTERS;
    let sequence_count = (sender.sequence_count + plan.count) % SEQUENCE_COUNTS;
    Ok((plan.count, Sender { sequence_count, counter }))
}

/// Writes packet number i of a message over the front of an output: the octets it took.
pub fn packet(
    settings: impl Into<Settings>,
    p: u64,
    v: &Values,
    body: &[u8],
    sender: Sender,
    i: u64,
    out: &mut [u8],
) -> Result<usize, Refusal> {
    let plan = plan(settings.into(), p, v, body.len() as u64, sender)?;
    hold(i < plan.count, 26)?;
    let from = i as usize * plan.carried;
    let to = (from + plan.carried).min(body.len());
    let flags = match i {
        0 if plan.count == 1 => UNSEGMENTED,
        0 => FIRST,
        _ if i + 1 == plan.count => LAST,
        _ => CONTINUATION,
    };
    let counted = if flags == UNSEGMENTED { 0 } else { 4 };
    let size = PRIMARY + plan.header + counted + (to - from);
    let out = out.get_mut(..size).ok_or(refusal(21))?;
    let sequence_count = ((sender.sequence_count + i) % SEQUENCE_COUNTS) as u16;
    let counter = ((sender.counter + i) % COUNTERS) as u32;
    lay(plan.settings, v, Sequence { flags, sequence_count, counter }, &body[from..to], out);
    Ok(size)
}
