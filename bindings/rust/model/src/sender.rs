//! A sender's running numbers, moved on by one packet.

use crate::values::{hold, Refusal, Sender};
use crate::{COUNTERS, SEQUENCE_COUNTS};

/// The largest number that is taken for a sequence count; from the last sequence count on, 0 follows.
const MOST: u64 = u16::MAX as u64;

/// The next sequence count.
pub fn next_sequence_count(sequence_count: u64) -> Result<u64, Refusal> {
    hold(sequence_count <= MOST, 22)?;
    Ok(if sequence_count + 1 < SEQUENCE_COUNTS { sequence_count + 1 } else { 0 })
}

/// The sender after one unsegmented packet.
pub fn after_packet(sender: Sender) -> Result<Sender, Refusal> {
    hold(sender.counter < COUNTERS, 22)?;
    Ok(Sender { sequence_count: next_sequence_count(sender.sequence_count)?, ..sender })
}

/// The sender after one segment.
pub fn after_segment(sender: Sender) -> Result<Sender, Refusal> {
    let Sender { sequence_count, counter } = after_packet(sender)?;
    Ok(Sender { sequence_count, counter: (counter + 1) % COUNTERS })
}
