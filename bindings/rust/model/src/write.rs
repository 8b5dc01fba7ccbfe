//! Writing one packet, and what cutting shares with it: the tests of values, the sizes, the octets of a header.

use crate::values::{hold, is_text, refusal, Refusal, Settings, Tested, Values};
use crate::varint::{put_varint, uinteger_length};
use crate::{HEADER_LIMIT, PACKET_LIMIT, PARTS, PRIMARY, SEQUENCE_COUNTS, UNSEGMENTED};

/// The most octets of lent text for one field.
const TEXT_LIMIT: usize = 65_535;

/// What a packet carries beside the header's values.
#[derive(Clone, Copy)]
pub(crate) struct Sequence {
    pub flags: u8,
    pub sequence_count: u16,
    pub counter: u32,
}

/// A number for a field that may be absent: present, within its width; absent, zero.
fn optional_number(present: u64, value: u64, most: u64) -> bool {
    present <= 1 && value <= most && (present == 1 || value == 0)
}

/// Text for a field that may be absent.
fn optional_text(present: u64, text: &[u8]) -> bool {
    present <= 1 && text.len() <= TEXT_LIMIT && (present == 1 || text.is_empty())
}

/// A domain's text and the lengths of its parts, all of which must add up to it.
fn domain_adds_up(v: &Values) -> bool {
    let sum = v.domain_lengths.iter().try_fold(0u64, |sum, length| sum.checked_add(*length));
    sum == Some(v.domain.len() as u64) && (v.has_domain == 1 || v.domain_lengths.is_empty())
}

/// Each part of a domain whose lengths add up is text by itself.
fn domain_is_text(v: &Values) -> bool {
    let mut rest = v.domain;
    v.domain_lengths.iter().all(|length| {
        let (part, after) = rest.split_at(*length as usize);
        rest = after;
        is_text(part)
    })
}

/// Who writes: the writer of today, or the old one, which writes a zone and is for tests alone.
#[derive(Clone, Copy, PartialEq, Eq)]
pub(crate) enum Writer {
    Today,
    Old,
}

/// 22 for any value out of its range, then 30, then 13, then 28.
pub(crate) fn test_values(writer: Writer, s: Tested, v: &Values) -> Result<(), Refusal> {
    let plain = v.packet_type <= 1
        && v.apid < 2047
        && v.sdu <= 21
        && v.area <= 0xffff
        && v.service <= 0xffff
        && v.operation <= 0xffff
        && v.area_version <= 0xff
        && v.error <= 1
        && v.qos <= 3
        && v.session <= 2
        && v.secondary_apid <= 0x7ff
        && v.qualifier <= 0xffff;
    let numbers = optional_number(v.has_source, v.source, 0xff)
        && optional_number(v.has_destination, v.destination, 0xff)
        && optional_number(v.has_priority, v.priority, u64::from(u32::MAX));
    let timestamp = v.has_timestamp <= 1 && v.timestamp.len() == if v.has_timestamp == 1 { s.t } else { 0 };
    let texts = optional_text(v.has_zone, v.zone)
        && optional_text(v.has_session_name, v.session_name)
        && optional_text(v.has_domain, v.domain)
        && optional_text(v.has_authentication, v.authentication)
        && domain_adds_up(v);
    hold(plain && numbers && timestamp && texts, 22)?;
    hold(writer == Writer::Old || v.has_zone == 0, 30)?;
    hold(v.domain_lengths.len() <= PARTS, 13)?;
    hold(is_text(v.zone) && is_text(v.session_name) && domain_is_text(v), 28)
}

fn text_size(s: Tested, present: u64, text: &[u8]) -> usize {
    if present == 1 {
        uinteger_length(s.is_fixed, text.len() as u32) + text.len()
    } else {
        0
    }
}

fn domain_size(s: Tested, v: &Values) -> usize {
    if v.has_domain == 0 {
        return 0;
    }
    let lengths: usize = v.domain_lengths.iter().map(|length| 1 + uinteger_length(s.is_fixed, *length as u32)).sum();
    uinteger_length(s.is_fixed, v.domain_lengths.len() as u32) + lengths + v.domain.len()
}

/// H of tested values: the secondary header's octets without a counter.
pub(crate) fn header_size(s: Tested, v: &Values) -> usize {
    let priority = if v.has_priority == 1 { uinteger_length(s.is_fixed, v.priority as u32) } else { 0 };
    21 + (v.has_source + v.has_destination) as usize
        + priority
        + v.timestamp.len()
        + text_size(s, v.has_zone, v.zone)
        + text_size(s, v.has_session_name, v.session_name)
        + domain_size(s, v)
        + text_size(s, v.has_authentication, v.authentication)
}

/// The octets of a packet, laid one after the other.
struct Pen<'a> {
    out: &'a mut [u8],
    at: usize,
    is_fixed: bool,
}

impl Pen<'_> {
    fn put(&mut self, octets: &[u8]) {
        self.out[self.at..self.at + octets.len()].copy_from_slice(octets);
        self.at += octets.len();
    }

    fn uinteger(&mut self, value: u32) {
        if self.is_fixed {
            return self.put(&value.to_be_bytes());
        }
        let length = uinteger_length(false, value);
        put_varint(value, &mut self.out[self.at..self.at + length]);
        self.at += length;
    }

    fn text(&mut self, present: u64, text: &[u8]) {
        if present == 1 {
            self.uinteger(text.len() as u32);
            self.put(text);
        }
    }

    fn domain(&mut self, v: &Values) {
        if v.has_domain == 1 {
            self.uinteger(v.domain_lengths.len() as u32);
            let mut text = v.domain;
            for length in v.domain_lengths {
                let (part, rest) = text.split_at(*length as usize);
                self.put(&[1]);
                self.text(1, part);
                text = rest;
            }
        }
    }
}

/// The primary header and the fixed part, 27 octets.
fn front(v: &Values, s: Sequence, size: usize) -> [u8; 27] {
    let mut front = [0; 27];
    let id = (v.packet_type << 12 | 0x0800 | v.apid) as u16;
    let mixed = (v.error << 15 | v.qos << 13 | v.session << 11 | v.secondary_apid) as u16;
    let presence = v.has_source << 7
        | v.has_destination << 6
        | v.has_priority << 5
        | v.has_timestamp << 4
        | v.has_zone << 3
        | v.has_session_name << 2
        | v.has_domain << 1
        | v.has_authentication;
    front[0..2].copy_from_slice(&id.to_be_bytes());
    front[2..4].copy_from_slice(&(u16::from(s.flags) << 14 | s.sequence_count).to_be_bytes());
    front[4..6].copy_from_slice(&((size - 7) as u16).to_be_bytes());
    front[6] = v.sdu as u8;
    front[7..9].copy_from_slice(&(v.area as u16).to_be_bytes());
    front[9..11].copy_from_slice(&(v.service as u16).to_be_bytes());
    front[11..13].copy_from_slice(&(v.operation as u16).to_be_bytes());
    front[13] = v.area_version as u8;
    front[14..16].copy_from_slice(&mixed.to_be_bytes());
    front[16..18].copy_from_slice(&(v.qualifier as u16).to_be_bytes());
    front[18..26].copy_from_slice(&v.transaction.to_be_bytes());
    front[26] = presence as u8;
    front
}

/// Lays a packet of tested values over an output of just its size.
pub(crate) fn lay(settings: Tested, v: &Values, s: Sequence, body: &[u8], out: &mut [u8]) {
    let front = front(v, s, out.len());
    let mut pen = Pen { out, at: 0, is_fixed: settings.is_fixed };
    pen.put(&front);
    if v.has_source == 1 {
        pen.put(&[v.source as u8]);
    }
    if v.has_destination == 1 {
        pen.put(&[v.destination as u8]);
    }
    if s.flags != UNSEGMENTED {
        pen.put(&s.counter.to_be_bytes());
    }
    if v.has_priority == 1 {
        pen.uinteger(v.priority as u32);
    }
    pen.put(v.timestamp);
    pen.text(v.has_zone, v.zone);
    pen.text(v.has_session_name, v.session_name);
    pen.domain(v);
    pen.text(v.has_authentication, v.authentication);
    pen.put(body);
}

fn write_by(
    writer: Writer,
    settings: impl Into<Settings>,
    v: &Values,
    flags: u64,
    sequence_count: u64,
    counter: u64,
    body: &[u8],
    out: &mut [u8],
) -> Result<usize, Refusal> {
    let s = settings.into().test()?;
    let segmented = flags != u64::from(UNSEGMENTED);
    let counted = counter <= if segmented { u64::from(u32::MAX) } else { 0 };
    hold(flags <= 3 && sequence_count < SEQUENCE_COUNTS && counted, 22)?;
    test_values(writer, s, v)?;
    let header = header_size(s, v) + if segmented { 4 } else { 0 };
    let size = PRIMARY + header + body.len();
    hold(size <= PACKET_LIMIT, 23)?;
    hold(header <= HEADER_LIMIT, 12)?;
    hold(!segmented || !body.is_empty(), 14)?;
    let out = out.get_mut(..size).ok_or(refusal(21))?;
    lay(s, v, Sequence { flags: flags as u8, sequence_count: sequence_count as u16, counter: counter as u32 }, body, out);
    Ok(size)
}

/// Writes one packet over the front of an output: the octets it took.
pub fn write(
    settings: impl Into<Settings>,
    v: &Values,
    flags: u64,
    sequence_count: u64,
    counter: u64,
    body: &[u8],
    out: &mut [u8],
) -> Result<usize, Refusal> {
    write_by(Writer::Today, settings, v, flags, sequence_count, counter, body, out)
}

/// The same by the old writer, to make packets with a zone for tests.
pub fn write_old(
    settings: impl Into<Settings>,
    v: &Values,
    flags: u64,
    sequence_count: u64,
    counter: u64,
    body: &[u8],
    out: &mut [u8],
) -> Result<usize, Refusal> {
    write_by(Writer::Old, settings, v, flags, sequence_count, counter, body, out)
}
