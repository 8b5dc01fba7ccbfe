//! Stores by chance: segments of a few messages in some cells, records of some that were taken, then perhaps damaged in one place.

use crate::headers::{self, Owned};
use crate::packets::{self, packet_of};
use crate::random::Random;
use crate::told;
use orlyukan::{Settings, CELL};

/// A message cut into segments: the packets, in their order.
pub struct Message {
    pub packets: Vec<Vec<u8>>,
}

/// The body octets of a segment.
fn piece(r: &mut Random, most: usize) -> Vec<u8> {
    let length = match r.below(6) {
        0 => most,
        1 => 1,
        _ => 1 + r.index(most.min(30)),
    };
    r.octets(length)
}

/// Segments of one header from a counter on, round the end too: a first, continuations and a last.
fn cut(r: &mut Random, s: Settings, o: &Owned, start: u64, count: u64) -> Option<Message> {
    let room = 1022 - 6 - o.h(s)?.min(252) - 4;
    let mut packets = Vec::new();
    for i in 0..count {
        let flags = match i {
            0 => 1,
            _ if i + 1 == count => 2,
            _ => 0,
        };
        // Now and then a first or a last inside the run.
        let flags = if r.once_in(25) { r.below(3) } else { flags };
        let body = piece(r, room);
        packets.push(packet_of(s, o, flags, r.bits(14), (start + i) % (1 << 32), &body)?);
    }
    Some(Message { packets })
}

/// A message whose segments fit a cell.
pub fn message(r: &mut Random, s: Settings) -> Message {
    loop {
        let o = headers::fitting(r, s);
        let count = r.between(2, 5);
        let (any, most) = (r.bits(31), u64::from(u32::MAX));
        let round = most - r.below(count - 1);
        let start = r.pick(&[0, 1, 7, most - count + 1, round, any]);
        if let Some(message) = cut(r, s, &o, start, count) {
            return message;
        }
    }
}

/// The same segments with a key that differs in one bit: of the transaction id, the packet type, the APID, another field of the fixed
/// part, or of what stands after the counter.
pub fn near(r: &mut Random, s: Settings, of: &Message) -> Message {
    let mut bits = vec![(25, 1), (18, 0x80), (0, 0x10), (1, 2), (7, 1), (16, 1), (14, 0x20), (15, 1), (13, 1)];
    if let Ok(read) = model::read(told::settings(s), &of.packets[0]) {
        let stamp = model::Span { place: read.timestamp, length: u32::from(read.has(3)) };
        let texts = [stamp, read.zone, read.session_name, read.domain[0], read.authentication];
        let after: Vec<_> = texts.iter().filter(|text| text.length > 0).map(|text| (text.place as usize, 1)).collect();
        if !after.is_empty() && r.once_in(2) {
            bits = after;
        }
    }
    let (at, mask) = r.pick(&bits);
    let mut packets = of.packets.clone();
    for packet in &mut packets {
        packet[at] ^= mask;
    }
    Message { packets }
}

/// A store, with the messages that its segments come from.
pub struct Store {
    pub octets: Vec<u8>,
    pub messages: Vec<Message>,
}

impl Store {
    fn put(&mut self, cell: usize, packet: &[u8]) {
        let cell = &mut self.octets[cell * CELL..][..CELL];
        cell[..2].copy_from_slice(&[0x4d, 0x53]);
        cell[2..2 + packet.len()].copy_from_slice(packet);
    }

    /// The record of a message: the key of a segment, and the counters from a first to a last.
    fn put_record(&mut self, s: Settings, cell: usize, packet: &[u8], first: u32, last: u32) {
        let Ok(read) = model::read(told::settings(s), packet) else { return };
        let counter_at = 27 + usize::from(read.has(0)) + usize::from(read.has(1));
        let header = [&packet[6..counter_at], &packet[counter_at + 4..read.body.place as usize]].concat();
        let record = [b"MT", &packet[..2], &header, &first.to_be_bytes(), &last.to_be_bytes()].concat();
        let cell = &mut self.octets[cell * CELL..][..CELL];
        cell.fill(0);
        cell[..record.len()].copy_from_slice(&record);
    }
}

/// The counter of a segment.
fn counter_of(s: Settings, packet: &[u8]) -> u32 {
    model::read(told::settings(s), packet).map_or(0, |read| read.counter)
}

/// Records in some cells that are free: of a message of the store, mostly of counters beside those that are held, or of one that is not
/// there. Now and then over its segments too, or with a last that is not reached.
fn remember(r: &mut Random, s: Settings, store: &mut Store) {
    for cell in 0..store.octets.len() / CELL {
        let is_free = store.octets[cell * CELL] == 0;
        if !is_free || r.once_in(2) {
            continue;
        }
        let other = message(r, s);
        let of = if r.once_in(2) { &other } else { &store.messages[r.index(store.messages.len())] };
        let (packet, begin) = (of.packets[0].clone(), counter_of(s, &of.packets[0]));
        let count = of.packets.len() as u32;
        let steps = r.pick(&[1, 1, 2, 3, 4094, 4095]) as u32;
        let first = match r.below(12) {
            0 => begin.wrapping_add(r.below(6) as u32),
            1..=5 => begin.wrapping_add(count),
            _ => begin.wrapping_sub(steps + 1),
        };
        let steps = if r.once_in(40) { r.pick(&[0, 4096, u64::from(u32::MAX)]) as u32 } else { steps };
        store.put_record(s, cell, &packet, first, first.wrapping_add(steps));
    }
}

/// Puts most segments of the messages into cells in any order.
fn fill(r: &mut Random, store: &mut Store) {
    let mut cells: Vec<usize> = (0..store.octets.len() / CELL).collect();
    let mut segments: Vec<Vec<u8>> = store.messages.iter().flat_map(|m| m.packets.clone()).collect();
    if !r.once_in(3) {
        r.shuffle(&mut cells);
    }
    r.shuffle(&mut segments);
    let left_out = if r.once_in(2) { 0 } else { r.index(3) };
    segments.truncate(segments.len().saturating_sub(left_out));
    for (cell, packet) in cells.iter().zip(&segments) {
        store.put(*cell, packet);
    }
}

/// A store in order, or nearly so: a few cells that hold segments of one, two or three messages.
pub fn in_order(r: &mut Random, s: Settings) -> Store {
    let s = packets::in_range(s);
    let first = message(r, s);
    let mut messages = vec![first];
    for _ in 0..r.below(3) {
        let next = if r.once_in(2) { near(r, s, &messages[0]) } else { message(r, s) };
        messages.push(next);
    }
    let segments: usize = messages.iter().map(|m| m.packets.len()).sum();
    let remembers = r.once_in(2);
    let more = if remembers { r.below(6) } else { 0 };
    let cells = (segments as u64 + r.below(4) + more).saturating_sub(r.below(2)).max(1);
    let mut store = Store { octets: vec![0; cells as usize * CELL], messages };
    fill(r, &mut store);
    if remembers {
        remember(r, s, &mut store);
    }
    store
}

/// Changes a store in one place, so that it is mostly no longer in order.
pub fn damage(r: &mut Random, store: &mut Store) {
    let cells = store.octets.len() / CELL;
    let cell = r.index(cells);
    let at = cell * CELL;
    match r.below(9) {
        0 => store.octets.truncate(r.index(2) * 1023 + (cells - 1) * r.index(CELL)),
        1 => store.octets.push(0),
        2 => store.octets[at + 2 + r.index(CELL - 2)] ^= 1 << r.below(8),
        3 => store.octets[at + r.index(2)] ^= r.pick(&[1, 2, 3, 4, 7, 8, 16, 32, 64, 128]) as u8,
        4 => {
            let to = r.index(cells) * CELL;
            store.octets.copy_within(at..at + CELL, to);
        }
        5 => store.octets[at + 6 + r.index(2)] = r.octets(1)[0],
        6 => store.octets[at + 4] |= 0xc0,
        7 => store.octets[at + 1023] = 1,
        _ => {
            store.octets[at..at + CELL].fill(0);
            let packet = packets::any(r, 8.into());
            let length = packet.len().min(1022);
            store.put(cell, &packet[..length]);
        }
    }
}

/// Any store: mostly in order.
pub fn any(r: &mut Random, s: Settings) -> Store {
    let mut store = in_order(r, s);
    if r.once_in(6) {
        damage(r, &mut store);
    }
    store
}

/// A segment's counter made another by some steps, forward or back.
fn moved(packet: &mut [u8], steps: u32) {
    let at = 27 + usize::from(packet[26] >> 7) + usize::from(packet[26] >> 6 & 1);
    if let Some(octets) = packet.get_mut(at..at + 4) {
        let counter = u32::from_be_bytes(octets.try_into().expect("four octets")).wrapping_add(steps);
        octets.copy_from_slice(&counter.to_be_bytes());
    }
}

/// A packet to arrive at a store: a segment of its messages as it was or changed, one of another, one with a counter before or after them,
/// a whole packet, or noise.
pub fn arriving(r: &mut Random, s: Settings, store: &Store) -> Vec<u8> {
    let message = &store.messages[r.index(store.messages.len())];
    let mut packet = message.packets[r.index(message.packets.len())].clone();
    if r.once_in(4) {
        let steps = r.below(8) as u32;
        moved(&mut packet, if r.once_in(2) { steps } else { steps.wrapping_neg() });
    }
    match r.below(12) {
        0..=2 => {}
        3 => packet[3] ^= 1 << r.below(8),
        4 => {
            let last = packet.len() - 1 - r.index(2);
            packet[last] ^= 1;
        }
        5 => packet[2] ^= r.pick(&[0x40, 0x80, 0xc0]),
        6 => packets::damage(r, &mut packet),
        7 => {
            let length = r.between(1021, 1024) as usize;
            packet.resize(length, 7);
            packets::set_length(&mut packet);
        }
        8 => {
            let other = self::message(r, packets::in_range(s));
            packet = other.packets[r.index(other.packets.len())].clone();
        }
        9 => packet = packets::accepted(r, s),
        10 => packet = packets::any(r, s),
        _ => {
            packet.push(0);
            packets::set_length(&mut packet);
        }
    }
    packet
}
