//! The small program: the messages of a recording, with 32 cells.
//!
//! The recording lies in memory, so a cell is a segment's place in it and nothing is copied until a message is complete. A message
//! goes out as soon as it is complete, so the only one that can be complete is the one to which the last arrival belongs.

use crate::read::read;
use crate::segment::Segment;
use crate::store::whole;
use crate::values::{hold, Refusal, Settings};
use crate::{FIRST, LAST, UNSEGMENTED};

const ROOMS: usize = 32;
const PACKET_MARK: [u8; 2] = [0x4d, 0x50];
const MESSAGE_MARK: [u8; 2] = [0x4d, 0x4d];
/// The largest packet that is not passed over, and the largest that a cell holds.
const MOST: usize = 32_768;
const MOST_HELD: usize = 1022;

/// What stands in a cell: nothing, a segment, or of a message that went out its first segment and its last's counter.
#[derive(Clone, Copy)]
enum Room<'a> {
    Free,
    Held(Segment<'a>),
    Taken(Segment<'a>, u32),
}

/// The cells; the counters stand apart, to be looked through quickly.
struct Rooms<'a> {
    rooms: [Room<'a>; ROOMS],
    counters: [u32; ROOMS],
}

impl<'a> Rooms<'a> {
    fn find(&self, like: &Segment, counter: u32) -> Option<usize> {
        (0..ROOMS).find(|i| self.counters[*i] == counter && matches!(&self.rooms[*i], Room::Held(s) if s.same_key(like)))
    }

    fn held(&self, room: usize) -> Segment<'a> {
        let Room::Held(segment) = self.rooms[room] else { panic!("a room that was found") };
        segment
    }

    /// Whether a segment is of a message that went out and is not forgotten.
    fn was_taken(&self, segment: &Segment) -> bool {
        self.rooms.iter().any(|room| match room {
            Room::Taken(first, last) => {
                let steps = last.wrapping_sub(first.counter);
                segment.counter.wrapping_sub(first.counter) <= steps && first.same_key(segment)
            }
            _ => false,
        })
    }

    /// The lowest free cell; if there is none, the lowest one with a message that went out, which is forgotten.
    fn free(&self) -> Option<usize> {
        let free = self.rooms.iter().position(|room| matches!(room, Room::Free));
        free.or_else(|| self.rooms.iter().position(|room| matches!(room, Room::Taken(..))))
    }

    /// Puts a new segment into a free cell: whether the segment is held now, by this or from before.
    fn arrive(&mut self, segment: Segment<'a>) -> bool {
        if self.was_taken(&segment) {
            return false;
        }
        if let Some(room) = self.find(&segment, segment.counter) {
            return self.held(room).same_rest(&segment);
        }
        let Some(free) = self.free() else { return false };
        self.rooms[free] = Room::Held(segment);
        self.counters[free] = segment.counter;
        true
    }

    /// The neighbour of a segment, one counter up or down.
    fn beside(&self, s: &Segment, up: bool) -> Option<usize> {
        self.find(s, if up { s.counter.wrapping_add(1) } else { s.counter.wrapping_sub(1) })
    }

    /// From a segment on, up to the last or down to the first of its run: its rooms, or nothing if one is missing.
    fn side(&self, from: Segment<'a>, up: bool) -> Option<Vec<usize>> {
        let (end, other) = if up { (LAST, FIRST) } else { (FIRST, LAST) };
        let (mut rooms, mut s) = (Vec::new(), from);
        while s.flags != end {
            let room = self.beside(&s, up)?;
            s = self.held(room);
            if s.flags == other {
                return None;
            }
            rooms.push(room);
        }
        Some(rooms)
    }

    /// The rooms of the complete message to which a held segment belongs.
    fn message(&self, s: &Segment<'a>) -> Option<Vec<usize>> {
        if s.flags != LAST {
            self.beside(s, true)?;
        }
        if s.flags != FIRST {
            self.beside(s, false)?;
        }
        let mut rooms = self.side(*s, false)?;
        rooms.reverse();
        rooms.push(self.find(s, s.counter)?);
        rooms.extend(self.side(*s, true)?);
        Some(rooms)
    }

    /// Writes a complete message and frees its rooms, but that of its first, where it is kept in mind.
    fn hand_out(&mut self, rooms: &[usize], out: &mut Vec<u8>) {
        let (first, last) = (self.held(rooms[0]), self.held(rooms[rooms.len() - 1]));
        let body: usize = rooms.iter().map(|room| self.held(*room).body().len()).sum();
        let (before, after) = first.header();
        begin(2 + first.h() + body, out);
        out.extend_from_slice(first.id());
        out.extend_from_slice(before);
        out.extend_from_slice(after);
        for room in rooms {
            out.extend_from_slice(self.held(*room).body());
            self.rooms[*room] = Room::Free;
        }
        self.rooms[rooms[0]] = Room::Taken(first, last.counter);
    }
}

/// The mark and the length of a message.
fn begin(length: usize, out: &mut Vec<u8>) {
    out.extend_from_slice(&MESSAGE_MARK);
    out.extend_from_slice(&(length as u32).to_be_bytes());
}

/// The next packet of a recording and what stands after it, while a whole mark and packet follow.
fn next_packet(recording: &[u8]) -> Option<(&[u8], &[u8])> {
    let after = recording.strip_prefix(&PACKET_MARK)?;
    let primary: &[u8; 6] = after.first_chunk()?;
    after.split_at_checked(usize::from(u16::from_be_bytes([primary[4], primary[5]])) + 7)
}

/// All messages of a recording, each after its mark and its length; 15 for the settings, 21 if there is not room for as many octets as the
/// recording has.
pub fn join_recording(settings: impl Into<Settings>, recording: &[u8], room: usize) -> Result<Vec<u8>, Refusal> {
    let settings = settings.into();
    settings.test()?;
    hold(recording.len() <= room, 21)?;
    let mut out = Vec::with_capacity(recording.len());
    join_recording_into(settings, recording, &mut out);
    Ok(out)
}

/// The same, under settings in range, after what stands in the output already.
pub fn join_recording_into(settings: impl Into<Settings>, recording: &[u8], out: &mut Vec<u8>) {
    let settings = settings.into();
    let mut rooms = Rooms { rooms: [Room::Free; ROOMS], counters: [0; ROOMS] };
    let mut rest = recording;
    while let Some((packet, after)) = next_packet(rest) {
        rest = after;
        if packet.len() > MOST {
            continue;
        }
        let Ok(reading) = read(settings, packet) else { continue };
        if reading.flags == UNSEGMENTED {
            let (id, data) = whole(packet);
            begin(id.len() + data.len(), out);
            out.extend_from_slice(id);
            out.extend_from_slice(data);
        } else if packet.len() <= MOST_HELD {
            let segment = Segment::new(packet, &reading);
            if rooms.arrive(segment) {
                if let Some(message) = rooms.message(&segment) {
                    rooms.hand_out(&message, out);
                }
            }
        }
    }
}

/// Why a recording ends where it does.
#[derive(Clone, Copy, Debug, PartialEq, Eq)]
pub enum Stop {
    /// No octet is left.
    Ended,
    /// What is left does not begin as a mark does.
    Unmarked,
    /// A mark and packet begin and are not whole.
    Torn,
}

/// Where the last whole packet of a recording ends, and why no other follows.
pub fn recording_end(recording: &[u8]) -> (usize, Stop) {
    let mut rest = recording;
    while let Some((_, after)) = next_packet(rest) {
        rest = after;
    }
    let begins = rest.iter().zip(PACKET_MARK).all(|(octet, mark)| *octet == mark);
    let stop = match rest {
        [] => Stop::Ended,
        _ if begins => Stop::Torn,
        _ => Stop::Unmarked,
    };
    (recording.len() - rest.len(), stop)
}
