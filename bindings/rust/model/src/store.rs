//! The store of arrived segments and of records of messages that were taken: its order, arrival, taking and forgetting.

use std::collections::HashMap;

use crate::hash::Build;
use crate::read::read;
use crate::segment::Segment;
use crate::values::{hold, refusal, Refusal, Settings};
use crate::{CONTINUATION, FIRST, LAST, PRIMARY, SEGMENTS_LIMIT, UNSEGMENTED};

/// The octets of a cell.
pub const CELL: usize = 1024;
/// The most cells of a store.
pub const CELLS: usize = 4096;
/// The octets of the mark of a cell, and of the largest packet after it.
const MARK: usize = 2;
const HELD: [u8; MARK] = [0x4d, 0x53];
const TAKEN: [u8; MARK] = [0x4d, 0x54];
const ROOM: usize = CELL - MARK;
static ZERO: [u8; CELL] = [0; CELL];

/// What an arrival comes to.
#[derive(Clone, Copy, Debug, PartialEq, Eq)]
pub enum Kind {
    Whole,
    Stored,
    Held,
    Taken,
}

/// A taking's answer: H, B and the first counter.
#[derive(Clone, Copy, Debug, PartialEq, Eq)]
pub struct Taken {
    pub h: usize,
    pub b: usize,
    pub counter: u32,
}

/// A store in order has so many cells, holds so many segments, and has so many records of messages that were taken.
#[derive(Clone, Copy, Debug, PartialEq, Eq)]
pub struct Order {
    pub cells: usize,
    pub held: usize,
    pub taken: usize,
}

/// The counters of a message that was taken, from its first segment to its last; 0 follows the largest.
#[derive(Clone, Copy, Debug)]
struct Range {
    first: u32,
    last: u32,
}

impl Range {
    fn steps(self) -> u32 {
        self.last.wrapping_sub(self.first)
    }

    fn has(self, counter: u32) -> bool {
        counter.wrapping_sub(self.first) <= self.steps()
    }
}

/// The record of a message that was taken: its identification and its header without a counter, and its counters.
#[derive(Clone, Copy, Debug)]
struct Record<'a> {
    key: &'a [u8],
    range: Range,
}

/// What stands in a cell.
#[derive(Clone, Copy, Debug)]
enum Content<'a> {
    Free,
    Held(Segment<'a>),
    Taken(Record<'a>),
}

/// What stands in the cells of a store in order: the cell of each segment, and the counters of all records of a key.
struct Index<'a> {
    cells: Vec<Content<'a>>,
    places: HashMap<Segment<'a>, u16, Build>,
    taken: HashMap<&'a [u8], Vec<Range>, Build>,
}

/// What stands in a cell; 16 if it is neither free nor held nor the record of a message that was taken.
fn look(settings: Settings, cell: &[u8]) -> Result<Content<'_>, Refusal> {
    if cell.starts_with(&HELD) {
        return look_held(settings, cell).map(Content::Held);
    }
    if cell.starts_with(&TAKEN) {
        return look_taken(settings, cell).map(Content::Taken);
    }
    hold(cell == ZERO, 16)?;
    Ok(Content::Free)
}

/// The record in a cell. Its header is judged as the one of a first segment, with a counter put back after the ids and a body of all that
/// follows; where that body begins tells where the header ends.
fn look_taken(settings: Settings, cell: &[u8]) -> Result<Record<'_>, Refusal> {
    let after = &cell[MARK + 2..];
    let counter_at = 21 + usize::from(after[20] >> 7) + usize::from(after[20] >> 6 & 1);
    let length = (after.len() + 4 - 1) as u16;
    let front = [&cell[MARK..MARK + 2], &[0x40, 0], &length.to_be_bytes()].concat();
    let packet = [&front, &after[..counter_at], &[0; 4], &after[counter_at..]].concat();
    let h = read(settings, &packet).map_err(|_| refusal(16))?.body.place as usize - PRIMARY - 4;
    let (key, rest) = cell[MARK..].split_at(2 + h);
    let number = |at: usize| u32::from_be_bytes([rest[at], rest[at + 1], rest[at + 2], rest[at + 3]]);
    let range = Range { first: number(0), last: number(4) };
    hold((1..SEGMENTS_LIMIT).contains(&u64::from(range.steps())), 16)?;
    hold(rest[8..] == ZERO[..rest.len() - 8], 16)?;
    Ok(Record { key, range })
}

/// The segment in a cell.
fn look_held(settings: Settings, cell: &[u8]) -> Result<Segment<'_>, Refusal> {
    let length = usize::from(u16::from_be_bytes([cell[MARK + 4], cell[MARK + 5]])) + 7;
    hold(length <= ROOM, 16)?;
    let (packet, tail) = cell[MARK..].split_at(length);
    hold(tail == &ZERO[..tail.len()], 16)?;
    let reading = read(settings, packet).map_err(|_| refusal(16))?;
    hold(reading.flags != UNSEGMENTED, 16)?;
    Ok(Segment::new(packet, &reading))
}

impl<'a> Index<'a> {
    /// 16 for a store that is not in order.
    fn new(settings: Settings, store: &'a [u8]) -> Result<Self, Refusal> {
        let count = store.len() / CELL;
        hold(store.len() % CELL == 0 && (1..=CELLS).contains(&count), 16)?;
        let cells = Vec::with_capacity(count);
        let places = HashMap::with_capacity_and_hasher(count, Build::default());
        let mut index = Index { cells, places, taken: HashMap::default() };
        for (i, cell) in store.chunks_exact(CELL).enumerate() {
            let found = look(settings, cell)?;
            match found {
                Content::Free => {}
                Content::Held(segment) => hold(index.places.insert(segment, i as u16).is_none(), 16)?,
                Content::Taken(record) => index.taken.entry(record.key).or_default().push(record.range),
            }
            index.cells.push(found);
        }
        hold(index.taken.is_empty() || !index.places.keys().any(|segment| index.was_taken(segment)), 16)?;
        Ok(index)
    }

    /// Whether a segment is of a message that was taken.
    fn was_taken(&self, segment: &Segment) -> bool {
        let ranges = if self.taken.is_empty() { None } else { self.taken.get(&segment.key()[..]) };
        ranges.is_some_and(|ranges| ranges.iter().any(|range| range.has(segment.counter)))
    }

    fn cell_of(&self, segment: &Segment) -> Option<usize> {
        self.places.get(segment).map(|place| usize::from(*place))
    }

    fn held(&self, cell: usize) -> Segment<'a> {
        let Content::Held(segment) = self.cells[cell] else { panic!("a place in the index is a held cell") };
        segment
    }

    /// The cells of the message that begins in a cell, if it is complete.
    fn run(&self, cell: usize, run: &mut Vec<usize>) -> bool {
        run.clear();
        run.push(cell);
        let first = self.held(cell);
        let mut counter = first.counter;
        for _ in 1..SEGMENTS_LIMIT {
            counter = counter.wrapping_add(1);
            let Some(place) = self.cell_of(&first.at_counter(counter)) else { return false };
            run.push(place);
            match self.held(place).flags {
                LAST => return true,
                CONTINUATION => {}
                _ => return false,
            }
        }
        false
    }

    /// The cells of the complete message with its first in the lowest cell.
    fn complete(&self) -> Option<Vec<usize>> {
        let mut run = Vec::new();
        let firsts = self.cells.iter().enumerate().filter(|(_, c)| matches!(c, Content::Held(s) if s.flags == FIRST));
        for (cell, _) in firsts {
            if self.run(cell, &mut run) {
                return Some(run);
            }
        }
        None
    }
}

/// Whether a store is in order: 15 or 16 if it is not.
pub fn in_order(settings: impl Into<Settings>, store: &[u8]) -> Result<Order, Refusal> {
    let settings = settings.into();
    settings.test()?;
    let index = Index::new(settings, store)?;
    let taken = index.cells.iter().filter(|c| matches!(c, Content::Taken(_))).count();
    Ok(Order { cells: index.cells.len(), held: index.places.len(), taken })
}

/// Takes a packet into the store.
pub fn arrive(settings: impl Into<Settings>, store: &mut [u8], packet: &[u8]) -> Result<Kind, Refusal> {
    let settings = settings.into();
    settings.test()?;
    let index = Index::new(settings, store)?;
    let reading = read(settings, packet)?;
    if reading.flags == UNSEGMENTED {
        return Ok(Kind::Whole);
    }
    let segment = Segment::new(packet, &reading);
    if index.was_taken(&segment) {
        return Ok(Kind::Taken);
    }
    hold(packet.len() <= ROOM, 17)?;
    if let Some(cell) = index.cell_of(&segment) {
        hold(index.held(cell).same_rest(&segment), 18)?;
        return Ok(Kind::Held);
    }
    let free = index.cells.iter().position(|c| matches!(c, Content::Free)).ok_or(refusal(19))?;
    let cell = &mut store[free * CELL..][..MARK + packet.len()];
    cell[..MARK].copy_from_slice(&HELD);
    cell[MARK..].copy_from_slice(packet);
    Ok(Kind::Stored)
}

/// Takes the complete message with its first in the lowest cell out of the store.
pub fn take(settings: impl Into<Settings>, store: &mut [u8], out: &mut [u8]) -> Result<Taken, Refusal> {
    let settings = settings.into();
    settings.test()?;
    let index = Index::new(settings, store)?;
    let run = index.complete().ok_or(refusal(20))?;
    let first = index.held(run[0]);
    let b = run.iter().map(|cell| index.held(*cell).body().len()).sum();
    let taken = Taken { h: first.h(), b, counter: first.counter };
    let out = out.get_mut(..2 + taken.h + taken.b).ok_or(refusal(21))?;
    let (front, mut body) = out.split_at_mut(2 + taken.h);
    let (before, after) = first.header();
    front[..2].copy_from_slice(first.id());
    front[2..2 + before.len()].copy_from_slice(before);
    front[2 + before.len()..].copy_from_slice(after);
    for cell in &run {
        let piece = index.held(*cell).body();
        body[..piece.len()].copy_from_slice(piece);
        body = &mut body[piece.len()..];
    }
    let last = index.held(run[run.len() - 1]).counter;
    let record = [&TAKEN[..], &first.key(), &first.counter.to_be_bytes(), &last.to_be_bytes()].concat();
    for cell in &run {
        store[cell * CELL..][..CELL].fill(0);
    }
    store[run[0] * CELL..][..record.len()].copy_from_slice(&record);
    Ok(taken)
}

/// Forgets the record in a cell, which is free then; 31 if it has none.
pub fn forget(settings: impl Into<Settings>, store: &mut [u8], number: u64) -> Result<(), Refusal> {
    let settings = settings.into();
    settings.test()?;
    let index = Index::new(settings, store)?;
    let cell = usize::try_from(number).ok().and_then(|number| index.cells.get(number));
    hold(matches!(cell, Some(Content::Taken(_))), 31)?;
    store[number as usize * CELL..][..CELL].fill(0);
    Ok(())
}

/// The packet identification and the header octets without counter that a taking of a whole packet would write, then its body.
pub(crate) fn whole(packet: &[u8]) -> (&[u8], &[u8]) {
    (&packet[..2], &packet[PRIMARY..])
}
