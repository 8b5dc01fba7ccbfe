//! Arrival, the order of a store, and taking.

use std::hint::black_box;

use crate::measure::{both, both_made_ready, line, shown, Times};
use crate::shapes::{packet, plain, segments, T};
use orlyukan::{Kind, CELL};

/// The octets of a segment that just fits a cell.
pub const LARGEST: usize = 1022;
/// How many segments the messages in a store have.
const LONG: usize = 16;

/// A store of so many cells with these packets in its first ones.
pub fn store(cells: usize, held: &[Vec<u8>]) -> Vec<u8> {
    let mut store = vec![0; cells * CELL];
    for (cell, packet) in store.chunks_mut(CELL).zip(held) {
        cell[..2].copy_from_slice(&[0x4d, 0x53]);
        cell[2..2 + packet.len()].copy_from_slice(packet);
    }
    store
}

/// So many segments, of messages with sixteen each.
fn messages(count: usize) -> Vec<Vec<u8>> {
    let all = (0..count.div_ceil(LONG)).flat_map(|k| segments(&plain(1000 + k as u64), LONG as u64, LARGEST));
    all.take(count).collect()
}

fn kind(answer: orlyukan::Arrived) -> u64 {
    answer.refusal + answer.kind.map_or(0, |kind| 100 + kind as u64)
}

fn model_kind(answer: Result<model::Kind, model::Refusal>) -> u64 {
    match answer {
        Ok(kind) => 100 + kind as u64,
        Err(model::Refusal { number, .. }) => number.into(),
    }
}

/// An arrival that leaves the store as it was, or whose cell is zeroed again afterwards, by either program alike.
fn arrival(cells: usize, shape: &str, held: &[Vec<u8>], arriving: &[u8], wanted: &str) -> Times {
    let (mut ours, mut theirs) = (store(cells, held), store(cells, held));
    let free = held.len() * CELL;
    let again = |store: &mut [u8], answer: u64| {
        if answer == 100 + Kind::Stored as u64 {
            store[free..free + CELL].fill(0);
        }
        answer
    };
    let times = both(
        &mut || {
            let answer = kind(orlyukan::arrive(T, black_box(&mut ours), black_box(arriving)));
            again(&mut ours, answer)
        },
        &mut || {
            let answer = model_kind(model::arrive(T, black_box(&mut theirs), black_box(arriving)));
            again(&mut theirs, answer)
        },
    );
    line("arrive", &format!("{cells} cells, {shape}"), times, wanted);
    times
}

/// The three fillings at one size: half full, full, and full of keys that differ in the transaction id alone.
fn arrivals(cells: usize, wanted: &str) -> [Times; 3] {
    let new = packet(&plain(1), 1, 0, 0, LARGEST);
    let half = arrival(cells, "half full, a new segment", &messages(cells / 2), &new, wanted);
    let all = messages(cells);
    let full = arrival(cells, "full, one held already", &all, &all[cells - 1], wanted);
    let near: Vec<Vec<u8>> = (0..cells).map(|k| packet(&plain(k as u64), 1, 0, 0, LARGEST)).collect();
    let near =
        arrival(cells, "full, keys that differ in the transaction id, one held already", &near, &near[cells - 1], wanted);
    [half, full, near]
}

/// Whose messages the records of a store are of.
#[derive(Clone, Copy)]
enum Taken {
    /// Each of another key, with sixteen counters.
    Many,
    /// All of one key, with 4,095 counters each, one after the other: between two of them one counter is left.
    One,
}

impl Taken {
    fn name(self) -> &'static str {
        match self {
            Taken::Many => "half records of many keys",
            Taken::One => "half records of one key, 4,095 counters each",
        }
    }

    /// The transaction id, the first counter and the last of record k; the counter after the last is in no record.
    fn range(self, k: u32) -> (u64, u32, u32) {
        match self {
            Taken::Many => (1000 + u64::from(k), 0, 15),
            Taken::One => (9, k << 12, (k << 12) + 4094),
        }
    }

    /// A store with records in half its cells and a segment just after each in the others, in turn.
    fn store(self, cells: usize) -> Vec<u8> {
        let mut filled = vec![];
        for k in 0..cells as u32 / 2 {
            let (transaction, first, last) = self.range(k);
            let after = packet(&plain(transaction), 0, 0, u64::from(last) + 1, LARGEST);
            let record = [b"MT", &after[..2], &after[6..27], &first.to_be_bytes(), &last.to_be_bytes()].concat();
            filled.extend(record);
            filled.resize((2 * k as usize + 1) * CELL, 0);
            filled.extend(store(1, &[after]));
        }
        filled
    }
}

/// The order of a full store with records, and an arrival of the last segment of the record in its last cell but one.
fn records(cells: usize, taken: Taken) -> [Times; 2] {
    let (mut ours, mut theirs) = (taken.store(cells), taken.store(cells));
    let order = both(
        &mut || {
            let order = orlyukan::in_order(T, black_box(&ours));
            order.refusal + order.cells
        },
        &mut || match model::in_order(T, black_box(&theirs)) {
            Ok(order) => order.cells as u64,
            Err(model::Refusal { number, .. }) => number.into(),
        },
    );
    line("in_order", &format!("{cells} cells, full, {}", taken.name()), order, "-");
    let (transaction, _, last) = taken.range(cells as u32 / 2 - 1);
    let late = packet(&plain(transaction), 2, 0, last.into(), LARGEST);
    let arrive = both(&mut || kind(orlyukan::arrive(T, black_box(&mut ours), black_box(&late))), &mut || {
        model_kind(model::arrive(T, black_box(&mut theirs), black_box(&late)))
    });
    line("arrive", &format!("{cells} cells, full, {}, a late repeat", taken.name()), arrive, "-");
    [order, arrive]
}

struct Buffers {
    given: Vec<u8>,
    store: Vec<u8>,
    out: Vec<u8>,
}

fn take(cells: usize, count: usize) {
    let given = store(cells, &segments(&plain(9), count as u64, LARGEST));
    let mut buffers = Buffers { store: given.clone(), given, out: vec![0; count * LARGEST] };
    let times = both_made_ready(
        &mut buffers,
        |b| b.store.copy_from_slice(&b.given),
        |b| {
            let taken = orlyukan::take(T, &mut b.store, &mut b.out);
            taken.refusal + taken.h + taken.b + taken.counter.0
        },
        |b| match model::take(T, &mut b.store, &mut b.out) {
            Ok(taken) => (taken.h + taken.b) as u64 + u64::from(taken.counter),
            Err(model::Refusal { number, .. }) => number.into(),
        },
    );
    line("take", &format!("{cells} cells, a message of {count} segments"), times, "-");
}

pub fn run() {
    arrivals(32, "1.0");
    let middle = arrivals(256, "-");
    let large = arrivals(4096, "1.0");
    take(32, 2);
    take(32, 32);
    take(4096, 4096);
    for (name, (middle, large)) in ["half full", "full", "near keys"].iter().zip(middle.iter().zip(&large)) {
        growth("arrive", name, middle, large);
    }
    for taken in [Taken::Many, Taken::One] {
        let (middle, large) = (records(256, taken), records(4096, taken));
        growth("in_order", taken.name(), &middle[0], &large[0]);
        growth("arrive", taken.name(), &middle[1], &large[1]);
    }
}

/// The line of how a time grows with the cells.
fn growth(call: &str, name: &str, middle: &Times, large: &Times) {
    let (ours, model) = (large.ours / middle.ours, large.model / middle.model);
    let times = format!("{} over {}", shown(large.ours), shown(middle.ours));
    println!("| {call} | {name}: time at 4,096 cells over time at 256 | {ours:.1} ({times}) | {model:.1} | | at most 24 |");
}
