//! Stores of up to 4,096 cells, with keys that differ in little, and with records of messages that were taken.

use compare::calls::{Calls, Library, Model, Numbers};
use compare::random::Random;
use orlyukan::{Apid, Header, SegmentCounter, SequenceCount, Settings, CELL, CELLS, VARINT};

const USUAL: Settings = Settings { t: 8, profile: VARINT };

/// A segment: its transaction id, flags and counter, and a body that tells them.
fn segment(transaction: u64, flags: u64, counter: u64) -> Vec<u8> {
    let header = Header { apid: Apid(5), transaction, ..Header::default() };
    let body = [transaction.to_be_bytes(), counter.to_be_bytes()].concat();
    let mut out = vec![0; 64];
    let n = Numbers { flags, sequence_count: SequenceCount(counter % 16_384), counter: SegmentCounter(counter) };
    let size = Model.write(USUAL, &header, n, &body, &mut out).length;
    out.truncate(size as usize);
    out
}

fn store(cells: usize, packets: &[Vec<u8>]) -> Vec<u8> {
    let mut store = vec![0; cells * CELL];
    for (cell, packet) in store.chunks_mut(CELL).zip(packets) {
        cell[..2].copy_from_slice(b"MS");
        cell[2..2 + packet.len()].copy_from_slice(packet);
    }
    store
}

/// An arrival and then a taking, by both programs.
fn both(what: &str, given: &[u8], packet: &[u8], room: usize) -> (u64, u64) {
    let (mut ours, mut theirs) = (given.to_vec(), given.to_vec());
    let (mut our_out, mut their_out) = (vec![0xee; room], vec![0xee; room]);
    let arrived = Library.arrive(USUAL, &mut ours, packet);
    assert_eq!(arrived, Model.arrive(USUAL, &mut theirs, packet), "{what}");
    assert!(ours == theirs, "{what}: the stores differ after an arrival");
    let taken = Library.take(USUAL, &mut ours, &mut our_out);
    assert_eq!(taken, Model.take(USUAL, &mut theirs, &mut their_out), "{what}");
    assert!(ours == theirs && our_out == their_out, "{what}: the buffers differ after a taking");
    (arrived.refusal, taken.refusal)
}

/// The segments of one message from a counter on, round the end too, the first and the last where they belong.
fn message(transaction: u64, start: u64, count: u64) -> Vec<Vec<u8>> {
    let flags = |i| match i {
        0 => 1,
        _ if i + 1 == count => 2,
        _ => 0,
    };
    (0..count).map(|i| segment(transaction, flags(i), (start + i) % (1 << 32))).collect()
}

#[test]
fn one_message_fills_it() {
    let mut r = Random::new(41);
    let all = message(9, 0, CELLS as u64);
    let room = 23 + CELLS * 16;
    assert_eq!(both("in order", &store(CELLS, &all), &all[77], room), (0, 0));
    assert_eq!(both("no room", &store(CELLS, &all), &all[77], room - 1), (0, 21));
    assert_eq!(both("the last to come", &store(CELLS, &all[..CELLS - 1]), &all[CELLS - 1], room), (0, 0));
    let mut mixed = all.clone();
    r.shuffle(&mut mixed);
    assert_eq!(both("in any order", &store(CELLS, &mixed), &segment(8, 1, 0), room), (19, 0));
    mixed.swap_remove(1234);
    assert_eq!(both("one missing", &store(CELLS, &mixed), &all[0], room), (0, 20));
    assert_eq!(both("a cell too many", &vec![0; (CELLS + 1) * CELL], &all[0], room), (16, 16));
}

/// Messages with a first or a last at either end of the counters; one that fills the store goes round wherever it begins.
#[test]
fn round_the_end() {
    const TOP: u64 = u32::MAX as u64;
    let mut r = Random::new(43);
    for (first, last, refusal) in
        [(TOP, 0, 0), (0, TOP, 20), (0, 1, 0), (TOP - 1, TOP, 0), (TOP, 1, 20), (1, 0, 20), (TOP, TOP - 1, 20)]
    {
        let given = store(3, &[segment(9, 2, last)]);
        assert_eq!(both("two segments", &given, &segment(9, 1, first), 100), (0, refusal), "{first} and {last}");
    }
    for start in [TOP, TOP - 1, TOP - 2000, TOP + 2 - CELLS as u64, TOP + 1 - CELLS as u64] {
        let mut all = message(9, start, CELLS as u64);
        r.shuffle(&mut all);
        let room = 23 + CELLS * 16;
        assert_eq!(both("all cells", &store(CELLS, &all), &all[5], room), (0, 0), "from {start}");
        assert_eq!(both("one octet less", &store(CELLS, &all), &all[5], room - 1), (0, 21), "from {start}");
        let missing = all.swap_remove(1234);
        assert_eq!(both("the last to come", &store(CELLS, &all), &missing, room), (0, 0), "from {start}");
        assert_eq!(both("one missing", &store(CELLS, &all), &all[0], room), (0, 20), "from {start}");
    }
}

#[test]
fn near_keys() {
    let firsts: Vec<Vec<u8>> = (0..CELLS as u64).map(|k| segment(k, 1, 0)).collect();
    for cells in [32, 256, CELLS] {
        let full = store(cells, &firsts);
        assert_eq!(both("held", &full, &firsts[cells - 1], 100), (0, 20));
        assert_eq!(both("no cell", &full, &segment(9999, 1, 0), 100), (19, 20));
        assert_eq!(both("contradicts", &full, &segment(7, 2, 0), 100), (18, 20));
        let mut twice = full.clone();
        twice.copy_within(0..CELL, (cells - 1) * CELL);
        assert_eq!(both("twice", &twice, &firsts[3], 100), (16, 16));
        assert_eq!(both("completes one", &store(cells, &firsts[..cells - 1]), &segment(5, 2, 1), 100), (0, 0));
    }
}

/// Many messages at once: each taking picks the one whose first lies in the lowest cell.
#[test]
fn many_messages() {
    let mut r = Random::new(42);
    let mut packets: Vec<Vec<u8>> = (0..60).flat_map(|k| message(k, 0, 2 + k % 6)).collect();
    r.shuffle(&mut packets);
    let (mut ours, mut theirs) = (store(300, &packets), store(300, &packets));
    let (mut our_out, mut their_out) = (vec![0; 300], vec![0; 300]);
    for k in 0..61 {
        let taken = Library.take(USUAL, &mut ours, &mut our_out);
        assert_eq!(taken, Model.take(USUAL, &mut theirs, &mut their_out));
        assert!(ours == theirs && our_out == their_out);
        assert_eq!(taken.refusal, if k < 60 { 0 } else { 20 });
    }
    let records = ours.chunks(CELL).filter(|cell| cell.starts_with(b"MT")).count();
    assert_eq!(records, 60, "each message has its record");
    for packet in &packets {
        assert_eq!(both("a late repeat", &ours, packet, 300), (0, 20));
    }
    for cell in 0..301 {
        let forgot = Library.forget(USUAL, &mut ours, cell);
        assert_eq!(forgot, Model.forget(USUAL, &mut theirs, cell), "cell {cell}");
        assert!(ours == theirs, "cell {cell}");
    }
    assert!(ours.iter().all(|octet| *octet == 0), "every cell is free again");
}

/// The record of a message of a transaction id, with counters from a first to a last.
fn record(transaction: u64, first: u32, last: u32) -> Vec<u8> {
    let packet = segment(transaction, 1, 0);
    let record = [b"MT", &packet[..2], &packet[6..27], &first.to_be_bytes(), &last.to_be_bytes()].concat();
    let mut cell = vec![0; CELL];
    cell[..record.len()].copy_from_slice(&record);
    cell
}

/// The transaction id of a record, its first and its last counter, and the counter of a segment of that key outside every record.
type Shape = fn(u32) -> (u64, u32, u32, u32);

/// Records in half the cells and segments just outside them in the others: of one key and of many, apart and over each other. Then a segment
/// inside a record.
#[test]
fn records() {
    let half = CELLS as u32 / 2;
    let shapes: [(&str, Shape); 4] = [
        ("one key, two counters each", |k| (0, k << 12, (k << 12) + 1, (k << 12).wrapping_sub(1))),
        ("one key, 4,095 counters each", |k| (0, k << 12, (k << 12) + 4094, (k << 12).wrapping_sub(1))),
        ("many keys, round the end", |k| (u64::from(k), 0u32.wrapping_sub(k + 1), 4094 - k, 4095 - k)),
        ("one key, over each other", |k| (0, k % 7, k % 7 + 4095, 5000 + k)),
    ];
    for (what, shape) in shapes {
        let mut full = vec![];
        let mut outside = vec![];
        for (transaction, first, last, beside) in (0..half).map(shape) {
            full.extend(record(transaction, first, last));
            outside.push(segment(transaction, 0, beside.into()));
        }
        full.extend(store(half as usize, &outside));
        let (transaction, first, last, _) = shape(1);
        for counter in [first, last] {
            assert_eq!(both(what, &full, &segment(transaction, 2, counter.into()), 100), (0, 20), "{what}: {counter}");
        }
        assert_eq!(both(what, &full, &segment(7777, 0, 4096), 100), (19, 20), "{what}");
        let end = full.len() - CELL;
        full[end..].copy_from_slice(&store(1, &[segment(transaction, 0, last.into())]));
        assert_eq!(both(what, &full, &segment(7777, 0, 4096), 100), (16, 16), "{what}");
    }
}
