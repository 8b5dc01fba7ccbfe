//! Damaged recordings: what is kept and what is skipped, by one long call and by many short ones.

use compare::calls::{Calls, Library, Model};
use compare::random::Random;
use compare::tally::Tally;
use compare::torn;
use orlyukan::{Entry, Salvaged, Settings};

const CASES: u64 = 120_000;
/// Files that are salvaged to their end by calls of any grants and rooms.
const RUNS: u64 = 6_000;
const UNTOUCHED: Entry = Entry { kind: 7, place: 7, length: 7 };
const FIGURE_14: [u8; 27] = [0x18, 5, 0xc0, 0, 0, 0x14, 0, 0, 1, 0, 2, 0, 3, 1, 0x20, 6, 0, 7, 0, 0, 0, 0, 0, 0, 0, 9, 0];

/// One call by both programs, answers and lists compared.
fn both(s: Settings, file: &[u8], (begin, place): (u64, u64), grant: u64, free: usize) -> (Salvaged, Vec<Entry>) {
    let (mut ours, mut theirs) = (vec![UNTOUCHED; free], vec![UNTOUCHED; free]);
    let answer = Library.salvage(s, file, begin, place, grant, &mut ours);
    let same = answer == Model.salvage(s, file, begin, place, grant, &mut theirs) && ours == theirs;
    assert!(same, "{s:?}, state {begin} {place}, grant {grant}, free {free}: {file:02x?}: {answer:?} {ours:?} {theirs:?}");
    ours.truncate(answer.entries as usize);
    (answer, ours)
}

/// The whole list of a file and the places tested for it, in one call that has room for all.
fn whole(s: Settings, file: &[u8]) -> (u64, Vec<Entry>) {
    let (answer, list) = both(s, file, (0, 0), u64::MAX, file.len() + 2);
    assert!(answer.done && answer.place == file.len() as u64);
    (answer.tested, list)
}

/// Entries stand one after another from the file's beginning to its end; no stretch follows a stretch; what is kept begins with a mark
/// and reads.
fn covers(s: Settings, file: &[u8], list: &[Entry]) {
    let mut at = 0;
    for (k, entry) in list.iter().enumerate() {
        assert!(entry.place == at && entry.length > 0, "{list:?}");
        at += entry.length;
        if entry.is_kept() {
            let octets = &file[entry.place as usize..at as usize];
            assert!(octets.starts_with(b"MP") && Library.read(s, &octets[2..]).refusal == 0, "{list:?}");
        } else {
            assert!(list.get(k + 1).is_none_or(Entry::is_kept), "{list:?}");
        }
    }
    assert_eq!(at, file.len() as u64, "{list:?}");
}

/// Calls from the beginning on until one is done: the list that they make together, and the places that they tested.
fn run(s: Settings, file: &[u8], mut given: impl FnMut() -> (u64, usize)) -> (u64, Vec<Entry>) {
    let (mut state, mut tested, mut list) = ((0, 0), 0, Vec::new());
    loop {
        let (grant, free) = given();
        let (answer, more) = both(s, file, state, grant, free);
        assert!(answer.tested <= grant && more.len() <= free);
        state = (answer.begin, answer.place);
        tested += answer.tested;
        list.extend(more);
        if answer.done {
            return (tested, list);
        }
    }
}

/// Any file, any state, grants and rooms of any size.
#[test]
fn salvage() {
    let (mut r, mut tally) = (Random::new(51), Tally::new("salvage"));
    let (mut octets, mut kept, mut skipped) = (0, 0, 0);
    for _ in 0..CASES {
        let s = r.settings();
        let file = if r.once_in(9) { torn::far_apart(&mut r, s) } else { torn::any(&mut r, s) };
        let end = file.len() as u64;
        let place = if r.once_in(3) { 0 } else { r.below(end + 1) };
        let begin = if r.once_in(2) { place } else { r.below(place + 1) };
        let far = [0, end, end + 1, begin + 1, u64::MAX];
        let state = if r.once_in(9) { (r.pick(&far), r.pick(&far)) } else { (begin, place) };
        let grant = if r.once_in(3) { u64::MAX } else { r.below(end + 3) };
        let free = if r.once_in(3) { r.index(5) } else { r.index(40) };
        let (answer, list) = both(s, &file, state, grant, free);
        tally.meet(answer.refusal);
        octets += file.len();
        kept += list.iter().filter(|entry| entry.is_kept()).count();
        skipped += list.iter().filter(|entry| !entry.is_kept()).count();
    }
    println!("salvage: {octets} octets, {kept} entries kept, {skipped} skipped");
    tally.close(&[15, 40], CASES);
    assert!(kept > 10_000 && skipped > 10_000);
}

/// Kept and skipped cover the file, and stopping and resuming gives the same list and the same number of tests.
#[test]
fn runs() {
    let mut r = Random::new(52);
    let mut calls = 0;
    for case in 0..RUNS {
        let s = r.good_settings();
        let file = if r.once_in(9) { torn::far_apart(&mut r, s) } else { torn::any(&mut r, s) };
        let once = whole(s, &file);
        covers(s, &file, &once.1);
        let (most, room) = (r.pick(&[3, 30, 300]), r.pick(&[3, 5, 20]));
        let many = run(s, &file, || {
            calls += 1;
            (r.below(most + 1), r.index(room))
        });
        assert_eq!(once, many, "file {case}: {file:02x?}");
    }
    println!("salvage: {RUNS} files salvaged at once and in {calls} calls");
}

/// Files of a few octets: a stop at each place, with each grant and each room.
#[test]
fn every_stop() {
    let figure = [b"MP", &FIGURE_14[..]].concat();
    let files: [&[u8]; 8] = [
        b"",
        b"M",
        b"MP",
        b"MPMPMPMPMPM",
        &figure,
        &figure[..28],
        &[&figure[..], b"a", &figure, b"MP"].concat(),
        &[b"x", &figure[..20], &figure, &figure, b"yM"].concat(),
    ];
    let mut count = 0;
    for file in files {
        let once = whole(8.into(), file);
        for grant in 0..=file.len() as u64 + 1 {
            for room in 0..=once.1.len() + 3 {
                // the first call has this grant and room, and so have those after it, unless they could go on for ever
                let mut first = true;
                let many = run(8.into(), file, || {
                    let given = if first { (grant, room) } else { (grant.max(1), room.max(2)) };
                    first = false;
                    given
                });
                assert_eq!(once, many, "grant {grant}, room {room}: {file:02x?}");
                count += 1;
            }
        }
    }
    println!("salvage: {count} pairs of a grant and a room on small files");
}

/// An undamaged recording loses nothing: each packet is kept, and nothing else is listed or tested.
#[test]
fn undamaged() {
    let mut r = Random::new(53);
    for _ in 0..2_000 {
        let s = r.good_settings();
        let packets: Vec<Vec<u8>> = (0..r.below(20)).map(|_| compare::packets::accepted(&mut r, s)).collect();
        let file: Vec<u8> = packets.iter().flat_map(|packet| [b"MP", &packet[..]].concat()).collect();
        let (tested, list) = whole(s, &file);
        assert_eq!(tested, packets.len() as u64);
        let lengths: Vec<u64> = packets.iter().map(|packet| packet.len() as u64 + 2).collect();
        assert!(list.iter().all(Entry::is_kept));
        assert_eq!(list.iter().map(|entry| entry.length).collect::<Vec<_>>(), lengths);
    }
}

/// A packet whose length field reaches over the next one is kept if reading accepts it: from the left.
#[test]
fn from_the_left() {
    let mut long = FIGURE_14.to_vec();
    long[5] += 29;
    let file = [b"MP", &long[..], b"MP", &FIGURE_14].concat();
    assert_eq!(whole(8.into(), &file), (1, vec![Entry { kind: 1, place: 0, length: 58 }]));
}
