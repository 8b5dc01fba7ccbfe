//! The store, joining and the view: the library and the model on the same inputs, whole stores and outputs compared.

use compare::calls::{Calls, Library, Model};
use compare::random::Random;
use compare::stores::{self, Store};
use compare::tally::Tally;
use orlyukan::{Kind, Which};

const CASES: u64 = 120_000;

#[test]
fn in_order() {
    let (mut r, mut tally) = (Random::new(11), Tally::new("in_order"));
    for case in 0..CASES {
        let s = r.settings();
        let mut store = stores::any(&mut r, s);
        if r.once_in(3) && !store.octets.is_empty() && store.octets.len() % 1024 == 0 {
            stores::damage(&mut r, &mut store);
        }
        let answer = Library.in_order(s, &store.octets);
        assert_eq!(answer, Model.in_order(s, &store.octets), "case {case}: {s:?}");
        tally.meet(answer.refusal);
    }
    tally.close(&[15, 16], CASES);
}

#[test]
fn arrive() {
    let (mut r, mut tally) = (Random::new(12), Tally::new("arrive"));
    let mut kinds = [0u64; 4];
    for case in 0..CASES {
        let s = r.settings();
        let given = stores::any(&mut r, s);
        let packet = stores::arriving(&mut r, s, &given);
        let (mut ours, mut theirs) = (given.octets.clone(), given.octets.clone());
        let answer = Library.arrive(s, &mut ours, &packet);
        assert_eq!(answer, Model.arrive(s, &mut theirs, &packet), "case {case}: {s:?}, {packet:02x?}");
        assert!(ours == theirs, "case {case}: the stores differ: {s:?}, {packet:02x?}");
        assert!(answer.kind == Some(Kind::Stored) || ours == given.octets, "case {case}: the store changed");
        if let Some(kind) = answer.kind {
            kinds[kind as usize] += 1;
        }
        tally.meet(answer.refusal);
    }
    println!("arrive: whole {}, stored {}, held {}, taken {}", kinds[0], kinds[1], kinds[2], kinds[3]);
    assert!(!kinds.contains(&0), "a kind of arrival was never met");
    tally.close(&(1..=19).chain([27, 28]).collect::<Vec<u64>>(), CASES);
}

/// The octets of the largest message that a store's cells could hold, or one that will not fit.
fn output(r: &mut Random, store: &Store) -> Vec<u8> {
    let message = &store.messages[r.index(store.messages.len())];
    let octets: usize = message.packets.iter().map(|packet| packet.len() - 30).sum();
    let length = if r.once_in(3) { 5000 } else { r.room(octets) };
    r.octets(length)
}

#[test]
fn take() {
    let (mut r, mut tally) = (Random::new(13), Tally::new("take"));
    for case in 0..CASES {
        let s = r.settings();
        let given = stores::any(&mut r, s);
        let (mut ours, mut theirs) = (given.octets.clone(), given.octets.clone());
        let mut our_out = output(&mut r, &given);
        let mut their_out = our_out.clone();
        let before = our_out.clone();
        let answer = Library.take(s, &mut ours, &mut our_out);
        assert_eq!(answer, Model.take(s, &mut theirs, &mut their_out), "case {case}: {s:?}");
        assert!(ours == theirs, "case {case}: the stores differ");
        assert_eq!(our_out, their_out, "case {case}: the outputs differ");
        assert!(answer.refusal == 0 || (ours == given.octets && our_out == before), "case {case}: octets changed on a refusal");
        tally.meet(answer.refusal);
    }
    tally.close(&[15, 16, 20, 21], CASES);
}

#[test]
fn forget() {
    let (mut r, mut tally) = (Random::new(17), Tally::new("forget"));
    for case in 0..CASES {
        let s = r.settings();
        let given = stores::any(&mut r, s);
        let cells = given.octets.len() as u64 / 1024;
        let far = r.pick(&[cells, cells + 1, 4096, 1 << 32, (1 << 32) + 1, u64::MAX]);
        let number = if r.once_in(8) { far } else { r.below(cells.max(1)) };
        let (mut ours, mut theirs) = (given.octets.clone(), given.octets.clone());
        let answer = Library.forget(s, &mut ours, number);
        assert_eq!(answer, Model.forget(s, &mut theirs, number), "case {case}: {s:?}, {number}");
        assert!(ours == theirs, "case {case}: the stores differ: {s:?}, {number}");
        assert!(answer.refusal == 0 || ours == given.octets, "case {case}: the store changed on a refusal");
        tally.meet(answer.refusal);
    }
    tally.close(&[15, 16, 31], CASES);
}

#[test]
fn join() {
    let (mut r, mut tally) = (Random::new(14), Tally::new("join"));
    let mut which = [0u64; 3];
    for case in 0..CASES {
        let s = r.settings();
        let given = stores::any(&mut r, s);
        let packet = stores::arriving(&mut r, s, &given);
        let (mut ours, mut theirs) = (given.octets.clone(), given.octets.clone());
        let mut our_out = output(&mut r, &given);
        let mut their_out = our_out.clone();
        let answer = Library.join(s, &mut ours, &packet, &mut our_out);
        assert_eq!(answer, Model.join(s, &mut theirs, &packet, &mut their_out), "case {case}: {s:?}, {packet:02x?}");
        assert!(ours == theirs, "case {case}: the stores differ: {s:?}, {packet:02x?}");
        assert_eq!(our_out, their_out, "case {case}: the outputs differ");
        let (place, length) = (answer.place, answer.length);
        let part = Library.view(&packet, &our_out, answer.which, place, length);
        assert_eq!(part, Model.view(&packet, &their_out, answer.which, place, length), "case {case}");
        assert_eq!(part.len() as u64, length, "case {case}: the body that joining told of is there");
        which[answer.which as usize] += 1;
        tally.meet(answer.refusal);
    }
    println!("join: nothing {}, packet {}, joined {}", which[0], which[1], which[2]);
    assert!(!which.contains(&0), "a buffer was never met");
    tally.close(&(1..=21).chain([27, 28]).collect::<Vec<u64>>(), CASES);
}

/// One store through many arrivals, takings, joinings and forgettings, each program with its own.
#[test]
fn many_steps() {
    let mut r = Random::new(15);
    let (mut taken, mut late, mut forgotten) = (0, 0, 0);
    for run in 0..400 {
        let s = r.good_settings();
        let cells = r.between(2, 24) as usize;
        let (mut ours, mut theirs) = (vec![0; cells * 1024], vec![0; cells * 1024]);
        let mut pool: Vec<Vec<u8>> = (0..3).flat_map(|_| stores::message(&mut r, s).packets).collect();
        let (mut our_out, mut their_out) = (vec![0xee; 8000], vec![0xee; 8000]);
        for step in 0..300 {
            if r.once_in(20) {
                pool = (0..3).flat_map(|_| stores::message(&mut r, s).packets).collect();
            }
            let packet = pool[r.index(pool.len())].clone();
            match r.below(8) {
                0 => {
                    let answer = Library.take(s, &mut ours, &mut our_out);
                    assert_eq!(answer, Model.take(s, &mut theirs, &mut their_out), "run {run}, step {step}");
                    taken += u64::from(answer.refusal == 0);
                }
                1 => {
                    let answer = Library.join(s, &mut ours, &packet, &mut our_out);
                    assert_eq!(answer, Model.join(s, &mut theirs, &packet, &mut their_out), "run {run}, step {step}");
                    taken += u64::from(answer.refusal == 0);
                }
                2 => {
                    let number = r.below(cells as u64 + 1);
                    let answer = Library.forget(s, &mut ours, number);
                    assert_eq!(answer, Model.forget(s, &mut theirs, number), "run {run}, step {step}");
                    forgotten += u64::from(answer.refusal == 0);
                }
                _ => {
                    let answer = Library.arrive(s, &mut ours, &packet);
                    assert_eq!(answer, Model.arrive(s, &mut theirs, &packet), "run {run}, step {step}");
                    late += u64::from(answer.kind == Some(Kind::Taken));
                }
            }
            assert!(ours == theirs && our_out == their_out, "run {run}, step {step}: buffers differ");
        }
    }
    println!("many_steps: 120000 steps, {taken} messages taken, {late} late repeats, {forgotten} records forgotten");
    assert!(taken > 500 && late > 500 && forgotten > 500);
}

#[test]
fn view() {
    let mut r = Random::new(16);
    let edges = [0, 1, 2, 1 << 32, u64::MAX, u64::MAX - 1, 1 << 63];
    let mut empty = 0;
    for case in 0..CASES {
        let (first, second) = (r.index(40), r.index(40));
        let (packet, joined) = (r.octets(first), r.octets(second));
        let which = r.pick(&[Which::Packet, Which::Joined, Which::Packet, Which::Joined, Which::Nothing]);
        let place = if r.once_in(6) { r.pick(&edges) } else { r.below(42) };
        let length = if r.once_in(6) { r.pick(&edges) } else { r.below(42) };
        let part = Library.view(&packet, &joined, which, place, length);
        assert_eq!(part, Model.view(&packet, &joined, which, place, length), "case {case}: {which:?} {place} {length}");
        empty += u64::from(part.is_empty());
    }
    println!("view: {CASES} cases, {empty} of them empty");
}
