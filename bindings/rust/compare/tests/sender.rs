//! A sender's running numbers: the library and the model on the same ones, in range, at the edges and too wide.

use compare::calls::{Calls, Library, Model};
use compare::random::Random;
use compare::tally::Tally;
use orlyukan::{Refusal, SegmentCounter, Sender, SequenceCount};

const CASES: u64 = 120_000;

fn sequence_count(r: &mut Random) -> SequenceCount {
    SequenceCount(match r.below(6) {
        0 => r.too_wide(16_384),
        1 => r.bits(17),
        _ => r.bits(14),
    })
}

fn sender(r: &mut Random) -> Sender {
    let counter = match r.below(6) {
        0 => (1 << 32) - 1 - r.below(3),
        1 => r.too_wide(1 << 32),
        _ => r.bits(32),
    };
    Sender { sequence_count: sequence_count(r), counter: SegmentCounter(counter) }
}

fn refusal<A>(answer: Result<A, Refusal>) -> u64 {
    answer.err().map_or(0, |refusal| refusal.number)
}

#[test]
fn next_sequence_count() {
    let (mut r, mut tally) = (Random::new(51), Tally::new("next_sequence_count"));
    for _ in 0..CASES {
        let given = sequence_count(&mut r);
        let ours = Library.next_sequence_count(given);
        assert_eq!(ours, Model.next_sequence_count(given), "{given:?}");
        tally.meet(refusal(ours));
    }
    tally.close(&[22], CASES);
}

#[test]
fn after() {
    let (mut r, mut packets, mut segments) = (Random::new(52), Tally::new("after_packet"), Tally::new("after_segment"));
    for _ in 0..CASES {
        let given = sender(&mut r);
        let (packet, segment) = (Library.after_packet(given), Library.after_segment(given));
        assert_eq!(packet, Model.after_packet(given), "{given:?}");
        assert_eq!(segment, Model.after_segment(given), "{given:?}");
        packets.meet(refusal(packet));
        segments.meet(refusal(segment));
    }
    packets.close(&[22], CASES);
    segments.close(&[22], CASES);
}
