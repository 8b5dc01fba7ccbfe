//! The calls of C as they are: an answer is filled to its last number whatever stood there before, and numbers that the wrappers
//! can't give are refused.

use std::mem::MaybeUninit;

use compare::calls::{Calls, Library, Numbers};
use compare::packets;
use compare::random::Random;
use compare::stores;
use orlyukan::raw::{
    self, RawAfter, RawArrived, RawCut, RawForgot, RawHeader, RawJoined, RawNumber, RawRecording, RawSalvaged, RawSender,
    RawTaken, RawView,
};
use orlyukan::{Header, Joined, Place, Reading, SegmentCounter, Sender, SequenceCount};

const CASES: u64 = 20_000;

/// An answer with something in each of its numbers. All answers are made of numbers of 64 bits.
fn spoiled<A>() -> A {
    let mut answer = MaybeUninit::<A>::uninit();
    // SAFETY: an answer is made of numbers, for which any octets will do.
    unsafe {
        std::ptr::write_bytes(answer.as_mut_ptr(), 0xaa, 1);
        answer.assume_init()
    }
}

#[test]
fn answers_are_filled() {
    let mut r = Random::new(31);
    for case in 0..CASES {
        let s = r.settings();
        let store = stores::any(&mut r, s);
        let packet = if r.once_in(2) { packets::any(&mut r, s) } else { stores::arriving(&mut r, s, &store) };
        let mut reading: Reading = spoiled();
        unsafe { raw::orl_read(s.t, s.profile, packet.as_ptr(), packet.len(), &mut reading) };
        assert_eq!(reading, Library.read(s, &packet), "case {case}");

        let (mut one, mut other) = (store.octets.clone(), store.octets.clone());
        let mut arrived: RawArrived = spoiled();
        unsafe { raw::orl_arrive(s.t, s.profile, one.as_mut_ptr(), one.len(), packet.as_ptr(), packet.len(), &mut arrived) };
        let answer = Library.arrive(s, &mut other, &packet);
        let kind = answer.kind.map_or(0, |kind| kind as u64 + 1);
        assert_eq!(arrived, RawArrived { refusal: answer.refusal, kind, off: answer.off, began: answer.began });

        let (mut out, mut second) = (vec![0; 3000], vec![0; 3000]);
        let mut taken: RawTaken = spoiled();
        unsafe { raw::orl_take(s.t, s.profile, one.as_mut_ptr(), one.len(), out.as_mut_ptr(), out.len(), &mut taken) };
        let answer = Library.take(s, &mut other, &mut second);
        assert_eq!(taken, RawTaken { refusal: answer.refusal, h: answer.h, b: answer.b, counter: answer.counter.0 });

        let (mut forgot, number): (RawForgot, u64) = (spoiled(), r.below(4));
        unsafe { raw::orl_forget(s.t, s.profile, one.as_mut_ptr(), one.len(), number, &mut forgot) };
        assert_eq!(forgot, RawForgot { refusal: Library.forget(s, &mut other, number).refusal });

        let mut joined: RawJoined = spoiled();
        let (to, room) = (out.as_mut_ptr(), out.len());
        unsafe {
            raw::orl_join(s.t, s.profile, one.as_mut_ptr(), one.len(), packet.as_ptr(), packet.len(), to, room, &mut joined)
        };
        let a = Library.join(s, &mut other, &packet, &mut second);
        let which = a.which as u64;
        let Joined { refusal, place, length, h, b, counter, off, began, .. } = a;
        let expected = RawJoined { refusal, which, place, length, h, b, counter: counter.0, off, began };
        assert_eq!(joined, expected, "case {case}");
        assert!(one == other && out == second, "case {case}: buffers differ");

        let mut order: RawNumber = spoiled();
        unsafe { raw::orl_in_order(s.t, s.profile, one.as_ptr(), one.len(), &mut order) };
        let answer = Library.in_order(s, &one);
        assert_eq!(order, RawNumber { refusal: answer.refusal, number: answer.cells });
    }
}

/// Figure 14's header, for the raw calls.
fn figure_14() -> RawHeader {
    RawHeader {
        packet_type: 1,
        apid: 5,
        area: 1,
        service: 2,
        operation: 3,
        area_version: 1,
        qos: 1,
        secondary_apid: 6,
        qualifier: 7,
        transaction: 9,
        ..RawHeader::default()
    }
}

#[rustfmt::skip]
fn raw_count(sender: RawSender) -> RawCut {
    let (none, lengths, mut answer) = ([0u8; 1], [0u64; 1], spoiled::<RawCut>());
    let e = none.as_ptr();
    // SAFETY: pointers to what is there, with length 0.
    unsafe { raw::orl_cut_count(8, 0, 64, &figure_14(), e, 0, e, 0, e, 0, e, 0, lengths.as_ptr(), 0, e, 0, 38, &sender, &mut answer) };
    answer
}

#[rustfmt::skip]
fn raw_packet(sender: RawSender, i: u64, out: &mut [u8]) -> RawCut {
    let (none, lengths, mut answer) = ([0u8; 38], [0u64; 1], spoiled::<RawCut>());
    let e = none.as_ptr();
    // SAFETY: pointers to what is there, with length 0 or the body's 38 octets.
    unsafe {
        raw::orl_cut_packet(8, 0, 64, &figure_14(), e, 0, e, 0, e, 0, e, 0, lengths.as_ptr(), 0, e, 0, e, 38, &sender, i,
            out.as_mut_ptr(), out.len(), &mut answer);
    }
    answer
}

/// A sender is out of range by its sequence count or its counter; after the largest of each comes 0.
#[test]
fn senders() {
    let fits = |s: RawSender| s.sequence_count < 16_384 && s.counter <= u64::from(u32::MAX);
    let (mut met, mut out) = ([0u64; 32], vec![0; 64]);
    for sequence_count in [0, 16_382, 16_383, 16_384, 65_535, 65_536, 1 << 32, u64::MAX] {
        for counter in [0, 1, 4_294_967_293, 4_294_967_294, 4_294_967_295, 1 << 32, u64::MAX] {
            let given = RawSender { sequence_count, counter };
            let counted = raw_count(given);
            let written = raw_packet(given, 0, &mut out);
            met[counted.refusal as usize] += 1;
            let expected = if fits(given) {
                let after = RawSender { sequence_count: (sequence_count + 2) % 16_384, counter: (counter + 2) % (1 << 32) };
                RawCut { refusal: 0, number: 2, sender: after }
            } else {
                RawCut { refusal: 22, number: 0, sender: given }
            };
            assert_eq!(counted, expected, "{given:?}");
            assert_eq!((written.refusal, written.sender), (expected.refusal, given), "{given:?}");
        }
    }
    assert!(met[0] > 0 && met[22] > 0, "{met:?}");
}

/// A sender after one packet or one segment, and a sequence count alone: 22 above 16 bits, else on to the next, which is always below
/// 16,384.
#[test]
fn moving_on() {
    let mut r = Random::new(32);
    for _ in 0..100_000 {
        let sequence_count = if r.once_in(5) { r.too_wide(16_384) } else { r.bits(17) };
        let next = if sequence_count >= 16_383 { 0 } else { sequence_count + 1 };
        let mut answer: RawNumber = spoiled();
        unsafe { raw::orl_next_sequence_count(sequence_count, &mut answer) };
        let wide = sequence_count > 65_535;
        assert_eq!(answer, if wide { RawNumber { refusal: 22, number: 0 } } else { RawNumber { refusal: 0, number: next } });

        let counter = match r.below(9) {
            0 => r.too_wide(1 << 32),
            1 => u64::from(u32::MAX) - r.below(2),
            _ => r.bits(32),
        };
        let given = RawSender { sequence_count, counter };
        let bad = wide || counter > u64::from(u32::MAX);
        let (mut packet, mut segment): (RawAfter, RawAfter) = (spoiled(), spoiled());
        unsafe {
            raw::orl_after_packet(&given, &mut packet);
            raw::orl_after_segment(&given, &mut segment);
        }
        if bad {
            assert_eq!([packet, segment], [RawAfter { refusal: 22, sender: given }; 2]);
            continue;
        }
        assert_eq!(packet, RawAfter { refusal: 0, sender: RawSender { sequence_count: next, counter } });
        let after = RawSender { sequence_count: next, counter: (counter + 1) % (1 << 32) };
        assert_eq!(segment, RawAfter { refusal: 0, sender: after }, "{given:?}");
    }
}

/// A buffer's number above 2 is 22; place and length are told only if they lie inside.
#[test]
fn views() {
    let (packet, joined) = ([1u8; 5], [2u8; 9]);
    for which in [0, 1, 2, 3, 255, 256, 257, 1 << 32, u64::MAX] {
        for place in [0, 1, 4, 5, 6, 9, 10, u64::MAX] {
            for length in [0, 1, 4, 5, 9, 10, u64::MAX] {
                let mut answer: RawView = spoiled();
                unsafe { raw::orl_view(packet.as_ptr(), 5, joined.as_ptr(), 9, which, place, length, &mut answer) };
                let size: u128 = [0, 5, 9].get(which as usize).copied().unwrap_or(0);
                let inside = u128::from(place) + u128::from(length) <= size;
                let part = if which <= 2 && inside && size > 0 { Place { place, length } } else { Place::default() };
                let refusal = if which > 2 { 22 } else { 0 };
                assert_eq!(answer, RawView { refusal, part }, "{which} {place} {length}");
            }
        }
    }
}

/// 21 if the output is shorter than the recording; and why a recording stopped.
#[test]
fn recordings() {
    let header = Header { packet_type: 1, ..Header::default() };
    let mut packet = vec![0; 100];
    let numbers = Numbers { flags: 3, sequence_count: SequenceCount(0), counter: SegmentCounter(0) };
    let size = Library.write(8.into(), &header, numbers, b"tile", &mut packet).length;
    let whole = [b"MP", &packet[..size as usize]].concat();
    let n = whole.len();
    let cases: [(Vec<u8>, usize, u64); 8] = [
        (whole.clone(), n, raw::ORL_ENDED),
        (vec![], 0, raw::ORL_ENDED),
        ([&whole[..], b"x"].concat(), n, raw::ORL_UNMARKED),
        ([&whole[..], b"MS", &whole].concat(), n, raw::ORL_UNMARKED),
        ([&whole[..], b"M"].concat(), n, raw::ORL_TORN),
        ([&whole[..], b"MP"].concat(), n, raw::ORL_TORN),
        ([&whole[..], &whole[..n - 1]].concat(), n, raw::ORL_TORN),
        ([&whole[..], &whole[..7]].concat(), n, raw::ORL_TORN),
    ];
    for (recording, place, stop) in cases {
        let mut out = vec![0xee; recording.len() + 3];
        let mut answer: RawRecording = spoiled();
        unsafe {
            raw::orl_join_recording(8, 0, recording.as_ptr(), recording.len(), out.as_mut_ptr(), recording.len(), &mut answer)
        };
        let written = if recording.is_empty() { 0 } else { n as u64 };
        assert_eq!(answer, RawRecording { refusal: 0, written, place: place as u64, stop }, "{recording:02x?}");
        assert!(out[written as usize..].iter().all(|octet| *octet == 0xee), "octets after the output changed");
        if let Some(short) = recording.len().checked_sub(1) {
            let mut out = vec![0xee; short];
            unsafe { raw::orl_join_recording(8, 0, recording.as_ptr(), recording.len(), out.as_mut_ptr(), short, &mut answer) };
            assert_eq!(answer, RawRecording { refusal: 21, ..RawRecording::default() });
            assert!(out.iter().all(|octet| *octet == 0xee), "octets changed on a refusal");
        }
    }
}

/// A list of any number of numbers: three make an entry, those left over are no room; the answer is filled.
#[test]
fn lists() {
    let (file, state) = (b"abMPcd", [(0, 0), (2, 4), (0, 6), (6, 6), (5, 4), (0, 7)]);
    for (begin, place) in state {
        for length in 0..12 {
            let mut list = vec![9; length];
            let mut answer: RawSalvaged = spoiled();
            unsafe {
                raw::orl_salvage(8, 0, file.as_ptr(), file.len(), begin, place, 100, list.as_mut_ptr(), length, &mut answer)
            };
            let (tests, closes) = (length >= 6 && place < 6, length >= 6 || (length >= 3 && place == 6));
            let expected = match (begin <= place && place <= 6, begin < 6 && closes) {
                (false, _) => RawSalvaged { refusal: 40, ..RawSalvaged::default() },
                (true, true) => RawSalvaged { refusal: 0, tested: 6 - place, entries: 1, begin: 6, place: 6, done: 1 },
                (true, false) => RawSalvaged { refusal: 0, tested: 0, entries: 0, begin, place, done: u64::from(begin == 6) },
            };
            assert!(tests == (expected.tested > 0) || expected.refusal == 40, "{begin} {place} {length}");
            assert_eq!(answer, expected, "{begin} {place} {length}");
            let mut numbers = vec![9; length];
            if expected.entries == 1 {
                numbers[..3].copy_from_slice(&[raw::ORL_SKIPPED, begin, 6 - begin]);
            }
            assert_eq!(list, numbers, "{begin} {place} {length}");
        }
    }
}

/// The wrappers tell a sender as it is.
#[test]
fn wrapped_senders() {
    let sender =
        |sequence_count, counter| Sender { sequence_count: SequenceCount(sequence_count), counter: SegmentCounter(counter) };
    let refused = orlyukan::Refusal { number: 22, ..orlyukan::Refusal::default() };
    assert_eq!(orlyukan::next_sequence_count(SequenceCount(0)), Ok(SequenceCount(1)));
    assert_eq!(orlyukan::next_sequence_count(SequenceCount(16_383)), Ok(SequenceCount(0)));
    assert_eq!(orlyukan::next_sequence_count(SequenceCount(65_535)), Ok(SequenceCount(0)));
    for too_wide in [65_536, 65_537, 1 << 32, u64::MAX] {
        assert_eq!(orlyukan::next_sequence_count(SequenceCount(too_wide)), Err(refused));
    }
    assert_eq!(orlyukan::after_packet(sender(7, 5)), Ok(sender(8, 5)));
    assert_eq!(orlyukan::after_segment(sender(7, 5)), Ok(sender(8, 6)));
    assert_eq!(orlyukan::after_segment(sender(16_383, 4_294_967_295)), Ok(sender(0, 0)));
    assert_eq!(orlyukan::after_segment(sender(1 << 20, 0)), Err(refused));
}
