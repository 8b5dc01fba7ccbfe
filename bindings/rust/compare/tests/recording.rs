//! Whole recordings: the messages that come out, and where and why it stopped.

use compare::calls::{Calls, Library, Model};
use compare::random::Random;
use compare::recordings;
use compare::tally::Tally;
use orlyukan::{Recording, Settings, Stop, VARINT};

const CASES: u64 = 120_000;

/// Of a recording of which nothing else is said.
const USUAL: Settings = Settings { t: 8, profile: VARINT };

#[test]
fn join_recording() {
    let (mut r, mut tally) = (Random::new(21), Tally::new("join_recording"));
    let (mut octets, mut messages, mut stops) = (0, 0, [0; 3]);
    for case in 0..CASES {
        let made = if r.once_in(2) { USUAL } else { r.good_settings() };
        let s = if r.once_in(8) { r.settings() } else { made };
        let recording = if r.once_in(12) { recordings::full(&mut r, made) } else { recordings::any(&mut r, made) };
        let room = if r.once_in(20) { r.room(recording.len()) } else { recording.len() + 2 };
        let (mut ours, mut theirs) = (vec![0xee; room], vec![0xee; room]);
        let answer = Library.join_recording(s, &recording, &mut ours);
        assert_eq!(answer, Model.join_recording(s, &recording, &mut theirs), "case {case}: {s:?}, {recording:02x?}");
        assert!(ours == theirs, "case {case}: {recording:02x?}");
        tally.meet(answer.refusal);
        if let Some(stop) = answer.stop {
            stops[stop as usize] += 1;
        }
        octets += recording.len();
        messages += u64::from(answer.written > 0);
    }
    println!("join_recording: {octets} octets, {messages} recordings with a message");
    println!("join_recording: ended {}, unmarked {}, torn {}", stops[0], stops[1], stops[2]);
    tally.close(&[15, 21], CASES);
    assert!(messages > CASES / 4 && !stops.contains(&0));
}

/// A recording that is not whole is told from one that is, by both programs.
#[test]
fn whole_unmarked_torn() {
    let packet = [0x18, 5, 0xc0, 0, 0, 0x14, 0, 0, 1, 0, 2, 0, 3, 1, 0x20, 6, 0, 7, 0, 0, 0, 0, 0, 0, 0, 9, 0];
    let idle = [&[0x1f, 0xff], &packet[2..]].concat();
    let begun: &[u8] = &[b"MP", &idle[..], b"MP", &packet].concat();
    let rest: [(&[u8], Stop); 7] = [
        (b"", Stop::Ended),
        (b"x", Stop::Unmarked),
        (b"MS", Stop::Unmarked),
        (b"M", Stop::Torn),
        (b"MP", Stop::Torn),
        (b"MP\x18\x05\xc0\0\0", Stop::Torn),
        (b"MP\x18\x05\xc0\0\0\0", Stop::Torn),
    ];
    for (more, stop) in rest {
        let recording = [begun, more].concat();
        let expected = Recording { refusal: 0, written: 29, place: 58, stop: Some(stop) };
        let refused = Recording { refusal: 21, written: 0, place: 0, stop: None };
        for program in [&Library as &dyn Calls, &Model] {
            let mut out = vec![0xee; recording.len()];
            let short = recording.len() - 1;
            assert_eq!(
                program.join_recording(USUAL, &recording, &mut out[..short]),
                refused,
                "{}: {more:02x?}",
                program.name()
            );
            assert!(out.iter().all(|octet| *octet == 0xee), "{}: {more:02x?}", program.name());
            assert_eq!(program.join_recording(USUAL, &recording, &mut out), expected, "{}: {more:02x?}", program.name());
            assert_eq!(out[..8], *b"MM\0\0\0\x17\x18\x05", "{}: {more:02x?}", program.name());
            assert_eq!(out[8..29], packet[6..], "{}: {more:02x?}", program.name());
        }
    }
}
