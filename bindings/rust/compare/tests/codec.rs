//! Reading, writing and cutting: the library and the model on the same inputs, by chance and at the edges.

use compare::calls::{Calls, Library, Model, Numbers};
use compare::headers::{self, Owned};
use compare::packets;
use compare::random::Random;
use compare::tally::Tally;
use orlyukan::{SegmentCounter, Sender, SequenceCount, Settings};

const CASES: u64 = 120_000;

#[test]
fn read() {
    let (mut r, mut tally) = (Random::new(1), Tally::new("read"));
    for case in 0..CASES {
        let s = r.settings();
        let packet = packets::any(&mut r, s);
        let (ours, theirs) = (Library.read(s, &packet), Model.read(s, &packet));
        assert_eq!(ours, theirs, "case {case}: {s:?}, {packet:02x?}");
        tally.meet(ours.refusal);
    }
    tally.close(&(1..=15).chain([27, 28]).collect::<Vec<u64>>(), CASES);
}

/// The largest packets, and slices that are too long to be one.
#[test]
fn read_long() {
    for length in [65_534, 65_535, 65_536, 65_541, 65_542, 65_543, 65_549, 131_078, 200_000] {
        let mut packet = vec![0; length];
        packet[..27]
            .copy_from_slice(&[0x18, 5, 0xc0, 0, 0, 0x14, 0, 0, 1, 0, 2, 0, 3, 1, 0x20, 6, 0, 7, 0, 0, 0, 0, 0, 0, 0, 9, 0]);
        for field in [0xffff, 0xfffe, (length as u64).wrapping_sub(7) as u16, (length as u64).wrapping_sub(6) as u16, 0] {
            packet[4..6].copy_from_slice(&u16::to_be_bytes(field));
            assert_eq!(Library.read(8.into(), &packet), Model.read(8.into(), &packet), "{length} octets, length field {field}");
        }
    }
}

/// The fixed part of figure 14, with sequence flags and presence flags of its own.
fn fixed(flags: u8, presence: u8) -> Vec<u8> {
    let mut packet = vec![0x18, 5, flags, 0, 0, 0, 0, 0, 1, 0, 2, 0, 3, 1, 0x20, 6, 0, 7, 0, 0, 0, 0, 0, 0, 0, 9];
    packet.push(presence);
    packet
}

/// A length or a count below 16,384, as the profile has it.
fn uinteger(s: Settings, n: usize) -> Vec<u8> {
    match (s.profile, n) {
        (1, _) => u32::to_be_bytes(n as u32).to_vec(),
        (_, 0..=0x7f) => vec![n as u8],
        _ => vec![n as u8 | 0x80, (n >> 7) as u8],
    }
}

/// A packet with just the fields that the presence flags name, and a body of three octets.
fn fields(s: Settings, flags: u8, presence: u8) -> Vec<u8> {
    let mut packet = fixed(flags, presence);
    let text = |octets: &[u8]| [uinteger(s, octets.len()), octets.to_vec()].concat();
    let domain = [uinteger(s, 2), vec![1], text(b"x"), vec![1], text("\u{20ac}".as_bytes())].concat();
    let all = [
        vec![17],
        vec![34],
        uinteger(s, 300),
        vec![0x80; 8],
        text(b"ab"),
        text("n\u{e9}".as_bytes()),
        domain,
        text(&[0xff; 2]),
    ];
    for (k, field) in all.iter().enumerate() {
        if k == 2 && flags != 0xc0 {
            packet.extend([0, 0, 0, 77]);
        }
        if presence & (0x80 >> k) != 0 {
            packet.extend(field);
        }
    }
    packet.extend([1, 2, 3]);
    packet
}

fn same_reading(s: Settings, packet: &mut [u8]) {
    packets::set_length(packet);
    assert_eq!(Library.read(s, packet), Model.read(s, packet), "{s:?}, {packet:02x?}");
}

/// Every set of fields, cut at every length: what is read at once and what goes the long way.
#[test]
fn read_cut_anywhere() {
    for profile in 0..=1 {
        let s = Settings { t: 8, profile };
        for (flags, presence) in (0..=255).flat_map(|presence| [(0x40, presence), (0xc0, presence)]) {
            let packet = fields(s, flags, presence);
            (0..=packet.len()).for_each(|length| same_reading(s, &mut packet[..length].to_vec()));
        }
    }
}

/// A text that ends about the header's limit, about a block of octets that are tested at once, and with an octet that is no text.
#[test]
fn read_texts_about_the_limit() {
    for profile in 0..=1 {
        let s = Settings { t: 8, profile };
        for n in (1..=4).chain(29..=36).chain(61..=66).chain(126..=130).chain(222..=238) {
            for presence in [0x04, 0x08, 0x02] {
                let mut packet = fixed(0xc0, presence);
                if presence == 0x02 {
                    packet.extend([uinteger(s, 1), vec![1]].concat());
                }
                packet.extend(uinteger(s, n));
                let begin = packet.len();
                packet.extend(vec![b'a'; n]);
                for body in [0, 1, 40] {
                    let mut whole = [packet.clone(), vec![b'b'; body]].concat();
                    same_reading(s, &mut whole);
                    for place in [begin, begin + n / 2, begin + n - 1] {
                        let mut spoilt = whole.clone();
                        spoilt[place] = 0xff;
                        same_reading(s, &mut spoilt);
                    }
                    whole.truncate(whole.len() - 1);
                    same_reading(s, &mut whole);
                }
            }
        }
    }
}

/// A header, mostly in range and without a zone.
fn header(r: &mut Random, s: Settings) -> Owned {
    let mut header = headers::fitting(r, s);
    if !r.once_in(12) {
        headers::without_zone(&mut header);
    }
    if r.once_in(4) {
        headers::spoil(r, &mut header);
    }
    header
}

fn numbers(r: &mut Random) -> Numbers {
    let flags = r.pick(&[0, 1, 2, 3, 3, 3]);
    let counter = if flags == 3 && !r.once_in(30) { 0 } else { r.bits(32) };
    let mut n = Numbers { flags, sequence_count: SequenceCount(r.bits(14)), counter: SegmentCounter(counter) };
    match r.below(60) {
        0 => n.flags = r.too_wide(4),
        1 => n.sequence_count = SequenceCount(r.too_wide(16_384)),
        2 => n.counter = SegmentCounter(r.too_wide(1 << 32)),
        _ => {}
    }
    n
}

#[test]
fn write() {
    let (mut r, mut tally) = (Random::new(2), Tally::new("write"));
    for case in 0..CASES {
        let s = r.settings();
        let (owned, n) = (header(&mut r, s), numbers(&mut r));
        let length = match r.below(200) {
            0 => 65_542 - 27 - r.index(60),
            1 => 70_000,
            2..=20 => 0,
            _ => r.index(50),
        };
        let body = r.octets(length);
        let size = owned.h(s).unwrap_or(40) + 10 + length;
        let room = r.room(size);
        let mut ours = r.octets(room);
        let mut theirs = ours.clone();
        let given = ours.clone();
        let answer = Library.write(s, &owned.header(), n, &body, &mut ours);
        assert_eq!(answer, Model.write(s, &owned.header(), n, &body, &mut theirs), "case {case}: {s:?}, {n:?}, {owned:?}");
        assert_eq!(ours, theirs, "case {case}: {s:?}, {n:?}, {owned:?}");
        assert!(answer.refusal == 0 || ours == given, "case {case}: octets changed on a refusal");
        tally.meet(answer.refusal);
    }
    tally.close(&[12, 13, 14, 15, 21, 22, 23, 28, 30], CASES);
}

/// Texts about the longest whose length is one octet, of single octets and not, with the room for the packet and one octet less: what is
/// written the short way and what goes the long way.
#[test]
fn write_texts_about_one_octet() {
    for (profile, flags) in [(0, 0), (0, 3), (1, 0), (1, 3)] {
        let s = Settings { t: 8, profile };
        let n = Numbers { flags, sequence_count: SequenceCount(16_383), counter: SegmentCounter(u64::from(flags == 0)) };
        for text in [0, 1, 31, 126, 127, 128, 200].map(|length| vec![b'a'; length]).into_iter().chain([b"na\xc3\xafve".to_vec(), b"\xff".to_vec()]) {
            for field in 0..3 {
                let mut owned = Owned::default();
                match field {
                    0 => (owned.n.has_session_name, owned.session_name) = (1, text.clone()),
                    1 => (owned.n.has_domain, owned.domain_lengths, owned.domain) = (1, vec![text.len() as u64, 0], text.clone()),
                    _ => (owned.n.has_authentication, owned.authentication) = (1, text.clone()),
                }
                let size = owned.h(s).unwrap_or(40) + 6 + if flags == 3 { 0 } else { 4 } + 5;
                for room in [size - 1, size, size + 9] {
                    let (mut ours, mut theirs) = (vec![0x5a; room], vec![0x5a; room]);
                    let answer = Library.write(s, &owned.header(), n, b"5 oct", &mut ours);
                    assert_eq!(answer, Model.write(s, &owned.header(), n, b"5 oct", &mut theirs), "{s:?}, {n:?}, room {room}, {owned:?}");
                    assert_eq!(ours, theirs, "{s:?}, {n:?}, room {room}, {owned:?}");
                }
            }
        }
    }
}

/// A message to cut: the settings, P, header, the body's length and the sender, near the edges where answers change.
struct Message {
    s: Settings,
    p: u64,
    owned: Owned,
    body: u64,
    sender: Sender,
}

fn message(r: &mut Random) -> Message {
    let s = r.settings();
    let owned = header(r, s);
    let h = owned.h(s).unwrap_or(100) as u64;
    let body = match r.below(40) {
        0 => 0,
        1 => r.pick(&[1_048_576, 1_048_577, 4096, 4097]),
        2..=6 => r.below(5000),
        _ => r.below(200),
    };
    let p = match r.below(12) {
        0 => r.pick(&[0, 26, 65_543, 1 << 16, 1 << 32, u64::MAX]),
        1 => r.pick(&[27, 28, 65_541, 65_542, 1022]),
        2..=4 => (6 + h + body + r.below(4)).saturating_sub(2),
        5..=7 => h + 8 + r.below(6),
        8 | 9 => h + 11 + r.below(30),
        _ => r.between(27, 400),
    };
    let carried = p.saturating_sub(h + 10).max(1);
    let near = (1u64 << 32).saturating_sub(body.div_ceil(carried));
    let counter = SegmentCounter(match r.below(12) {
        0 => u64::from(u32::MAX),
        1..=4 => (near + r.below(5)).saturating_sub(2) % (1 << 32),
        5 if r.once_in(3) => r.too_wide(1 << 32),
        _ => r.bits(32),
    });
    let sequence_count = if r.once_in(60) { r.too_wide(16_384) } else { r.bits(14) };
    Message { s, p, owned, body, sender: Sender { sequence_count: SequenceCount(sequence_count), counter } }
}

#[test]
fn cut_count() {
    let (mut r, mut tally) = (Random::new(3), Tally::new("cut_count"));
    for case in 0..CASES {
        let mut m = message(&mut r);
        if r.once_in(100) {
            m.body = r.pick(&[1 << 20, (1 << 20) + 1, 1 << 32, u64::MAX, u64::MAX - 40]);
        }
        let ours = Library.cut_count(m.s, m.p, &m.owned.header(), m.body, m.sender);
        let theirs = Model.cut_count(m.s, m.p, &m.owned.header(), m.body, m.sender);
        assert_eq!(ours, theirs, "case {case}: {:?}, P {}, B {}, {:?}, {:?}", m.s, m.p, m.body, m.sender, m.owned);
        tally.meet(ours.refusal);
    }
    tally.close(&[12, 13, 15, 22, 23, 24, 28, 29, 30], CASES);
}

#[test]
fn cut_packet() {
    let (mut r, mut tally) = (Random::new(4), Tally::new("cut_packet"));
    let long = r.octets(1_048_577);
    for case in 0..CASES {
        let m = message(&mut r);
        let given = &long[..m.body as usize];
        let count = Model.cut_count(m.s, m.p, &m.owned.header(), m.body, m.sender).count;
        let i = match r.below(8) {
            0 => r.pick(&[count, count + 1, u64::MAX, 1 << 32]),
            1 => count.saturating_sub(1),
            2 => 0,
            _ => r.below(count.max(1)),
        };
        let room = r.room(m.p.min(1500) as usize);
        let mut ours = r.octets(room);
        let mut theirs = ours.clone();
        let before = ours.clone();
        let answer = Library.cut_packet(m.s, m.p, &m.owned.header(), given, m.sender, i, &mut ours);
        let expected = Model.cut_packet(m.s, m.p, &m.owned.header(), given, m.sender, i, &mut theirs);
        assert_eq!(answer, expected, "case {case}: {:?}, P {}, B {}, i {i}, {:?}, {:?}", m.s, m.p, m.body, m.sender, m.owned);
        assert_eq!(ours, theirs, "case {case}: {:?}, P {}, B {}, i {i}, {:?}, {:?}", m.s, m.p, m.body, m.sender, m.owned);
        assert!(answer.refusal == 0 || ours == before, "case {case}: octets changed on a refusal");
        tally.meet(answer.refusal);
    }
    tally.close(&[12, 13, 15, 21, 22, 23, 24, 26, 28, 29, 30], CASES);
}

/// The count for a header whose session name is this text: what it is refused by, if it is, in both programs.
fn name_refusal(name: &[u8]) -> u64 {
    let mut owned = Owned { session_name: name.to_vec(), ..Owned::default() };
    owned.n.has_session_name = 1;
    let sender = Sender { sequence_count: SequenceCount(0), counter: SegmentCounter(0) };
    let ours = Library.cut_count(8.into(), 300, &owned.header(), 1, sender);
    assert_eq!(ours, Model.cut_count(8.into(), 300, &owned.header(), 1, sender), "session name {name:02x?}");
    ours.refusal
}

/// Every text of two octets; every truncation of every form of a character, at every place about a block's end; texts up to the longest,
/// and the same with an octet changed.
#[test]
fn texts() {
    let mut tally = Tally::new("texts");
    for two in 0..=u16::MAX {
        tally.meet(name_refusal(&two.to_be_bytes()));
    }
    let forms = ['\0', '\u{7f}', '\u{80}', '\u{7ff}', '\u{800}', '\u{d7ff}', '\u{e000}', '\u{ffff}', '\u{10000}', '\u{10ffff}'];
    for (before, form) in (0..70).flat_map(|before| forms.map(|form| (before, form))) {
        let mut octets = [0; 4];
        let octets = form.encode_utf8(&mut octets).as_bytes();
        for (cut, after) in (0..=octets.len()).flat_map(|cut| [0, 1, 2, 3, 40].map(|after| (cut, after))) {
            let text = [&vec![0x61; before][..], &octets[..cut], &vec![0x62; after]].concat();
            tally.meet(name_refusal(&text));
        }
    }
    let mut r = Random::new(6);
    for length in (0..300).chain([4096, 65_533, 65_534, 65_535]) {
        let mut text = r.text(length);
        tally.meet(name_refusal(&text));
        for _ in 0..20.min(length) {
            let at = r.index(length);
            let was = std::mem::replace(&mut text[at], r.any() as u8);
            tally.meet(name_refusal(&text));
            text[at] = was;
        }
        tally.meet(name_refusal(&r.octets(length)));
    }
    tally.close(&[12, 28], 80_000);
}

/// A zone beside every other fault: what the writer and both calls of cutting are refused by, in both programs.
fn withdrawn(t: u64, owned: &Owned, expected: u64) {
    let sender = Sender { sequence_count: SequenceCount(0), counter: SegmentCounter(0) };
    let n = Numbers { flags: 3, sequence_count: SequenceCount(0), counter: SegmentCounter(0) };
    for program in [&Library as &dyn Calls, &Model] {
        let (mut out, head) = (vec![0x5a; 64], owned.header());
        let told = [
            program.write(t.into(), &head, n, &[1], &mut out).refusal,
            program.cut_count(t.into(), 64, &head, 1, sender).refusal,
            program.cut_packet(t.into(), 64, &head, &[1], sender, 0, &mut out).refusal,
        ];
        assert_eq!(told, [expected; 3], "{}: T {t}, zone of {} octets, {:?}", program.name(), owned.zone.len(), owned.n);
        assert!(out.iter().all(|octet| *octet == 0x5a), "{}: octets changed on a refusal", program.name());
    }
}

#[test]
fn withdrawn_zone() {
    let with = |zone: &[u8]| {
        let mut o = Owned { zone: zone.to_vec(), ..Owned::default() };
        o.n.has_zone = 1;
        o
    };
    for zone in [&b""[..], b"a", b"\xff", &[0x61; 300], &[0x61; 65_535]] {
        withdrawn(8, &with(zone), 30);
        withdrawn(0, &with(zone), 15);
        let mut idle = with(zone);
        idle.n.apid = 2047;
        withdrawn(8, &idle, 22);
        let mut parts = with(zone);
        (parts.n.has_domain, parts.domain_lengths, parts.domain) = (1, vec![1; 17], vec![0xff; 17]);
        withdrawn(8, &parts, 30);
    }
    withdrawn(8, &with(&[0x61; 65_536]), 22);
    let mut absent = with(b"a");
    absent.n.has_zone = 0;
    withdrawn(8, &absent, 22);
}
