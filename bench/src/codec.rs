//! Reading, writing and cutting.

use std::hint::black_box;

use crate::measure::{both, line};
use crate::shapes::{full, packet, plain, values, T};
use orlyukan::{Header, Reading, SegmentCounter, Sender, SequenceCount};

/// Takes in every field of an answer.
fn sum(r: &Reading) -> u64 {
    let places = [r.timestamp, r.zone, r.session_name, r.authentication, r.body];
    let texts: u64 = places.iter().chain(&r.domain).map(|p| p.place ^ p.length << 20).sum();
    let has = [
        r.has_source,
        r.has_destination,
        r.has_priority,
        r.has_timestamp,
        r.has_zone,
        r.has_session_name,
        r.has_domain,
        r.has_authentication,
    ];
    let presence = has.iter().fold(0, |octet, flag| octet << 1 | flag);
    let names =
        r.packet_type + r.apid.0 + r.flags + r.sequence_count.0 + r.sdu + r.area + r.service + r.operation + r.area_version;
    let ids = r.source + r.destination + r.counter.0 + r.priority + r.domain_count + r.h + r.refusal;
    let routing = r.error + r.qos + r.session + r.secondary_apid.0 + r.qualifier;
    r.transaction ^ (texts + presence + names + ids + routing)
}

/// Takes in every field of the model's answer; a timestamp's length is T.
fn model_sum(answer: &Result<model::Reading, model::Refusal>) -> u64 {
    let r = match answer {
        Ok(reading) => reading,
        Err(model::Refusal { number, .. }) => return u64::from(*number),
    };
    let stamp = model::Span { place: r.timestamp, length: if r.has(3) { T as u32 } else { 0 } };
    let places = [stamp, r.zone, r.session_name, r.authentication, r.body];
    let texts: u64 = places.iter().chain(&r.domain).map(|p| u64::from(p.place) ^ u64::from(p.length) << 20).sum();
    let names =
        u64::from(r.packet_type) + u64::from(r.apid) + u64::from(r.flags) + u64::from(r.sequence_count) + u64::from(r.sdu);
    let words = u64::from(r.area) + u64::from(r.service) + u64::from(r.operation) + u64::from(r.area_version);
    let ids = u64::from(r.source) + u64::from(r.destination) + u64::from(r.counter) + u64::from(r.priority);
    let ends = u64::from(r.domain_count) + u64::from(r.h) + u64::from(r.presence);
    let routing =
        u64::from(r.error) + u64::from(r.qos) + u64::from(r.session) + u64::from(r.secondary_apid) + u64::from(r.qualifier);
    r.transaction ^ (texts + names + words + ids + ends + routing)
}

fn read(shape: &str, packet: &[u8]) {
    let times = both(&mut || sum(&orlyukan::read(black_box(T), black_box(packet))), &mut || {
        model_sum(&model::read(black_box(T), black_box(packet)))
    });
    line("read", shape, times, "1.0");
}

/// A plain copy of the same octets beside reading them: what a call costs that looks at nothing.
fn copy(shape: &str, packet: &[u8]) {
    let mut out = vec![0; packet.len()];
    let mut copied = || {
        black_box(&mut out).copy_from_slice(black_box(packet));
        0
    };
    let mut reading = || {
        black_box(sum(&orlyukan::read(black_box(T), black_box(packet))));
        0
    };
    let times = both(&mut reading, &mut copied);
    line("read, over a copy", shape, times, "-");
}

fn write(shape: &str, header: &Header, flags: u64, counter: u64, octets: usize) {
    let made = packet(header, flags, 3, counter, octets);
    let place = orlyukan::read(T, &made).body.place as usize;
    let body = made[place..].to_vec();
    let (mut ours, mut theirs) = (vec![0; 2000], vec![0; 2000]);
    let lent = values(header);
    let times = both(
        &mut || {
            let own = (SequenceCount(3), SegmentCounter(counter));
            let a =
                orlyukan::write(black_box(T), black_box(header), flags, own.0, own.1, black_box(&body), black_box(&mut ours));
            a.refusal + a.length
        },
        &mut || {
            let a = model::write(black_box(T), black_box(&lent), flags, 3, counter, black_box(&body), black_box(&mut theirs));
            a.map_or_else(|refusal| refusal.number as u64, |length| length as u64)
        },
    );
    assert!(ours == theirs && ours[..octets] == made, "the outputs differ");
    line("write", shape, times, "0.9");
}

/// The count, then every packet, all into one output.
fn cut() {
    let (header, body, p) = (plain(9), vec![0x5a; 1_048_576], 1022);
    let lent = values(&header);
    let (mut ours, mut theirs) = (vec![0; 1022], vec![0; 1022]);
    let given = Sender { sequence_count: SequenceCount(5), counter: SegmentCounter(7) };
    let model_given = model::Sender { sequence_count: 5, counter: 7 };
    let times = both(
        &mut || {
            let counted = orlyukan::cut_count(T, p, black_box(&header), body.len() as u64, given);
            let mut total = counted.refusal + counted.count + counted.sender.sequence_count.0 + counted.sender.counter.0;
            for i in 0..counted.count {
                let made = orlyukan::cut_packet(T, p, black_box(&header), black_box(&body), given, i, black_box(&mut ours));
                total += made.refusal + made.length + made.sender.sequence_count.0;
            }
            total
        },
        &mut || {
            let Ok((count, after)) = model::count(T, p, black_box(&lent), body.len() as u64, model_given) else { return 0 };
            let mut total = count + after.sequence_count + after.counter;
            for i in 0..count {
                let made = model::packet(T, p, black_box(&lent), black_box(&body), model_given, i, black_box(&mut theirs));
                total += made.map_or_else(|refusal| refusal.number as u64, |length| length as u64) + model_given.sequence_count;
            }
            total
        },
    );
    line("cut", "1 MiB at P 1,022: the count and 1,059 packets", times, "-");
}

/// The count for a header with a long session name: all of it is looked through, and then it is refused by 12. The model goes by Rust's own
/// test of UTF-8, so that but for some tens of nanoseconds the ratio is that of the two tests.
fn text(shape: &str, session_name: &[u8]) {
    let header = Header { has_session_name: 1, session_name, ..plain(9) };
    let lent = values(&header);
    let given = Sender { sequence_count: SequenceCount(5), counter: SegmentCounter(7) };
    let model_given = model::Sender { sequence_count: 5, counter: 7 };
    let times = both(&mut || orlyukan::cut_count(T, 1022, black_box(&header), 100, given).refusal, &mut || {
        model::count(T, 1022, black_box(&lent), 100, model_given).map_or_else(|refusal| u64::from(refusal.number), |_| 0)
    });
    line("cut_count", shape, times, "0.8");
}

/// Text of just so many octets: the characters in turn, and blanks where the next would go past the end.
fn repeated(characters: &str, octets: usize) -> Vec<u8> {
    let mut made = String::new();
    for next in characters.chars().cycle() {
        if made.len() + next.len_utf8() > octets {
            break;
        }
        made.push(next);
    }
    let mut made = made.into_bytes();
    made.resize(octets, b' ');
    made
}

pub fn run() {
    let (small, large) = (packet(&plain(9), 3, 3, 0, 60), packet(&full(), 1, 3, 77, 1000));
    read("60 octets, plain", &small);
    read("1,000 octets, every optional field but a zone, sixteen parts", &large);
    copy("60 octets: a plain copy of them in place of the model", &small);
    copy("1,000 octets: a plain copy of them in place of the model", &large);
    write("60 octets, plain", &plain(9), 3, 0, 60);
    write("1,000 octets, every optional field but a zone, sixteen parts", &full(), 1, 77, 1000);
    cut();
    text("a session name of 65,535 octets, all ASCII", &repeated("pipe inspection, north ", 65_535));
    text(
        "a session name of 65,535 octets, each fourth character of two or three in turn",
        &repeated("pip\u{e9}nor\u{20ac}", 65_535),
    );
    text("a session name of 65,535 octets, all of three", &repeated("\u{20ac}", 65_535));
}
