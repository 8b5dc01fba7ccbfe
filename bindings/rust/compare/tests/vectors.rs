//! The cases with their answers: the library and the model must give them all, to the last octet of every lent buffer.

use compare::calls::{Calls, Library, Model};
use compare::cases::{self, Lent};
use compare::json::Json;
use orlyukan::Entry;

/// Runs the cases of a call, each with what is expected of it, through one program and the other.
fn each(call: &str, run: impl Fn(&dyn Calls, &Json, &Json)) {
    for case in cases::load(call).unwrap_or_default() {
        for program in [&Library as &dyn Calls, &Model] {
            run(program, &case, case.get("expect"));
        }
    }
}

#[test]
fn read() {
    each("read", |program, case, expect| {
        let s = cases::settings(case);
        let answer = program.read(s, &case.octets("packet"));
        assert_eq!(answer, cases::reading(s.t, expect.get("answer")), "{}: {case:?}", program.name());
    });
}

#[test]
fn write() {
    each("write", |program, case, expect| {
        let (lent, mut out) = (Lent::new(case.get("header")), case.octets("out"));
        let answer = program.write(cases::settings(case), &lent.header(), cases::numbers(case), &case.octets("body"), &mut out);
        assert_eq!(answer, cases::written(expect.get("answer")), "{}: {case:?}", program.name());
        assert_eq!(out, expect.octets("out"), "{}: {case:?}", program.name());
    });
}

#[test]
fn count() {
    each("count", |program, case, expect| {
        let (lent, sender) = (Lent::new(case.get("header")), cases::sender(case.get("sender")));
        let (s, p) = (cases::settings(case), case.number("P"));
        let answer = program.cut_count(s, p, &lent.header(), case.number("body_length"), sender);
        assert_eq!(answer, cases::cut(expect.get("answer")), "{}: {case:?}", program.name());
    });
}

#[test]
fn packet() {
    each("packet", |program, case, expect| {
        let (lent, sender) = (Lent::new(case.get("header")), cases::sender(case.get("sender")));
        let (s, p, mut out) = (cases::settings(case), case.number("P"), case.octets("out"));
        let answer = program.cut_packet(s, p, &lent.header(), &case.octets("body"), sender, case.number("i"), &mut out);
        assert_eq!(answer, cases::cut_packet(expect.get("answer")), "{}: {case:?}", program.name());
        assert_eq!(out, expect.octets("out"), "{}: {case:?}", program.name());
    });
}

#[test]
fn in_order() {
    each("in_order", |program, case, expect| {
        let answer = program.in_order(cases::settings(case), &case.octets("store"));
        assert_eq!(answer.refusal, expect.get("answer").number("refusal"), "{}: {case:?}", program.name());
    });
}

#[test]
fn arrive() {
    each("arrive", |program, case, expect| {
        let mut store = case.octets("store");
        let answer = program.arrive(cases::settings(case), &mut store, &case.octets("packet"));
        assert_eq!(answer, cases::arrived(expect.get("answer")), "{}: {case:?}", program.name());
        assert_eq!(store, expect.octets("store"), "{}: {case:?}", program.name());
    });
}

#[test]
fn take() {
    each("take", |program, case, expect| {
        let (mut store, mut out) = (case.octets("store"), case.octets("out"));
        let answer = program.take(cases::settings(case), &mut store, &mut out);
        assert_eq!(answer, cases::taken(expect.get("answer")), "{}: {case:?}", program.name());
        assert_eq!(store, expect.octets("store"), "{}: {case:?}", program.name());
        assert_eq!(out, expect.octets("out"), "{}: {case:?}", program.name());
    });
}

#[test]
fn forget() {
    each("forget", |program, case, expect| {
        let mut store = case.octets("store");
        let answer = program.forget(cases::settings(case), &mut store, case.number("number"));
        assert_eq!(answer.refusal, expect.get("answer").number("refusal"), "{}: {case:?}", program.name());
        assert_eq!(store, expect.octets("store"), "{}: {case:?}", program.name());
    });
}

#[test]
fn join() {
    each("join", |program, case, expect| {
        let (mut store, mut out) = (case.octets("store"), case.octets("out"));
        let answer = program.join(cases::settings(case), &mut store, &case.octets("packet"), &mut out);
        assert_eq!(answer, cases::joined(expect.get("answer")), "{}: {case:?}", program.name());
        assert_eq!(store, expect.octets("store"), "{}: {case:?}", program.name());
        assert_eq!(out, expect.octets("out"), "{}: {case:?}", program.name());
    });
}

#[test]
fn view() {
    each("view", |program, case, expect| {
        let (packet, joined) = (case.octets("packet"), case.octets("joined"));
        let which = cases::which(case.text("which"));
        let part = program.view(&packet, &joined, which, case.number("place"), case.number("length"));
        assert_eq!(part, expect.get("answer").octets("part"), "{}: {case:?}", program.name());
    });
}

#[test]
fn program() {
    each("program", |program, case, expect| {
        let recording = case.octets("stream");
        let mut out = vec![0; recording.len()];
        let answer = program.join_recording(8.into(), &recording, &mut out);
        assert_eq!(answer.refusal, expect.get("answer").number("refusal"), "{}: {case:?}", program.name());
        assert_eq!(out[..answer.written as usize], expect.octets("out"), "{}: {case:?}", program.name());
    });
}

/// What stands in a list before a call.
const UNTOUCHED: Entry = Entry { kind: 7, place: 7, length: 7 };

/// A list of so many entries with these at its front.
fn list_of(entries: &[Json], free: u64) -> Vec<Entry> {
    let mut list: Vec<Entry> = entries.iter().map(cases::entry).collect();
    list.resize(free as usize, UNTOUCHED);
    list
}

#[test]
fn salvage() {
    each("salvage", |program, case, expect| {
        let (file, (begin, place)) = (case.octets("file"), cases::state(case.get("state")));
        let mut list = list_of(&[], case.number("free"));
        let answer = program.salvage(cases::settings(case), &file, begin, place, case.number("grant"), &mut list);
        let said = expect.get("answer");
        let entries = said.list("entries");
        assert_eq!(answer, cases::salvaged(said, said.number("refusal"), entries.len() as u64), "{}: {case:?}", program.name());
        assert_eq!(list, list_of(entries, case.number("free")), "{}: {case:?}", program.name());
    });
}

#[test]
fn salvage_run() {
    each("salvage_run", |program, case, expect| {
        let (s, file, said) = (cases::settings(case), case.octets("file"), expect.get("answer"));
        let (mut begin, mut place, mut listed, mut steps) = (0, 0, 0, 0);
        for (given, part) in case.list("calls").iter().zip(said.list("each")) {
            let Json::List(given) = given else { panic!("no grant and room: {given:?}") };
            let (grant, free, entries) = (given[0].as_number(), given[1].as_number(), part.number("listed") as usize);
            let mut list = list_of(&[], free);
            let answer = program.salvage(s, &file, begin, place, grant, &mut list);
            assert_eq!(answer, cases::salvaged(part, 0, entries as u64), "{}: {case:?}", program.name());
            let expected = list_of(&said.list("entries")[listed..listed + entries], free);
            assert_eq!(list, expected, "{}: {case:?}", program.name());
            (begin, place, listed, steps) = (answer.begin, answer.place, listed + entries, steps + answer.tested);
        }
        assert_eq!((listed, steps), (said.list("entries").len(), said.number("steps")), "{}: {case:?}", program.name());
    });
}

#[test]
fn to_pdu() {
    each("to_pdu", |program, case, expect| {
        let mut out = case.octets("out");
        let answer = program.to_pdu(cases::settings(case), &case.octets("message"), case.number("encoding_id"), &mut out);
        assert_eq!(answer, cases::sent(expect.get("answer")), "{}: {case:?}", program.name());
        assert_eq!(out, expect.octets("out"), "{}: {case:?}", program.name());
    });
}

#[test]
fn to_message() {
    each("to_message", |program, case, expect| {
        let (mut out, said) = (case.octets("out"), expect.get("answer"));
        let answer = program.to_message(cases::settings(case), &case.octets("pdu"), cases::route(case.get("lent")), &mut out);
        let told = [answer.refusal, answer.h, answer.b, answer.encoding_id, answer.off];
        assert_eq!(
            told,
            ["refusal", "H", "B", "encoding_id", "off"].map(|name| said.number(name)),
            "{}: {case:?}",
            program.name()
        );
        assert_eq!(out, expect.octets("out"), "{}: {case:?}", program.name());
    });
}

/// The Varint alone has no call of the library: the model's, on which its reading and writing stand.
#[test]
fn varint_read() {
    for case in cases::load("varint_read").unwrap_or_default() {
        let (value, next, refusal) = match model::read_varint(&case.octets("octets"), case.number("at") as usize) {
            Ok((value, next)) => (value.into(), next as u64, 0),
            Err(model::Refusal { number, .. }) => (0, 0, number.into()),
        };
        let expect = case.get("expect").get("answer");
        assert_eq!(
            (refusal, value, next),
            (expect.number("refusal"), expect.number("value"), expect.number("next")),
            "{case:?}"
        );
    }
}

#[test]
fn varint_write() {
    for case in cases::load("varint_write").unwrap_or_default() {
        let mut out = case.octets("out");
        let (refusal, length) = match model::write_varint(case.number("value"), &mut out) {
            Ok(length) => (0, length as u64),
            Err(model::Refusal { number, .. }) => (number.into(), 0),
        };
        let expect = case.get("expect");
        assert_eq!(
            (refusal, length),
            (expect.get("answer").number("refusal"), expect.get("answer").number("length")),
            "{case:?}"
        );
        assert_eq!(out, expect.octets("out"), "{case:?}");
    }
}
