//! The cases with their answers, outside the repository: where they stand, and what their names say in the library's terms.

use std::{env, fs, path::PathBuf};

use crate::calls::Numbers;
use crate::json::{parse, Json};
use orlyukan::{
    raw, Apid, Arrived, Cut, CutPacket, Entry, Header, Joined, Kind, Place, Reading, Route, Salvaged, SecondaryApid,
    SegmentCounter, Sender, Sent, SequenceCount, Settings, Taken, Which, Written, VARINT,
};

/// The change requests that have landed and have cases of their own, in the order in which they landed.
const LANDED: [&str; 8] = ["T-01", "T-04", "T-12", "T-10", "T-09", "T-08", "T-02", "T-06"];

/// The cases of a call, from the latest folder that has some, or nothing, with a word, if the folder is missing.
pub fn load(call: &str) -> Option<Vec<Json>> {
    let here = PathBuf::from(env!("CARGO_MANIFEST_DIR"));
    let folder = env::var_os("ORLYUKAN_VECTORS").map_or_else(|| here.join("../../../../shared/vectors"), PathBuf::from);
    if !folder.is_dir() {
        println!("skipped: no folder {} with cases", folder.display());
        return None;
    }
    let name = format!("{call}.jsonl");
    let of_request = LANDED.iter().rev().map(|request| folder.join(request).join(&name)).find(|file| file.is_file());
    let file = of_request.unwrap_or_else(|| folder.join(&name));
    let text = fs::read_to_string(file).expect("the folder has a file for each call");
    let cases: Vec<Json> = text.lines().map(parse).collect();
    println!("{call}: {} cases", cases.len());
    Some(cases)
}

/// What a header to write borrows from.
pub struct Lent {
    json: Json,
    timestamp: Vec<u8>,
    zone: Vec<u8>,
    session_name: Vec<u8>,
    domain: Vec<u8>,
    domain_lengths: Vec<u64>,
    authentication: Vec<u8>,
}

impl Lent {
    pub fn new(json: &Json) -> Self {
        Lent {
            timestamp: json.octets("timestamp"),
            zone: json.octets("zone"),
            session_name: json.octets("session_name"),
            domain: json.octets("domain"),
            domain_lengths: json.list("domain_lengths").iter().map(Json::as_number).collect(),
            authentication: json.octets("authentication"),
            json: json.clone(),
        }
    }

    pub fn header(&self) -> Header<'_> {
        let n = |name| self.json.number(name);
        Header {
            packet_type: n("packet_type"),
            apid: Apid(n("apid")),
            sdu: n("sdu"),
            area: n("area"),
            service: n("service"),
            operation: n("operation"),
            area_version: n("area_version"),
            error: n("error"),
            qos: n("qos"),
            session: n("session"),
            secondary_apid: SecondaryApid(n("secondary_apid")),
            qualifier: n("qualifier"),
            transaction: n("transaction"),
            has_source: n("has_source"),
            has_destination: n("has_destination"),
            has_priority: n("has_priority"),
            has_timestamp: n("has_timestamp"),
            has_zone: n("has_zone"),
            has_session_name: n("has_session_name"),
            has_domain: n("has_domain"),
            has_authentication: n("has_authentication"),
            source: n("source"),
            destination: n("destination"),
            priority: n("priority"),
            timestamp: &self.timestamp,
            zone: &self.zone,
            session_name: &self.session_name,
            domain: &self.domain,
            domain_lengths: &self.domain_lengths,
            authentication: &self.authentication,
        }
    }
}

/// T and the profile; a case that says none has Varints.
pub fn settings(case: &Json) -> Settings {
    Settings { t: case.number("T"), profile: case.number_or("profile", VARINT) }
}

fn place(json: &Json) -> Place {
    Place { place: json.number("place"), length: json.number("length") }
}

pub fn numbers(case: &Json) -> Numbers {
    let (sequence_count, counter) = (SequenceCount(case.number("seq")), SegmentCounter(case.number("counter")));
    Numbers { flags: case.number("flags"), sequence_count, counter }
}

pub fn sender(json: &Json) -> Sender {
    Sender { sequence_count: SequenceCount(json.number("seq")), counter: SegmentCounter(json.number("counter")) }
}

/// What a reading says; the length of a timestamp is T.
pub fn reading(t: u64, json: &Json) -> Reading {
    let n = |name| json.number(name);
    let mut domain = [Place::default(); 16];
    for (part, said) in domain.iter_mut().zip(json.list("domain")) {
        *part = place(said);
    }
    Reading {
        refusal: n("refusal"),
        packet_type: n("packet_type"),
        apid: Apid(n("apid")),
        flags: n("flags"),
        sequence_count: SequenceCount(n("seq")),
        sdu: n("sdu"),
        area: n("area"),
        service: n("service"),
        operation: n("operation"),
        area_version: n("area_version"),
        error: n("error"),
        qos: n("qos"),
        session: n("session"),
        secondary_apid: SecondaryApid(n("secondary_apid")),
        qualifier: n("qualifier"),
        transaction: n("transaction"),
        has_source: n("has_source"),
        has_destination: n("has_destination"),
        has_priority: n("has_priority"),
        has_timestamp: n("has_timestamp"),
        has_zone: n("has_zone"),
        has_session_name: n("has_session_name"),
        has_domain: n("has_domain"),
        has_authentication: n("has_authentication"),
        source: n("source"),
        destination: n("destination"),
        counter: SegmentCounter(n("counter")),
        priority: n("priority"),
        timestamp: Place { place: n("timestamp"), length: if n("has_timestamp") == 1 { t } else { 0 } },
        zone: place(json.get("zone")),
        session_name: place(json.get("session_name")),
        domain_count: n("domain_count"),
        domain,
        authentication: place(json.get("authentication")),
        h: n("H"),
        body: place(json.get("body")),
        off: n("off"),
        began: n("began"),
        withdrawn: n("withdrawn"),
    }
}

pub fn written(json: &Json) -> Written {
    Written { refusal: json.number("refusal"), length: json.number("length") }
}

pub fn cut(json: &Json) -> Cut {
    Cut { refusal: json.number("refusal"), count: json.number("count"), sender: sender(json.get("sender")) }
}

pub fn cut_packet(json: &Json) -> CutPacket {
    CutPacket { refusal: json.number("refusal"), length: json.number("length"), sender: sender(json.get("sender")) }
}

pub fn arrived(json: &Json) -> Arrived {
    let kind = match json.text("kind") {
        "whole" => Some(Kind::Whole),
        "stored" => Some(Kind::Stored),
        "held" => Some(Kind::Held),
        "taken" => Some(Kind::Taken),
        other => {
            assert_eq!(other, "", "no kind of arrival");
            None
        }
    };
    Arrived { refusal: json.number("refusal"), kind, off: json.number("off"), began: json.number("began") }
}

pub fn taken(json: &Json) -> Taken {
    let counter = SegmentCounter(json.number("c"));
    Taken { refusal: json.number("refusal"), h: json.number("H"), b: json.number("B"), counter }
}

pub fn which(name: &str) -> Which {
    match name {
        "packet" => Which::Packet,
        "joined" => Which::Joined,
        other => {
            assert_eq!(other, "", "no buffer");
            Which::Nothing
        }
    }
}

pub fn joined(json: &Json) -> Joined {
    let Taken { refusal, h, b, counter } = taken(json);
    Joined {
        refusal,
        which: which(json.text("which")),
        place: json.number("place"),
        length: json.number("length"),
        h,
        b,
        counter,
        off: json.number("off"),
        began: json.number("began"),
    }
}

/// A state of salvaging: where the open stretch begins, and the next place.
pub fn state(json: &Json) -> (u64, u64) {
    let place = json.number("place");
    match json.get("open") {
        Json::Null => (place, place),
        open => (open.as_number(), place),
    }
}

/// An entry: kind, place, length.
pub fn entry(json: &Json) -> Entry {
    let Json::List(three) = json else { panic!("no entry: {json:?}") };
    let kind = match &three[0] {
        Json::Text(kind) if kind == "kept" => raw::ORL_KEPT,
        Json::Text(kind) if kind == "skipped" => raw::ORL_SKIPPED,
        other => panic!("no kind of entry: {other:?}"),
    };
    Entry { kind, place: three[1].as_number(), length: three[2].as_number() }
}

/// What a call of salvaging comes to that lists so many entries.
pub fn salvaged(json: &Json, refusal: u64, entries: u64) -> Salvaged {
    let (begin, place) = state(json.get("state"));
    Salvaged { refusal, tested: json.number("tested"), entries, begin, place, done: json.flag("done") }
}

pub fn sent(answer: &Json) -> Sent {
    let n = |name| answer.number(name);
    Sent { refusal: n("refusal"), length: n("length"), header_length: n("header_length"), began: n("began") }
}

pub fn route(lent: &Json) -> Route {
    let n = |name| lent.number(name);
    Route {
        packet_type: n("packet_type"),
        apid: Apid(n("apid")),
        secondary_apid: SecondaryApid(n("secondary_apid")),
        qualifier: n("qualifier"),
    }
}
