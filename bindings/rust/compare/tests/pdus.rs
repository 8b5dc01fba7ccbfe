//! The cases of the survey office's PDU with their answers, read and written by the library.

use compare::cases;
use compare::json::Json;
use orlyukan::{pdu_read, pdu_write, PduHeader, PduWritten, Place};

const TEXTS: [&str; 6] = ["source", "destination", "timestamp", "zone", "session_name", "authentication"];

/// A header's lengths of domain parts.
fn lengths(header: &Json) -> Vec<u64> {
    header.list("domain_lengths").iter().map(Json::as_number).collect()
}

/// A case's header without its texts.
fn numbers(header: &Json) -> PduHeader<'static> {
    let n = |name| header.number(name);
    PduHeader {
        sdu: n("sdu"),
        area: n("area"),
        service: n("service"),
        operation: n("operation"),
        area_version: n("area_version"),
        error: n("error"),
        qos: n("qos"),
        session: n("session"),
        transaction: n("transaction"),
        has_source: n("has_source"),
        has_destination: n("has_destination"),
        has_priority: n("has_priority"),
        has_timestamp: n("has_timestamp"),
        has_zone: n("has_zone"),
        has_session_name: n("has_session_name"),
        has_domain: n("has_domain"),
        has_authentication: n("has_authentication"),
        encoding_id: n("encoding_id"),
        priority: n("priority"),
        ..PduHeader::default()
    }
}

#[test]
fn read() {
    for case in cases::load("pdu_read").unwrap_or_default() {
        let (pdu, said) = (case.octets("pdu"), case.get("expect").get("answer"));
        let (answer, header) = (pdu_read(&pdu), said.get("header"));
        let text = |place: Place| &pdu[place.place as usize..][..place.length as usize];
        let told = PduHeader {
            sdu: answer.sdu,
            area: answer.area,
            service: answer.service,
            operation: answer.operation,
            area_version: answer.area_version,
            error: answer.error,
            qos: answer.qos,
            session: answer.session,
            transaction: answer.transaction,
            has_source: answer.has_source,
            has_destination: answer.has_destination,
            has_priority: answer.has_priority,
            has_timestamp: answer.has_timestamp,
            has_zone: answer.has_zone,
            has_session_name: answer.has_session_name,
            has_domain: answer.has_domain,
            has_authentication: answer.has_authentication,
            encoding_id: answer.encoding_id,
            priority: answer.priority,
            ..PduHeader::default()
        };
        assert_eq!(told, numbers(header), "{case:?}");
        let places =
            [answer.source, answer.destination, answer.timestamp, answer.zone, answer.session_name, answer.authentication];
        assert_eq!(places.map(text).map(<[u8]>::to_vec), TEXTS.map(|name| header.octets(name)), "{case:?}");
        let (parts, rest) = answer.domain.split_at(answer.domain_count as usize);
        assert_eq!(
            parts.iter().flat_map(|part| text(*part)).copied().collect::<Vec<u8>>(),
            header.octets("domain"),
            "{case:?}"
        );
        assert_eq!(parts.iter().map(|part| part.length).collect::<Vec<u64>>(), lengths(header), "{case:?}");
        assert!(rest.iter().all(|part| *part == Place::default()), "{case:?}");
        let body = said.get("body");
        assert_eq!(
            [answer.refusal, answer.variable_length, answer.body.place, answer.body.length, answer.off],
            [
                said.number("refusal"),
                said.number("variable_length"),
                body.number("place"),
                body.number("length"),
                said.number("off")
            ],
            "{case:?}"
        );
    }
}

#[test]
fn write() {
    for case in cases::load("pdu_write").unwrap_or_default() {
        let (header, mut out, said) = (case.get("header"), case.octets("out"), case.get("expect").get("answer"));
        let [source, destination, timestamp, zone, session_name, authentication] = TEXTS.map(|name| header.octets(name));
        let (domain, domain_lengths) = (header.octets("domain"), lengths(header));
        let values = PduHeader {
            source: &source,
            destination: &destination,
            timestamp: &timestamp,
            zone: &zone,
            session_name: &session_name,
            domain: &domain,
            domain_lengths: &domain_lengths,
            authentication: &authentication,
            ..numbers(header)
        };
        let answer = pdu_write(&values, &case.octets("body"), &mut out);
        let n = |name| said.number(name);
        let written = PduWritten { refusal: n("refusal"), length: n("length"), header_length: n("header_length") };
        assert_eq!(answer, written, "{case:?}");
        assert_eq!(out, case.get("expect").octets("out"), "{case:?}");
    }
}
