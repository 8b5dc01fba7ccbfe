//! The inputs that are timed.

use orlyukan::{Apid, Header, SecondaryApid, SegmentCounter, SequenceCount};

pub const T: u64 = 8;

/// The header of figure 14, with a transaction id of its own.
pub fn plain(transaction: u64) -> Header<'static> {
    Header {
        packet_type: 1,
        apid: Apid(5),
        area: 1,
        service: 2,
        operation: 3,
        area_version: 1,
        qos: 1,
        secondary_apid: SecondaryApid(6),
        qualifier: 7,
        transaction,
        ..Header::default()
    }
}

/// Every optional field but a network zone, which is withdrawn, and a domain of sixteen parts.
pub fn full() -> Header<'static> {
    Header {
        has_source: 1,
        has_destination: 1,
        has_priority: 1,
        has_timestamp: 1,
        has_session_name: 1,
        has_domain: 1,
        has_authentication: 1,
        source: 17,
        destination: 34,
        priority: 70_000,
        timestamp: b"8 octets",
        session_name: b"pipe inspection",
        domain: b"esteamkm40lagthermalpodcameratilesnorthsouthflightpilotkeyab",
        domain_lengths: &[1, 5, 2, 2, 3, 7, 3, 6, 5, 5, 5, 6, 5, 1, 2, 2],
        authentication: b"sixteen octets..",
        ..plain(9)
    }
}

/// The same header for the model.
pub fn values<'a>(h: &Header<'a>) -> model::Values<'a> {
    model::Values {
        packet_type: h.packet_type,
        apid: h.apid.0,
        sdu: h.sdu,
        area: h.area,
        service: h.service,
        operation: h.operation,
        area_version: h.area_version,
        error: h.error,
        qos: h.qos,
        session: h.session,
        secondary_apid: h.secondary_apid.0,
        qualifier: h.qualifier,
        transaction: h.transaction,
        has_source: h.has_source,
        has_destination: h.has_destination,
        has_priority: h.has_priority,
        has_timestamp: h.has_timestamp,
        has_zone: h.has_zone,
        has_session_name: h.has_session_name,
        has_domain: h.has_domain,
        has_authentication: h.has_authentication,
        source: h.source,
        destination: h.destination,
        priority: h.priority,
        timestamp: h.timestamp,
        zone: h.zone,
        session_name: h.session_name,
        domain: h.domain,
        domain_lengths: h.domain_lengths,
        authentication: h.authentication,
    }
}

/// A packet of these values and so many octets in all.
pub fn packet(header: &Header, flags: u64, sequence_count: u64, counter: u64, octets: usize) -> Vec<u8> {
    let (sequence_count, counter) = (SequenceCount(sequence_count), SegmentCounter(counter));
    let mut out = vec![0; octets + 300];
    let empty = orlyukan::write(T, header, flags, sequence_count, counter, &[7], &mut out).length as usize - 1;
    let body: Vec<u8> = (0..octets - empty).map(|i| (i * 7 + 3) as u8).collect();
    let written = orlyukan::write(T, header, flags, sequence_count, counter, &body, &mut out);
    assert_eq!((written.refusal, written.length), (0, octets as u64));
    out.truncate(octets);
    out
}

/// The segments of a message, each a packet of so many octets.
pub fn segments(header: &Header, count: u64, octets: usize) -> Vec<Vec<u8>> {
    let flags = |i| match i {
        0 => 1,
        _ if i + 1 == count => 2,
        _ => 0,
    };
    (0..count).map(|i| packet(header, flags(i), i % 16_384, i, octets)).collect()
}
