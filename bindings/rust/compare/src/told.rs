//! The model's answers in the library's terms: on a refusal its number, what it tells if it is one of reading, and zeros.

use model::Refusal;
use orlyukan::{
    Apid, Arrived, Cut, CutPacket, Entry, Forgot, Header, Joined, Kind, Order, Place, Reading, Recording, Returned, Route,
    Salvaged, SecondaryApid, SegmentCounter, Sender, Sent, SequenceCount, Settings, Stop, Taken, Which, Written,
};

pub fn settings(s: Settings) -> model::Settings {
    model::Settings { t: s.t, profile: s.profile }
}

fn place(span: model::Span) -> Place {
    Place { place: span.place.into(), length: span.length.into() }
}

pub fn values<'a>(h: &Header<'a>) -> model::Values<'a> {
    model::Values {
        packet_type: h.packet_type,
        apid: h.apid.0,
        sdu: h.sdu,
        area: h.area,
        service: h.service,
        operation: h.operation,
        area_version: h.area_version,
        error: h.error,
        qos: h.qos,
        session: h.session,
        secondary_apid: h.secondary_apid.0,
        qualifier: h.qualifier,
        transaction: h.transaction,
        has_source: h.has_source,
        has_destination: h.has_destination,
        has_priority: h.has_priority,
        has_timestamp: h.has_timestamp,
        has_zone: h.has_zone,
        has_session_name: h.has_session_name,
        has_domain: h.has_domain,
        has_authentication: h.has_authentication,
        source: h.source,
        destination: h.destination,
        priority: h.priority,
        timestamp: h.timestamp,
        zone: h.zone,
        session_name: h.session_name,
        domain: h.domain,
        domain_lengths: h.domain_lengths,
        authentication: h.authentication,
    }
}

pub fn reading(t: u64, answer: Result<model::Reading, Refusal>) -> Reading {
    let r = match answer {
        Ok(reading) => reading,
        Err(Refusal { number, off, began }) => {
            return Reading { refusal: number.into(), off: off.into(), began: began.into(), ..Reading::default() }
        }
    };
    let has = |k| u64::from(r.has(k));
    Reading {
        refusal: 0,
        packet_type: r.packet_type.into(),
        apid: Apid(r.apid.into()),
        flags: r.flags.into(),
        sequence_count: SequenceCount(r.sequence_count.into()),
        sdu: r.sdu.into(),
        area: r.area.into(),
        service: r.service.into(),
        operation: r.operation.into(),
        area_version: r.area_version.into(),
        error: r.error.into(),
        qos: r.qos.into(),
        session: r.session.into(),
        secondary_apid: SecondaryApid(r.secondary_apid.into()),
        qualifier: r.qualifier.into(),
        transaction: r.transaction,
        has_source: has(0),
        has_destination: has(1),
        has_priority: has(2),
        has_timestamp: has(3),
        has_zone: has(4),
        has_session_name: has(5),
        has_domain: has(6),
        has_authentication: has(7),
        source: r.source.into(),
        destination: r.destination.into(),
        counter: SegmentCounter(r.counter.into()),
        priority: r.priority.into(),
        timestamp: Place { place: r.timestamp.into(), length: t * has(3) },
        zone: place(r.zone),
        session_name: place(r.session_name),
        domain_count: r.domain_count.into(),
        domain: r.domain.map(place),
        authentication: place(r.authentication),
        h: r.h.into(),
        body: place(r.body),
        off: 0,
        began: 0,
        withdrawn: r.withdrawn.into(),
    }
}

pub fn written(answer: Result<usize, Refusal>) -> Written {
    match answer {
        Ok(length) => Written { refusal: 0, length: length as u64 },
        Err(Refusal { number, .. }) => Written { refusal: number.into(), length: 0 },
    }
}

pub fn refusal(refused: Refusal) -> orlyukan::Refusal {
    orlyukan::Refusal { number: refused.number.into(), off: refused.off.into(), began: refused.began.into() }
}

pub fn sender(sender: model::Sender) -> Sender {
    Sender { sequence_count: SequenceCount(sender.sequence_count), counter: SegmentCounter(sender.counter) }
}

pub fn cut(given: Sender, answer: Result<(u64, model::Sender), Refusal>) -> Cut {
    match answer {
        Ok((count, after)) => Cut { refusal: 0, count, sender: sender(after) },
        Err(Refusal { number, .. }) => Cut { refusal: number.into(), count: 0, sender: given },
    }
}

pub fn cut_packet(given: Sender, answer: Result<usize, Refusal>) -> CutPacket {
    let Written { refusal, length } = written(answer);
    CutPacket { refusal, length, sender: given }
}

pub fn order(answer: Result<model::Order, Refusal>) -> Order {
    match answer {
        Ok(order) => Order { refusal: 0, cells: order.cells as u64 },
        Err(Refusal { number, .. }) => Order { refusal: number.into(), cells: 0 },
    }
}

pub fn arrived(answer: Result<model::Kind, Refusal>) -> Arrived {
    let kind = match answer {
        Ok(model::Kind::Whole) => Kind::Whole,
        Ok(model::Kind::Stored) => Kind::Stored,
        Ok(model::Kind::Held) => Kind::Held,
        Ok(model::Kind::Taken) => Kind::Taken,
        Err(Refusal { number, off, began }) => {
            return Arrived { refusal: number.into(), kind: None, off: off.into(), began: began.into() }
        }
    };
    Arrived { refusal: 0, kind: Some(kind), off: 0, began: 0 }
}

pub fn taken(answer: Result<model::Taken, Refusal>) -> Taken {
    match answer {
        Ok(model::Taken { h, b, counter }) => {
            Taken { refusal: 0, h: h as u64, b: b as u64, counter: SegmentCounter(counter.into()) }
        }
        Err(Refusal { number, .. }) => Taken { refusal: number.into(), ..Taken::default() },
    }
}

pub fn forgot(answer: Result<(), Refusal>) -> Forgot {
    Forgot { refusal: answer.err().map_or(0, |refusal| refusal.number.into()) }
}

pub fn joined(answer: Result<model::Joined, Refusal>) -> Joined {
    let j = match answer {
        Ok(joined) => joined,
        Err(Refusal { number, off, began }) => {
            return Joined { refusal: number.into(), off: off.into(), began: began.into(), ..Joined::default() }
        }
    };
    let which = match j.which {
        model::Which::Nothing => Which::Nothing,
        model::Which::Packet => Which::Packet,
        model::Which::Joined => Which::Joined,
    };
    let counter = SegmentCounter(j.counter.into());
    Joined { which, place: j.place as u64, length: j.length as u64, h: j.h as u64, b: j.b as u64, counter, ..Joined::default() }
}

pub fn recording(written: usize, (place, stop): (usize, model::Stop)) -> Recording {
    let stop = match stop {
        model::Stop::Ended => Stop::Ended,
        model::Stop::Unmarked => Stop::Unmarked,
        model::Stop::Torn => Stop::Torn,
    };
    Recording { refusal: 0, written: written as u64, place: place as u64, stop: Some(stop) }
}

/// The entries go to the front of the list; a file of so many octets is done if the next place is its end and no stretch is open.
pub fn salvaged(octets: usize, list: &mut [Entry], answer: Result<model::Salvaged, Refusal>) -> Salvaged {
    let s = match answer {
        Ok(salvaged) => salvaged,
        Err(Refusal { number, .. }) => return Salvaged { refusal: number.into(), ..Salvaged::default() },
    };
    for (entry, listed) in list.iter_mut().zip(&s.entries) {
        *entry = Entry { kind: listed.kept.into(), place: listed.place as u64, length: listed.length as u64 };
    }
    Salvaged {
        refusal: 0,
        tested: s.tested,
        entries: s.entries.len() as u64,
        begin: s.begin as u64,
        place: s.place as u64,
        done: s.begin == octets && s.place == octets,
    }
}

pub fn route(r: Route) -> model::Route {
    model::Route { packet_type: r.packet_type, apid: r.apid.0, secondary_apid: r.secondary_apid.0, qualifier: r.qualifier }
}

pub fn sent(answer: Result<(usize, usize), model::Told>) -> Sent {
    match answer {
        Ok((length, header)) => Sent { length: length as u64, header_length: header as u64, ..Sent::default() },
        Err(told) => Sent { refusal: told.number.into(), began: told.began, ..Sent::default() },
    }
}

pub fn returned(answer: Result<(usize, usize, u8), model::Told>) -> Returned {
    match answer {
        Ok((h, b, encoding)) => Returned { h: h as u64, b: b as u64, encoding_id: encoding.into(), ..Returned::default() },
        Err(told) => Returned { refusal: told.number.into(), off: told.off, began: told.began, ..Returned::default() },
    }
}
