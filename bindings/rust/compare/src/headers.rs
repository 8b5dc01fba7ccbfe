//! Headers to write, by chance: in range, at the edges of the sizes, and out of range in one place.

use crate::random::Random;
use orlyukan::raw::RawHeader;
use orlyukan::{Apid, Header, SecondaryApid, Settings, FIXED};

/// A header's values with what they borrow from.
#[derive(Clone, Debug, Default)]
pub struct Owned {
    pub n: RawHeader,
    pub timestamp: Vec<u8>,
    pub zone: Vec<u8>,
    pub session_name: Vec<u8>,
    pub domain: Vec<u8>,
    pub domain_lengths: Vec<u64>,
    pub authentication: Vec<u8>,
}

impl Owned {
    pub fn header(&self) -> Header<'_> {
        let n = &self.n;
        Header {
            packet_type: n.packet_type,
            apid: Apid(n.apid),
            sdu: n.sdu,
            area: n.area,
            service: n.service,
            operation: n.operation,
            area_version: n.area_version,
            error: n.error,
            qos: n.qos,
            session: n.session,
            secondary_apid: SecondaryApid(n.secondary_apid),
            qualifier: n.qualifier,
            transaction: n.transaction,
            has_source: n.has_source,
            has_destination: n.has_destination,
            has_priority: n.has_priority,
            has_timestamp: n.has_timestamp,
            has_zone: n.has_zone,
            has_session_name: n.has_session_name,
            has_domain: n.has_domain,
            has_authentication: n.has_authentication,
            source: n.source,
            destination: n.destination,
            priority: n.priority,
            timestamp: &self.timestamp,
            zone: &self.zone,
            session_name: &self.session_name,
            domain: &self.domain,
            domain_lengths: &self.domain_lengths,
            authentication: &self.authentication,
        }
    }

    /// H by the octets of a packet that the model's old writer writes; nothing if it refuses.
    pub fn h(&self, s: Settings) -> Option<usize> {
        let mut out = vec![0; 70_000];
        let size =
            model::write_old(crate::told::settings(s), &crate::told::values(&self.header()), 3, 0, 0, &[], &mut out).ok()?;
        Some(size - 6)
    }
}

/// The octets of a length.
fn length_of(s: Settings, n: usize) -> usize {
    match (s.profile, n) {
        (FIXED, _) => 4,
        (_, 0..=127) => 1,
        _ => 2,
    }
}

/// How many octets the next text may have, out of what is left of the header.
fn text_length(r: &mut Random, s: Settings, left: &mut usize) -> usize {
    let most = left.saturating_sub(length_of(s, 128));
    let length = match r.below(5) {
        0 => 0,
        1 => r.index(4).min(most),
        2 => r.pick(&[126, 127, 128]).min(most),
        3 => r.index(most + 1),
        _ => r.index(20).min(most),
    };
    *left = left.saturating_sub(length + length_of(s, length));
    length
}

fn domain(r: &mut Random, s: Settings, o: &mut Owned, left: &mut usize) {
    let parts = r.pick(&[0, 1, 1, 2, 3, 15, 16, 16]);
    *left = left.saturating_sub(length_of(s, 0));
    for _ in 0..parts {
        *left = left.saturating_sub(1);
        let most = if r.once_in(3) { *left } else { (*left).min(5 + length_of(s, 0)) };
        let mut own = most;
        let length = text_length(r, s, &mut own);
        *left -= most - own;
        o.domain_lengths.push(length as u64);
    }
    for length in &o.domain_lengths {
        o.domain.extend(r.text(*length as usize));
    }
}

/// A header in range, whose H is mostly at most 256; now and then just at the limit.
pub fn fitting(r: &mut Random, s: Settings) -> Owned {
    let mut o = Owned::default();
    let present: u64 = if r.once_in(3) { 0 } else { r.any() & r.any() | r.pick(&[0, 0, 1, 0xff]) };
    let has = |k: u64| present >> k & 1;
    o.n = RawHeader {
        packet_type: r.bits(1),
        apid: r.bits(11).min(2046),
        sdu: r.pick(&[0, 1, 20, 21, 11]),
        area: r.bits(16),
        service: r.bits(16),
        operation: r.bits(16),
        area_version: r.bits(8),
        error: r.bits(1),
        qos: r.bits(2),
        session: r.below(3),
        secondary_apid: r.bits(11),
        qualifier: r.bits(16),
        transaction: r.bits(64),
        has_source: has(0),
        has_destination: has(1),
        has_priority: has(2),
        has_timestamp: has(3),
        has_zone: has(4),
        has_session_name: has(5),
        has_domain: has(6),
        has_authentication: has(7),
        source: has(0) * r.bits(8),
        destination: has(1) * r.bits(8),
        priority: has(2)
            * r.pick(&[0, 127, 128, 16_383, 16_384, 2_097_151, 2_097_152, 268_435_455, 268_435_456, 4_294_967_295]),
    };
    o.timestamp = r.octets((has(3) * s.t.min(32)) as usize);
    // 21 fixed, two ids, five of the priority, the timestamp: what is left for texts
    let mut left = 228 - o.timestamp.len().min(100);
    if has(4) == 1 {
        let length = text_length(r, s, &mut left);
        o.zone = r.text(length);
    }
    if has(5) == 1 {
        let length = text_length(r, s, &mut left);
        o.session_name = r.text(length);
    }
    if has(6) == 1 {
        domain(r, s, &mut o, &mut left);
    }
    if has(7) == 1 {
        let length = if r.once_in(4) { left + r.index(8) } else { text_length(r, s, &mut left) };
        o.authentication = r.octets(length);
    }
    o
}

/// Takes the zone away: with one it is refused by 30.
pub fn without_zone(o: &mut Owned) {
    o.n.has_zone = 0;
    o.zone.clear();
}

/// One number of the header, by its place among the 24.
fn set_number(n: &mut RawHeader, k: usize, value: u64) {
    let numbers = [
        &mut n.packet_type,
        &mut n.apid,
        &mut n.sdu,
        &mut n.area,
        &mut n.service,
        &mut n.operation,
        &mut n.area_version,
        &mut n.error,
        &mut n.qos,
        &mut n.session,
        &mut n.secondary_apid,
        &mut n.qualifier,
        &mut n.transaction,
        &mut n.has_source,
        &mut n.has_destination,
        &mut n.has_priority,
        &mut n.has_timestamp,
        &mut n.has_zone,
        &mut n.has_session_name,
        &mut n.has_domain,
        &mut n.has_authentication,
        &mut n.source,
        &mut n.destination,
        &mut n.priority,
    ];
    *numbers.into_iter().nth(k).expect("24 numbers") = value;
}

/// How many values each of the 24 has; the transaction id takes any.
const VALUES: [u64; 24] =
    [2, 2047, 22, 65_536, 65_536, 65_536, 256, 2, 4, 3, 2048, 65_536, u64::MAX, 2, 2, 2, 2, 2, 2, 2, 2, 256, 256, 1 << 32];

/// Changes one place so that 22, 30, 13, 28 or 12 may follow.
pub fn spoil(r: &mut Random, o: &mut Owned) {
    match r.below(16) {
        0..=4 => {
            let k = r.index(24);
            let wide = if VALUES[k] == u64::MAX { u64::MAX } else { r.too_wide(VALUES[k]) };
            set_number(&mut o.n, k, wide);
        }
        5 => {
            let (k, flip) = (13 + r.index(8), r.below(2));
            set_number(&mut o.n, k, flip);
        }
        6 => {
            let length = r.index(20);
            o.timestamp = r.octets(length);
        }
        7 => spoil_domain(r, o),
        8 => {
            o.n.has_domain = 1;
            o.domain_lengths = vec![1; r.between(15, 20) as usize];
            let length = o.domain_lengths.len() - usize::from(r.once_in(5));
            o.domain = r.octets(length);
        }
        9 => (o.n.has_zone, o.zone) = (1, r.no_text()),
        10 | 11 => (o.n.has_session_name, o.session_name) = (1, r.no_text()),
        12 | 13 => spoil_parts(r, o),
        _ => {
            let length = r.pick(&[65_535, 65_536, 300, 234, 235, 236, 128, 1]) as usize;
            let (text, present) = match r.below(4) {
                0 => (&mut o.zone, &mut o.n.has_zone),
                1 => (&mut o.session_name, &mut o.n.has_session_name),
                2 => (&mut o.authentication, &mut o.n.has_authentication),
                _ => {
                    o.domain_lengths = vec![length as u64];
                    (&mut o.domain, &mut o.n.has_domain)
                }
            };
            *text = vec![7; length];
            *present = u64::from(!r.once_in(8));
        }
    }
}

/// A domain with a part that is no text, or one that is text as a whole and is cut in the middle of a character.
fn spoil_parts(r: &mut Random, o: &mut Owned) {
    o.n.has_domain = 1;
    if r.once_in(2) {
        o.domain = r.no_text();
    } else {
        let length = r.index(60);
        o.domain = r.text(length);
    }
    let cut = r.index(o.domain.len() + 1);
    o.domain_lengths = vec![cut as u64, (o.domain.len() - cut) as u64];
}

fn spoil_domain(r: &mut Random, o: &mut Owned) {
    match r.below(5) {
        0 => o.domain.push(1),
        1 => o.domain_lengths.push(r.below(2)),
        2 => o.domain_lengths.extend([u64::MAX, 1]),
        3 => o.domain_lengths.extend([1 << 63, 1 << 63]),
        _ => {
            if let Some(first) = o.domain_lengths.first_mut() {
                *first = first.wrapping_sub(1);
            }
        }
    }
}
