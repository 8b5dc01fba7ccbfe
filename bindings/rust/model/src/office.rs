//! Carrying a message to the survey office, as a PDU, and back.

use crate::values::{is_text, Settings, Tested};
use crate::varint::{put_varint, uinteger_length, varint_step};
use crate::{HEADER_LIMIT, PARTS};

/// The octets of a PDU's fixed part, of its timestamp, and of a message's identification.
const FIXED: usize = 23;
const TIMESTAMP: usize = 6;
const IDENTIFICATION: usize = 2;

/// A refusal: its number; the octets missing (5) or left over (27); where the unfinished field began (6).
#[derive(Clone, Copy, Debug, Default, PartialEq, Eq)]
pub struct Told {
    pub number: u8,
    pub off: u64,
    pub began: u64,
}

fn hold(test: bool, number: u8) -> Result<(), Told> {
    if test {
        Ok(())
    } else {
        Err(Told { number, off: 0, began: 0 })
    }
}

/// What a PDU has no field for.
#[derive(Clone, Copy, Debug, Default)]
pub struct Route {
    pub packet_type: u64,
    pub apid: u64,
    pub secondary_apid: u64,
    pub qualifier: u64,
}

/// The fields that are there only if their flags are set. Ids are texts here, also a packet's.
#[derive(Default)]
struct Fields {
    source: Option<Vec<u8>>,
    destination: Option<Vec<u8>>,
    priority: Option<u32>,
    timestamp: Option<Vec<u8>>,
    zone: Option<Vec<u8>>,
    session_name: Option<Vec<u8>>,
    domain: Option<Vec<Vec<u8>>>,
    authentication: Option<Vec<u8>>,
}

/// Octets walked from left to right, up to a limit if there is one. A place beside 6 is counted from `from`.
struct Walk<'a> {
    octets: &'a [u8],
    at: usize,
    began: usize,
    from: usize,
    limit: usize,
    is_fixed: bool,
}

impl<'a> Walk<'a> {
    fn content(&mut self, length: usize) -> Result<&'a [u8], Told> {
        let end = self.at.saturating_add(length);
        hold(end <= self.limit, 12)?;
        let found = self.octets.get(self.at..end);
        let octets = found.ok_or(Told { number: 6, off: 0, began: (self.began - self.from) as u64 })?;
        self.at = end;
        Ok(octets)
    }

    fn field(&mut self) -> &mut Self {
        self.began = self.at;
        self
    }

    fn uinteger(&mut self) -> Result<u32, Told> {
        if self.is_fixed {
            return Ok(u32::from_be_bytes(self.content(4)?.try_into().expect("four")));
        }
        let (mut value, mut ends, mut k) = (0, false, 0);
        while !ends {
            let octet = self.content(1)?[0];
            (value, ends) = varint_step(value, k, octet).map_err(|r| Told { number: r.number, off: 0, began: 0 })?;
            k += 1;
        }
        Ok(value)
    }

    fn blob(&mut self) -> Result<Vec<u8>, Told> {
        let length = self.uinteger()?;
        Ok(self.content(length as usize)?.to_vec())
    }

    fn text(&mut self) -> Result<Vec<u8>, Told> {
        let text = self.blob()?;
        hold(is_text(&text), 28)?;
        Ok(text)
    }

    fn domain(&mut self) -> Result<Vec<Vec<u8>>, Told> {
        let count = self.field().uinteger()? as usize;
        hold(count <= PARTS, 13)?;
        let mut parts = Vec::new();
        for _ in 0..count {
            hold(self.field().content(1)?[0] == 1, 11)?;
            parts.push(self.text()?);
        }
        Ok(parts)
    }

    /// The optional fields by their flags; `id` says how an id is read.
    fn fields(&mut self, flags: u8, t: usize, id: impl Fn(&mut Self) -> Result<Vec<u8>, Told>) -> Result<Fields, Told> {
        let has = |k: u8| flags & (0x80 >> k) != 0;
        let mut f = Fields::default();
        f.source = if has(0) { Some(id(self.field())?) } else { None };
        f.destination = if has(1) { Some(id(self.field())?) } else { None };
        f.priority = if has(2) { Some(self.field().uinteger()?) } else { None };
        f.timestamp = if has(3) { Some(self.field().content(t)?.to_vec()) } else { None };
        f.zone = if has(4) { Some(self.field().text()?) } else { None };
        f.session_name = if has(5) { Some(self.field().text()?) } else { None };
        f.domain = if has(6) { Some(self.domain()?) } else { None };
        f.authentication = if has(7) { Some(self.field().blob()?) } else { None };
        Ok(f)
    }
}

fn put_uinteger(made: &mut Vec<u8>, is_fixed: bool, value: usize) {
    let (value, at) = (value as u32, made.len());
    if is_fixed {
        return made.extend(value.to_be_bytes());
    }
    made.resize(at + uinteger_length(false, value), 0);
    put_varint(value, &mut made[at..]);
}

fn put_blob(made: &mut Vec<u8>, is_fixed: bool, octets: &[u8]) {
    put_uinteger(made, is_fixed, octets.len());
    made.extend(octets);
}

/// All of them but the ids, which stand first and differ.
fn put_fields(made: &mut Vec<u8>, is_fixed: bool, f: &Fields) {
    if let Some(priority) = f.priority {
        put_uinteger(made, is_fixed, priority as usize);
    }
    made.extend(f.timestamp.iter().flatten());
    for text in [&f.zone, &f.session_name].into_iter().flatten() {
        put_blob(made, is_fixed, text);
    }
    if let Some(parts) = &f.domain {
        put_uinteger(made, is_fixed, parts.len());
        for part in parts {
            made.push(1);
            put_blob(made, is_fixed, part);
        }
    }
    if let Some(octets) = &f.authentication {
        put_blob(made, is_fixed, octets);
    }
}

fn settings(s: impl Into<Settings>) -> Result<Tested, Told> {
    s.into().test().map_err(|r| Told { number: r.number, off: 0, began: 0 })
}

fn lay(octets: &[u8], out: &mut [u8]) -> Result<(), Told> {
    hold(octets.len() <= out.len(), 21)?;
    out[..octets.len()].copy_from_slice(octets);
    Ok(())
}

/// A message as a PDU over the front of an output: its octets, and those before the body.
pub fn to_pdu(s: impl Into<Settings>, message: &[u8], encoding_id: u64, out: &mut [u8]) -> Result<(usize, usize), Told> {
    let s = settings(s)?;
    hold(encoding_id <= 255, 22)?;
    hold(message.len() >= IDENTIFICATION, 1)?;
    hold(message[0] >> 5 == 0, 2)?;
    hold(message[0] & 8 != 0, 3)?;
    hold(u16::from_be_bytes([message[0], message[1]]) & 0x7ff != 2047, 4)?;
    let limit = IDENTIFICATION + HEADER_LIMIT;
    let mut w =
        Walk { octets: message, at: IDENTIFICATION, began: IDENTIFICATION, from: IDENTIFICATION, limit, is_fixed: s.is_fixed };
    let sdu = w.content(1)?[0];
    hold(sdu >> 5 == 0, 7)?;
    hold(sdu <= 21, 8)?;
    let mut made = vec![32 + sdu];
    for width in [2, 2, 2, 1] {
        made.extend(w.field().content(width)?);
    }
    let high = w.field().content(1)?[0];
    hold(high >> 3 & 3 < 3, 9)?;
    w.content(1)?;
    w.field().content(2)?;
    made.push((high & 0x80) | (high >> 1 & 0x30) | (high >> 3 & 3));
    made.extend(w.field().content(8)?);
    let flags = w.field().content(1)?[0];
    let f = w.fields(flags, s.t, |w| Ok(w.content(1)?[0].to_string().into_bytes()))?;
    hold(f.timestamp.is_none() || s.t == TIMESTAMP, 34)?;
    let mut variable = Vec::new();
    for id in [&f.source, &f.destination].into_iter().flatten() {
        put_blob(&mut variable, false, id);
    }
    put_fields(&mut variable, false, &f);
    let body = &message[w.at..];
    let rest = u32::try_from(variable.len() + body.len()).map_err(|_| Told { number: 23, off: 0, began: 0 })?;
    made.extend([flags, encoding_id as u8]);
    made.extend(rest.to_be_bytes());
    made.extend(variable);
    let header = made.len();
    made.extend(body);
    lay(&made, out)?;
    Ok((made.len(), header))
}

/// The id that a text says: the digits of 0 to 255 without leading zeros.
fn id_of(text: &Option<Vec<u8>>) -> Result<Option<u8>, Told> {
    let Some(text) = text else { return Ok(None) };
    let id = std::str::from_utf8(text).ok().and_then(|digits| digits.parse::<u8>().ok());
    hold(id.is_some_and(|id| id.to_string().as_bytes() == text), 33)?;
    Ok(id)
}

/// A PDU as a message over the front of an output: H, B and the encoding id.
pub fn to_message(s: impl Into<Settings>, pdu: &[u8], l: Route, out: &mut [u8]) -> Result<(usize, usize, u8), Told> {
    let s = settings(s)?;
    hold(l.packet_type <= 1 && l.apid < 2047 && l.secondary_apid < 2048 && l.qualifier < 65_536, 22)?;
    hold(pdu.len() >= FIXED, 1)?;
    hold(pdu[0] >> 5 == 1, 7)?;
    hold(pdu[0] & 31 <= 21, 8)?;
    let said = FIXED as u64 + u64::from(u32::from_be_bytes(pdu[19..FIXED].try_into().expect("four")));
    let long = pdu.len() as u64;
    if long != said {
        return Err(Told { number: if long < said { 5 } else { 27 }, off: long.abs_diff(said), began: 0 });
    }
    let mut w = Walk { octets: pdu, at: FIXED, began: FIXED, from: 0, limit: usize::MAX, is_fixed: false };
    let f = w.fields(pdu[17], TIMESTAMP, Walk::text)?;
    let (error, qos, session) = (pdu[8] >> 7, pdu[8] >> 4 & 7, pdu[8] & 15);
    hold(qos <= 3 && session <= 2, 35)?;
    let (source, destination) = (id_of(&f.source)?, id_of(&f.destination)?);
    hold(f.timestamp.is_none() || s.t == TIMESTAMP, 34)?;
    hold(f.zone.is_none(), 30)?;
    let mut made = ((l.packet_type << 12 | 0x800 | l.apid) as u16).to_be_bytes().to_vec();
    made.push(pdu[0] & 31);
    made.extend(&pdu[1..8]);
    let mixed = u16::from(error) << 15 | u16::from(qos) << 13 | u16::from(session) << 11 | l.secondary_apid as u16;
    made.extend(mixed.to_be_bytes());
    made.extend((l.qualifier as u16).to_be_bytes());
    made.extend(&pdu[9..18]);
    made.extend(source.into_iter().chain(destination));
    put_fields(&mut made, s.is_fixed, &f);
    let h = made.len() - IDENTIFICATION;
    hold(h <= HEADER_LIMIT, 12)?;
    made.extend(&pdu[w.at..]);
    lay(&made, out)?;
    Ok((h, pdu.len() - w.at, pdu[18]))
}
