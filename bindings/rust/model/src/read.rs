//! Reading one packet.

use crate::values::{hold, is_text, refusal, Refusal, Settings, Tested};
use crate::varint::varint_step;
use crate::{HEADER_LIMIT, PARTS, PRIMARY, UNSEGMENTED};

/// A place in the packet, counted from its first octet, and a length.
#[derive(Clone, Copy, Debug, Default, PartialEq, Eq)]
pub struct Span {
    pub place: u32,
    pub length: u32,
}

/// All that a packet says. The value of an absent field is zero.
#[derive(Clone, Copy, Debug, Default, PartialEq, Eq)]
pub struct Reading {
    pub packet_type: u8,
    pub apid: u16,
    pub flags: u8,
    pub sequence_count: u16,
    pub sdu: u8,
    pub area: u16,
    pub service: u16,
    pub operation: u16,
    pub area_version: u8,
    pub error: u8,
    pub qos: u8,
    pub session: u8,
    pub secondary_apid: u16,
    pub qualifier: u16,
    pub transaction: u64,
    /// The eight presence flags as they stand in their octet, source id highest.
    pub presence: u8,
    pub source: u8,
    pub destination: u8,
    pub counter: u32,
    pub priority: u32,
    /// The timestamp's place; its length is T.
    pub timestamp: u32,
    pub zone: Span,
    pub session_name: Span,
    pub domain_count: u8,
    pub domain: [Span; PARTS],
    pub authentication: Span,
    /// The secondary header's length without a counter.
    pub h: u16,
    pub body: Span,
    /// It has a zone, which is withdrawn.
    pub withdrawn: bool,
}

impl Reading {
    /// Whether field number k after the fixed part is there: 0 source id, 1 destination id, and so on to 7, authentication id.
    pub fn has(&self, k: u32) -> bool {
        self.presence & (0x80 >> k) != 0
    }
}

/// The data field after the fixed part, walked from left to right.
struct Walk<'a> {
    packet: &'a [u8],
    /// Where the header ends at the latest: its limit, or the packet's end.
    limit: usize,
    at: usize,
    /// Where the field at hand began.
    began: usize,
    /// Whether a UInteger has four octets.
    is_fixed: bool,
    /// All from the first text up to here is ASCII, and so is each text in it.
    ascii_end: usize,
}

/// How many octets are tested at once for ASCII.
const BLOCK: usize = 32;
/// The place after the last octet that a secondary header may have.
const LIMIT: usize = PRIMARY + HEADER_LIMIT;

impl Walk<'_> {
    /// A field begins here.
    fn field(&mut self) -> &mut Self {
        self.began = self.at;
        self
    }

    /// The packet ends inside the field at hand, or just before it.
    fn ends(&self) -> Refusal {
        Refusal { number: 6, off: 0, began: (self.began - PRIMARY) as u16 }
    }

    /// No octet, or not all of a content: past the header's limit is 12, else the packet ends.
    #[cold]
    fn missing(&self, end: usize) -> Refusal {
        if end > LIMIT {
            refusal(12)
        } else {
            self.ends()
        }
    }

    /// A content of a known length, tested whole for 12 and then whole for 6: its place.
    #[inline(always)]
    fn content(&mut self, length: usize) -> Result<Span, Refusal> {
        let (place, end) = (self.at, self.at + length);
        if end > self.limit {
            return Err(self.missing(end));
        }
        self.at = end;
        Ok(Span { place: place as u32, length: length as u32 })
    }

    #[inline(always)]
    fn octet(&mut self) -> Result<u8, Refusal> {
        if self.at >= self.limit {
            return Err(self.missing(self.at + 1));
        }
        let octet = self.packet[self.at];
        self.at += 1;
        Ok(octet)
    }

    /// Four octets as a number: one content, as the counter and a UInteger of the first pods have it.
    #[inline(always)]
    fn four(&mut self) -> Result<u32, Refusal> {
        let place = self.content(4)?.place as usize;
        let octets: &[u8; 4] = self.packet[place..].first_chunk().expect("they are there");
        Ok(u32::from_be_bytes(*octets))
    }

    /// Most Varints have one octet.
    #[inline(always)]
    fn varint(&mut self) -> Result<u32, Refusal> {
        let first = self.octet()?;
        if first < 0x80 {
            return Ok(u32::from(first));
        }
        self.long_varint(first)
    }

    #[inline(never)]
    fn long_varint(&mut self, first: u8) -> Result<u32, Refusal> {
        let (mut value, mut ends) = varint_step(0, 0, first)?;
        let mut k = 1;
        while !ends {
            (value, ends) = varint_step(value, k, self.octet()?)?;
            k += 1;
        }
        Ok(value)
    }

    /// A priority, a length or a count. Four octets are one content.
    #[inline(always)]
    fn uinteger(&mut self) -> Result<u32, Refusal> {
        if self.is_fixed {
            self.four()
        } else {
            self.varint()
        }
    }

    /// A length and that many octets of any value.
    #[inline(always)]
    fn blob(&mut self) -> Result<Span, Refusal> {
        let length = self.uinteger()?;
        self.content(length as usize)
    }

    /// The same, and they must be text.
    #[inline(always)]
    fn text(&mut self) -> Result<Span, Refusal> {
        let span = self.blob()?;
        hold(self.at <= self.ascii_end || self.is_text(span), 28)?;
        Ok(span)
    }

    #[inline(never)]
    fn is_text(&self, span: Span) -> bool {
        is_text(&self.packet[span.place as usize..self.at])
    }

    /// Looks ahead for ASCII, a block at a time: texts are short, and to test each by itself costs more.
    fn look_ahead(&mut self) {
        let blocks = self.packet[self.at..self.limit].chunks_exact(BLOCK);
        self.ascii_end =
            self.at + BLOCK * blocks.take_while(|block| block.iter().fold(0, |all, octet| all | octet) < 0x80).count();
    }

    /// A count of parts, then each with its presence octet: as many fields, and one more.
    fn domain(&mut self, parts: &mut [Span; PARTS]) -> Result<u8, Refusal> {
        let count = self.field().uinteger()?;
        hold(count as usize <= PARTS, 13)?;
        for part in &mut parts[..count as usize] {
            hold(self.field().octet()? == 1, 11)?;
            *part = self.text()?;
        }
        Ok(count as u8)
    }
}

fn number16(octets: &[u8; 21], at: usize) -> u16 {
    u16::from_be_bytes([octets[at], octets[at + 1]])
}

/// The octets missing or left over.
fn wrong_length(number: u8, longer: usize, shorter: usize) -> Refusal {
    Refusal { number, off: (longer - shorter) as u32, began: 0 }
}

/// The primary header: 1 to 4, then 5 or 27.
fn read_primary(packet: &[u8], r: &mut Reading) -> Result<(), Refusal> {
    let primary: &[u8; PRIMARY] = packet.first_chunk().ok_or(refusal(1))?;
    let id = u16::from_be_bytes([primary[0], primary[1]]);
    let sequence = u16::from_be_bytes([primary[2], primary[3]]);
    let length = u16::from_be_bytes([primary[4], primary[5]]);
    hold(id >> 13 == 0, 2)?;
    hold(id & 0x0800 != 0, 3)?;
    hold(id & 0x07ff != 2047, 4)?;
    let said = usize::from(length) + 7;
    if packet.len() < said {
        return Err(wrong_length(5, said, packet.len()));
    }
    if packet.len() > said {
        return Err(wrong_length(27, packet.len(), said));
    }
    r.packet_type = (id >> 12 & 1) as u8;
    r.apid = id & 0x07ff;
    r.flags = (sequence >> 14) as u8;
    r.sequence_count = sequence & 0x3fff;
    Ok(())
}

/// Where the fields of the fixed part begin; error, QoS level, session and secondary APID share the octet at 8.
const FIXED_FIELDS: [u16; 9] = [0, 1, 3, 5, 7, 8, 10, 12, 20];

/// The data field ends after so many octets of the fixed part.
fn fixed_ends(octets: usize) -> Refusal {
    let began = FIXED_FIELDS.into_iter().rfind(|place| usize::from(*place) <= octets).unwrap_or(0);
    Refusal { number: 6, off: 0, began }
}

/// The fixed part of the secondary header. A value is judged as soon as its octet is there, so 7, 8 and 9 may come before 6.
fn read_fixed(data: &[u8], r: &mut Reading) -> Result<(), Refusal> {
    if let Some(first) = data.first() {
        hold(first >> 5 == 0, 7)?;
        hold(first & 0x1f <= 21, 8)?;
    }
    if let Some(ninth) = data.get(8) {
        hold(ninth >> 3 & 3 != 3, 9)?;
    }
    let fixed: &[u8; 21] = data.first_chunk().ok_or_else(|| fixed_ends(data.len()))?;
    r.sdu = fixed[0] & 0x1f;
    r.area = number16(fixed, 1);
    r.service = number16(fixed, 3);
    r.operation = number16(fixed, 5);
    r.area_version = fixed[7];
    let mixed = number16(fixed, 8);
    r.error = (mixed >> 15) as u8;
    r.qos = (mixed >> 13 & 3) as u8;
    r.session = (mixed >> 11 & 3) as u8;
    r.secondary_apid = mixed & 0x07ff;
    r.qualifier = number16(fixed, 10);
    let (_, rest) = fixed.split_at(12);
    r.transaction = u64::from_be_bytes(*rest.first_chunk().expect("nine octets"));
    r.presence = fixed[20];
    Ok(())
}

/// What stands after the fixed part, each field only if present.
fn read_optional(t: usize, walk: &mut Walk, r: &mut Reading) -> Result<(), Refusal> {
    if r.has(0) {
        r.source = walk.field().octet()?;
    }
    if r.has(1) {
        r.destination = walk.field().octet()?;
    }
    if r.flags != UNSEGMENTED {
        r.counter = walk.field().four()?;
    }
    if r.has(2) {
        r.priority = walk.field().uinteger()?;
    }
    if r.has(3) {
        r.timestamp = walk.field().content(t)?.place;
    }
    if r.presence & 0x0e != 0 {
        walk.look_ahead();
    }
    if r.has(4) {
        r.zone = walk.field().text()?;
    }
    if r.has(5) {
        r.session_name = walk.field().text()?;
    }
    if r.has(6) {
        r.domain_count = walk.domain(&mut r.domain)?;
    }
    if r.has(7) {
        r.authentication = walk.field().blob()?;
    }
    Ok(())
}

/// Reads one packet under the settings: every value, place and length, or the refusal that comes first.
pub fn read(settings: impl Into<Settings>, packet: &[u8]) -> Result<Reading, Refusal> {
    let Tested { t, is_fixed } = settings.into().test()?;
    let mut r = Reading::default();
    read_primary(packet, &mut r)?;
    read_fixed(&packet[PRIMARY..], &mut r)?;
    let (at, limit) = (PRIMARY + 21, packet.len().min(LIMIT));
    let mut walk = Walk { packet, limit, at, began: at, is_fixed, ascii_end: 0 };
    read_optional(t, &mut walk, &mut r)?;
    let counted = if r.flags == UNSEGMENTED { 0 } else { 4 };
    hold(counted == 0 || walk.at < packet.len(), 14)?;
    r.h = (walk.at - PRIMARY - counted) as u16;
    r.body = Span { place: walk.at as u32, length: (packet.len() - walk.at) as u32 };
    r.withdrawn = r.has(4);
    Ok(r)
}
