//! The survey office's PDU, of the MAL TCP/IP binding: read and written.

use crate::answers::{Answer, Place, Refusal};
use crate::raw::{self, RawPduHeader};

/// All that a PDU says. The value of an absent field is zero; `off` and `began` are told beside 5 or 27, and 6.
#[repr(C)]
#[must_use]
#[derive(Clone, Copy, Debug, Default, PartialEq, Eq)]
pub struct PduReading {
    pub refusal: u64,
    pub sdu: u64,
    pub area: u64,
    pub service: u64,
    pub operation: u64,
    pub area_version: u64,
    pub error: u64,
    pub qos: u64,
    pub session: u64,
    pub transaction: u64,
    pub has_source: u64,
    pub has_destination: u64,
    pub has_priority: u64,
    pub has_timestamp: u64,
    pub has_zone: u64,
    pub has_session_name: u64,
    pub has_domain: u64,
    pub has_authentication: u64,
    pub encoding_id: u64,
    /// Where the text of the source id stands, and of the destination id.
    pub source: Place,
    pub destination: Place,
    pub priority: u64,
    pub timestamp: Place,
    pub zone: Place,
    pub session_name: Place,
    pub domain_count: u64,
    pub domain: [Place; 16],
    pub authentication: Place,
    /// The octets after the fixed part, as it says.
    pub variable_length: u64,
    pub body: Place,
    pub off: u64,
    pub began: u64,
}

/// A PDU that was written: its octets, and those before the body.
#[repr(C)]
#[must_use]
#[derive(Clone, Copy, Debug, Default, PartialEq, Eq)]
pub struct PduWritten {
    pub refusal: u64,
    pub length: u64,
    pub header_length: u64,
}

/// A PDU's values to write. A `has_` of 0 says that the field is absent; its value must then be 0 or empty.
#[derive(Clone, Copy, Debug, Default, PartialEq, Eq)]
pub struct PduHeader<'a> {
    pub sdu: u64,
    pub area: u64,
    pub service: u64,
    pub operation: u64,
    pub area_version: u64,
    pub error: u64,
    pub qos: u64,
    pub session: u64,
    pub transaction: u64,
    pub has_source: u64,
    pub has_destination: u64,
    pub has_priority: u64,
    pub has_timestamp: u64,
    pub has_zone: u64,
    pub has_session_name: u64,
    pub has_domain: u64,
    pub has_authentication: u64,
    pub encoding_id: u64,
    pub priority: u64,
    /// Source id, destination id, zone, session name and each domain part are well-formed UTF-8; a timestamp has six octets.
    pub source: &'a [u8],
    pub destination: &'a [u8],
    pub timestamp: &'a [u8],
    pub zone: &'a [u8],
    pub session_name: &'a [u8],
    /// The text of all parts, and the length of each.
    pub domain: &'a [u8],
    pub domain_lengths: &'a [u64],
    pub authentication: &'a [u8],
}

impl PduHeader<'_> {
    /// The numbers, as C takes them.
    fn numbers(&self) -> RawPduHeader {
        RawPduHeader {
            sdu: self.sdu,
            area: self.area,
            service: self.service,
            operation: self.operation,
            area_version: self.area_version,
            error: self.error,
            qos: self.qos,
            session: self.session,
            transaction: self.transaction,
            has_source: self.has_source,
            has_destination: self.has_destination,
            has_priority: self.has_priority,
            has_timestamp: self.has_timestamp,
            has_zone: self.has_zone,
            has_session_name: self.has_session_name,
            has_domain: self.has_domain,
            has_authentication: self.has_authentication,
            encoding_id: self.encoding_id,
            priority: self.priority,
        }
    }
}

impl Answer for PduReading {
    fn refusal(&self) -> u64 {
        self.refusal
    }

    fn refused(&self) -> Refusal {
        Refusal { number: self.refusal, off: self.off, began: self.began }
    }
}

impl Answer for PduWritten {
    fn refusal(&self) -> u64 {
        self.refusal
    }
}

/// Reads one PDU.
pub fn pdu_read(pdu: &[u8]) -> PduReading {
    let mut answer = PduReading::default();
    // SAFETY: a slice's pointer is valid for its length; the answer is ours alone.
    unsafe { raw::orl_pdu_read(pdu.as_ptr(), pdu.len(), &mut answer) };
    answer
}

/// Writes one PDU over the front of `out`.
///
/// ```
/// use orlyukan::{pdu_read, pdu_write, PduHeader};
/// let header = PduHeader { has_source: 1, source: b"maltcp://pod", encoding_id: 1, ..PduHeader::default() };
/// let mut out = [0; 64];
/// let written = pdu_write(&header, b"tile", &mut out);
/// assert_eq!((written.refusal, written.length, written.header_length), (0, 40, 36));
/// let read = pdu_read(&out[..40]);
/// assert_eq!((read.source.place, read.source.length, read.body.place), (24, 12, 36));
/// ```
#[rustfmt::skip]
pub fn pdu_write(header: &PduHeader, body: &[u8], out: &mut [u8]) -> PduWritten {
    let mut answer = PduWritten::default();
    let numbers = header.numbers();
    // SAFETY: each slice's pointer is valid for its length; `out` is lent to us alone and so overlaps none of the others.
    unsafe {
        raw::orl_pdu_write(&numbers, header.source.as_ptr(), header.source.len(), header.destination.as_ptr(), header.destination.len(),
            header.timestamp.as_ptr(), header.timestamp.len(), header.zone.as_ptr(), header.zone.len(),
            header.session_name.as_ptr(), header.session_name.len(), header.domain.as_ptr(), header.domain.len(),
            header.domain_lengths.as_ptr(), header.domain_lengths.len(), header.authentication.as_ptr(),
            header.authentication.len(), body.as_ptr(), body.len(), out.as_mut_ptr(), out.len(), &mut answer);
    }
    answer
}
