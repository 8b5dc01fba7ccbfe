//! What is lent to the calls: the settings, a header's values, and a sender's two running numbers.

use crate::raw::{self, RawHeader, RawSender};

/// The profiles: every length, count and priority is a Varint, or has four octets, as the first pods write them.
pub const VARINT: u64 = raw::ORL_VARINT;
pub const FIXED: u64 = raw::ORL_FIXED;

/// What both sides agreed on: T, the octets of a timestamp, 1 to 16, and the profile. Any other numbers are refused with 15. Where a call
/// takes settings, T alone stands for T and Varints.
#[derive(Clone, Copy, Debug, PartialEq, Eq)]
pub struct Settings {
    pub t: u64,
    pub profile: u64,
}

impl From<u64> for Settings {
    fn from(t: u64) -> Self {
        Settings { t, profile: VARINT }
    }
}

/// The APID of the primary header.
#[repr(transparent)]
#[derive(Clone, Copy, Debug, Default, PartialEq, Eq)]
pub struct Apid(pub u64);

/// The secondary APID of the secondary header.
#[repr(transparent)]
#[derive(Clone, Copy, Debug, Default, PartialEq, Eq)]
pub struct SecondaryApid(pub u64);

/// A packet's sequence count, which goes round.
#[repr(transparent)]
#[derive(Clone, Copy, Debug, Default, PartialEq, Eq)]
pub struct SequenceCount(pub u64);

/// A segment's counter, which goes round too, at 32 bits.
#[repr(transparent)]
#[derive(Clone, Copy, Debug, Default, PartialEq, Eq)]
pub struct SegmentCounter(pub u64);

/// A sender's two running numbers: the sequence count of its next packet and the counter of its next segment.
///
/// ```
/// use orlyukan::{SegmentCounter, Sender, SequenceCount};
/// let sender = Sender { sequence_count: SequenceCount(7), counter: SegmentCounter(300) };
/// ```
///
/// ```compile_fail
/// use orlyukan::{SegmentCounter, Sender, SequenceCount};
/// let sender = Sender { sequence_count: SegmentCounter(300), counter: SequenceCount(7) };
/// ```
#[derive(Clone, Copy, Debug, PartialEq, Eq)]
pub struct Sender {
    pub sequence_count: SequenceCount,
    pub counter: SegmentCounter,
}

impl From<Sender> for RawSender {
    fn from(sender: Sender) -> Self {
        RawSender { sequence_count: sender.sequence_count.0, counter: sender.counter.0 }
    }
}

impl From<RawSender> for Sender {
    fn from(raw: RawSender) -> Self {
        Sender { sequence_count: SequenceCount(raw.sequence_count), counter: SegmentCounter(raw.counter) }
    }
}

/// A header's values to write or to cut. A `has_` of 0 says that the field is absent; its value must then be 0 or empty.
///
/// ```
/// use orlyukan::{Apid, Header, SecondaryApid};
/// let header = Header { apid: Apid(5), secondary_apid: SecondaryApid(6), ..Header::default() };
/// ```
///
/// ```compile_fail
/// use orlyukan::{Apid, Header, SecondaryApid};
/// let header = Header { apid: SecondaryApid(6), secondary_apid: Apid(5), ..Header::default() };
/// ```
#[derive(Clone, Copy, Debug, Default, PartialEq, Eq)]
pub struct Header<'a> {
    pub packet_type: u64,
    pub apid: Apid,
    pub sdu: u64,
    pub area: u64,
    pub service: u64,
    pub operation: u64,
    pub area_version: u64,
    pub error: u64,
    pub qos: u64,
    pub session: u64,
    pub secondary_apid: SecondaryApid,
    pub qualifier: u64,
    pub transaction: u64,
    pub has_source: u64,
    pub has_destination: u64,
    pub has_priority: u64,
    pub has_timestamp: u64,
    pub has_zone: u64,
    pub has_session_name: u64,
    pub has_domain: u64,
    pub has_authentication: u64,
    pub source: u64,
    pub destination: u64,
    pub priority: u64,
    pub timestamp: &'a [u8],
    /// Well-formed UTF-8, as the session name and each domain part; the authentication id is octets of any value.
    pub zone: &'a [u8],
    pub session_name: &'a [u8],
    /// The text of all parts, and the length of each.
    pub domain: &'a [u8],
    pub domain_lengths: &'a [u64],
    pub authentication: &'a [u8],
}

impl Header<'_> {
    /// The numbers, as C takes them.
    pub(crate) fn numbers(&self) -> RawHeader {
        RawHeader {
            packet_type: self.packet_type,
            apid: self.apid.0,
            sdu: self.sdu,
            area: self.area,
            service: self.service,
            operation: self.operation,
            area_version: self.area_version,
            error: self.error,
            qos: self.qos,
            session: self.session,
            secondary_apid: self.secondary_apid.0,
            qualifier: self.qualifier,
            transaction: self.transaction,
            has_source: self.has_source,
            has_destination: self.has_destination,
            has_priority: self.has_priority,
            has_timestamp: self.has_timestamp,
            has_zone: self.has_zone,
            has_session_name: self.has_session_name,
            has_domain: self.has_domain,
            has_authentication: self.has_authentication,
            source: self.source,
            destination: self.destination,
            priority: self.priority,
        }
    }
}
