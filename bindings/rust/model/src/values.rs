//! What is lent to the writing calls, and what all calls answer on a refusal.

/// A refusal: its number of SPEC's table; how many octets are missing (5) or left over (27); where in the secondary header the
/// unfinished field began (6).
#[derive(Clone, Copy, Debug, PartialEq, Eq)]
pub struct Refusal {
    pub number: u8,
    pub off: u32,
    pub began: u16,
}

/// A refusal that tells nothing beside its number.
pub(crate) fn refusal(number: u8) -> Refusal {
    Refusal { number, off: 0, began: 0 }
}

/// A header's values to write or to cut. Numbers are wider than their fields, so that a value out of range can be given.
#[derive(Clone, Copy, Debug, Default)]
pub struct Values<'a> {
    pub packet_type: u64,
    pub apid: u64,
    pub sdu: u64,
    pub area: u64,
    pub service: u64,
    pub operation: u64,
    pub area_version: u64,
    pub error: u64,
    pub qos: u64,
    pub session: u64,
    pub secondary_apid: u64,
    pub qualifier: u64,
    pub transaction: u64,
    pub has_source: u64,
    pub has_destination: u64,
    pub has_priority: u64,
    pub has_timestamp: u64,
    pub has_zone: u64,
    pub has_session_name: u64,
    pub has_domain: u64,
    pub has_authentication: u64,
    pub source: u64,
    pub destination: u64,
    pub priority: u64,
    pub timestamp: &'a [u8],
    pub zone: &'a [u8],
    pub session_name: &'a [u8],
    pub domain: &'a [u8],
    pub domain_lengths: &'a [u64],
    pub authentication: &'a [u8],
}

/// A sender's two running numbers.
#[derive(Clone, Copy, Debug, PartialEq, Eq)]
pub struct Sender {
    pub sequence_count: u64,
    pub counter: u64,
}

/// `Err` with this number unless the test holds.
pub(crate) fn hold(test: bool, number: u8) -> Result<(), Refusal> {
    if test {
        Ok(())
    } else {
        Err(refusal(number))
    }
}

/// T, and how a UInteger is written: 0 as a Varint, 1 as four octets.
#[derive(Clone, Copy, Debug, PartialEq, Eq)]
pub struct Settings {
    pub t: u64,
    pub profile: u64,
}

/// T alone: with Varints.
impl From<u64> for Settings {
    fn from(t: u64) -> Self {
        Settings { t, profile: 0 }
    }
}

/// Settings that have been tested.
#[derive(Clone, Copy)]
pub(crate) struct Tested {
    pub t: usize,
    pub is_fixed: bool,
}

impl Settings {
    /// T is 1 to 16 octets and the profile one of two, in every call that takes them.
    pub(crate) fn test(self) -> Result<Tested, Refusal> {
        hold((1..=16).contains(&self.t) && self.profile <= 1, 15)?;
        Ok(Tested { t: self.t as usize, is_fixed: self.profile == 1 })
    }
}

/// Whether octets are well-formed text. Most text is ASCII.
pub(crate) fn is_text(octets: &[u8]) -> bool {
    octets.is_ascii() || std::str::from_utf8(octets).is_ok()
}
