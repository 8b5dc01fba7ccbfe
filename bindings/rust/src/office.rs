//! Carrying a message to the survey office, as a PDU of the MAL TCP/IP binding, and back.

use crate::answers::Answer;
use crate::header::{Apid, SecondaryApid, Settings};
use crate::raw::{self, RawRoute, RawToMessage, RawToPdu};

/// What a PDU has no field for, lent for the way back.
#[derive(Clone, Copy, Debug, Default, PartialEq, Eq)]
pub struct Route {
    pub packet_type: u64,
    pub apid: Apid,
    pub secondary_apid: SecondaryApid,
    pub qualifier: u64,
}

/// A PDU that was written: its octets and those before the body; beside 6 where in the header the unfinished field began.
#[must_use]
#[derive(Clone, Copy, Debug, Default, PartialEq, Eq)]
pub struct Sent {
    pub refusal: u64,
    pub length: u64,
    pub header_length: u64,
    pub began: u64,
}

/// A message that came back: H, B, the encoding id; and what a refusal of reading the PDU tells.
#[must_use]
#[derive(Clone, Copy, Debug, Default, PartialEq, Eq)]
pub struct Returned {
    pub refusal: u64,
    pub h: u64,
    pub b: u64,
    pub encoding_id: u64,
    pub off: u64,
    pub began: u64,
}

impl Answer for Sent {
    fn refusal(&self) -> u64 {
        self.refusal
    }
}

impl Answer for Returned {
    fn refusal(&self) -> u64 {
        self.refusal
    }
}

/// Carries a message, in the form that taking writes, to the office: one PDU in the front of `out`. The body is carried as it is, and
/// `encoding_id` says what it is.
///
/// ```
/// # use orlyukan::{to_message, to_pdu, Apid, Route, SecondaryApid};
/// let message = [0x18, 5, 0, 0, 1, 0, 2, 0, 3, 1, 0x20, 6, 0, 7, 0, 0, 0, 0, 0, 0, 0, 9, 0];
/// let (mut out, mut back) = ([0; 23], [0; 23]);
/// assert_eq!(to_pdu(8, &message, 5, &mut out).length, 23);
/// let route = Route { packet_type: 1, apid: Apid(5), secondary_apid: SecondaryApid(6), qualifier: 7 };
/// assert_eq!(to_message(8, &out, route, &mut back).encoding_id, 5);
/// assert_eq!(back, message);
/// ```
pub fn to_pdu(settings: impl Into<Settings>, message: &[u8], encoding_id: u64, out: &mut [u8]) -> Sent {
    let Settings { t, profile } = settings.into();
    let mut answer = RawToPdu::default();
    // SAFETY: both pointers are valid for their lengths, and the output is lent to us alone.
    unsafe {
        raw::orl_to_pdu(t, profile, message.as_ptr(), message.len(), encoding_id, out.as_mut_ptr(), out.len(), &mut answer);
    }
    let RawToPdu { refusal, length, header_length, began } = answer;
    Sent { refusal, length, header_length, began }
}

/// Carries a PDU back: the message in the front of `out`, with the values of `route`.
pub fn to_message(settings: impl Into<Settings>, pdu: &[u8], route: Route, out: &mut [u8]) -> Returned {
    let Settings { t, profile } = settings.into();
    let Route { packet_type, apid, secondary_apid, qualifier } = route;
    let route = RawRoute { packet_type, apid: apid.0, secondary_apid: secondary_apid.0, qualifier };
    let mut answer = RawToMessage::default();
    // SAFETY: as above, and the route is a struct of ours.
    unsafe {
        raw::orl_to_message(t, profile, pdu.as_ptr(), pdu.len(), &route, out.as_mut_ptr(), out.len(), &mut answer);
    }
    let RawToMessage { refusal, h, b, encoding_id, off, began } = answer;
    Returned { refusal, h, b, encoding_id, off, began }
}
