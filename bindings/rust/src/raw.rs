//! The calls of C as they stand in `include/orlyukan.h`. The wrappers beside this module are the ones to use.

use crate::answers::{Place, Reading};
use crate::pdu::{PduReading, PduWritten};

/// How lengths, counts and priorities are written.
pub const ORL_VARINT: u64 = 0;
pub const ORL_FIXED: u64 = 1;

/// What an arrival comes to.
pub const ORL_WHOLE: u64 = 1;
pub const ORL_STORED: u64 = 2;
pub const ORL_HELD: u64 = 3;
pub const ORL_TAKEN: u64 = 4;

/// Which buffer holds a body.
pub const ORL_NOTHING: u64 = 0;
pub const ORL_PACKET: u64 = 1;
pub const ORL_JOINED: u64 = 2;

/// Why the joining of a recording stopped.
pub const ORL_ENDED: u64 = 1;
pub const ORL_UNMARKED: u64 = 2;
pub const ORL_TORN: u64 = 3;

/// The kinds of an entry.
pub const ORL_SKIPPED: u64 = 0;
pub const ORL_KEPT: u64 = 1;

/// A sender's running numbers.
#[repr(C)]
#[derive(Clone, Copy, Debug, Default, PartialEq, Eq)]
pub struct RawSender {
    pub sequence_count: u64,
    pub counter: u64,
}

/// The numbers of a header to write.
#[repr(C)]
#[derive(Clone, Copy, Debug, Default, PartialEq, Eq)]
pub struct RawHeader {
    pub packet_type: u64,
    pub apid: u64,
    pub sdu: u64,
    pub area: u64,
    pub service: u64,
    pub operation: u64,
    pub area_version: u64,
    pub error: u64,
    pub qos: u64,
    pub session: u64,
    pub secondary_apid: u64,
    pub qualifier: u64,
    pub transaction: u64,
    pub has_source: u64,
    pub has_destination: u64,
    pub has_priority: u64,
    pub has_timestamp: u64,
    pub has_zone: u64,
    pub has_session_name: u64,
    pub has_domain: u64,
    pub has_authentication: u64,
    pub source: u64,
    pub destination: u64,
    pub priority: u64,
}

/// The answer of a call that tells one number beside the refusal.
#[repr(C)]
#[derive(Clone, Copy, Debug, Default, PartialEq, Eq)]
pub struct RawNumber {
    pub refusal: u64,
    pub number: u64,
}

/// The answer of [`orl_after_packet`] and [`orl_after_segment`].
#[repr(C)]
#[derive(Clone, Copy, Debug, Default, PartialEq, Eq)]
pub struct RawAfter {
    pub refusal: u64,
    pub sender: RawSender,
}

/// The answer of [`orl_cut_count`] and [`orl_cut_packet`]: a count, or a length.
#[repr(C)]
#[derive(Clone, Copy, Debug, Default, PartialEq, Eq)]
pub struct RawCut {
    pub refusal: u64,
    pub number: u64,
    pub sender: RawSender,
}

/// The answer of [`orl_forget`].
#[repr(C)]
#[derive(Clone, Copy, Debug, Default, PartialEq, Eq)]
pub struct RawForgot {
    pub refusal: u64,
}

/// The answer of [`orl_arrive`].
#[repr(C)]
#[derive(Clone, Copy, Debug, Default, PartialEq, Eq)]
pub struct RawArrived {
    pub refusal: u64,
    pub kind: u64,
    pub off: u64,
    pub began: u64,
}

#[repr(C)]
#[derive(Clone, Copy, Debug, Default, PartialEq, Eq)]
pub struct RawTaken {
    pub refusal: u64,
    pub h: u64,
    pub b: u64,
    pub counter: u64,
}

#[repr(C)]
#[derive(Clone, Copy, Debug, Default, PartialEq, Eq)]
pub struct RawJoined {
    pub refusal: u64,
    pub which: u64,
    pub place: u64,
    pub length: u64,
    pub h: u64,
    pub b: u64,
    pub counter: u64,
    pub off: u64,
    pub began: u64,
}

#[repr(C)]
#[derive(Clone, Copy, Debug, Default, PartialEq, Eq)]
pub struct RawView {
    pub refusal: u64,
    pub part: Place,
}

/// The answer of [`orl_join_recording`]: octets written, where in the recording it stopped, and why.
#[repr(C)]
#[derive(Clone, Copy, Debug, Default, PartialEq, Eq)]
pub struct RawRecording {
    pub refusal: u64,
    pub written: u64,
    pub place: u64,
    pub stop: u64,
}

/// The answer of [`orl_salvage`]: places tested, entries listed, the state for the next call, and whether it is done.
#[repr(C)]
#[derive(Clone, Copy, Debug, Default, PartialEq, Eq)]
pub struct RawSalvaged {
    pub refusal: u64,
    pub tested: u64,
    pub entries: u64,
    pub begin: u64,
    pub place: u64,
    pub done: u64,
}

/// The answer of [`orl_to_pdu`]: octets written, those before the body, and the place beside 6.
#[repr(C)]
#[derive(Clone, Copy, Debug, Default, PartialEq, Eq)]
pub struct RawToPdu {
    pub refusal: u64,
    pub length: u64,
    pub header_length: u64,
    pub began: u64,
}

/// What a PDU has no field for.
#[repr(C)]
#[derive(Clone, Copy, Debug, Default, PartialEq, Eq)]
pub struct RawRoute {
    pub packet_type: u64,
    pub apid: u64,
    pub secondary_apid: u64,
    pub qualifier: u64,
}

/// The answer of [`orl_to_message`]: H, B, the encoding id, and what a refusal of reading tells.
#[repr(C)]
#[derive(Clone, Copy, Debug, Default, PartialEq, Eq)]
pub struct RawToMessage {
    pub refusal: u64,
    pub h: u64,
    pub b: u64,
    pub encoding_id: u64,
    pub off: u64,
    pub began: u64,
}

/// The numbers of a PDU's header to write.
#[repr(C)]
#[derive(Clone, Copy, Debug, Default, PartialEq, Eq)]
pub struct RawPduHeader {
    pub sdu: u64,
    pub area: u64,
    pub service: u64,
    pub operation: u64,
    pub area_version: u64,
    pub error: u64,
    pub qos: u64,
    pub session: u64,
    pub transaction: u64,
    pub has_source: u64,
    pub has_destination: u64,
    pub has_priority: u64,
    pub has_timestamp: u64,
    pub has_zone: u64,
    pub has_session_name: u64,
    pub has_domain: u64,
    pub has_authentication: u64,
    pub encoding_id: u64,
    pub priority: u64,
}

/// A lent slice, for the calls that take many.
type P = *const u8;
type M = *mut u8;

#[rustfmt::skip]
extern "C" {
    pub fn orl_next_sequence_count(sequence_count: u64, answer: *mut RawNumber);
    pub fn orl_read(t: u64, profile: u64, packet: P, packet_length: usize, answer: *mut Reading);
    pub fn orl_write(t: u64, profile: u64, header: *const RawHeader, timestamp: P, timestamp_length: usize, zone: P, zone_length: usize,
        session_name: P, session_name_length: usize, domain: P, domain_length: usize, domain_lengths: *const u64,
        domain_count: usize, authentication: P, authentication_length: usize, flags: u64, sequence_count: u64, counter: u64,
        body: P, body_length: usize, out: M, out_length: usize, answer: *mut RawNumber);
    pub fn orl_after_packet(sender: *const RawSender, answer: *mut RawAfter);
    pub fn orl_after_segment(sender: *const RawSender, answer: *mut RawAfter);
    pub fn orl_cut_count(t: u64, profile: u64, p: u64, header: *const RawHeader, timestamp: P, timestamp_length: usize, zone: P,
        zone_length: usize, session_name: P, session_name_length: usize, domain: P, domain_length: usize,
        domain_lengths: *const u64, domain_count: usize, authentication: P, authentication_length: usize, body_length: u64,
        sender: *const RawSender, answer: *mut RawCut);
    pub fn orl_cut_packet(t: u64, profile: u64, p: u64, header: *const RawHeader, timestamp: P, timestamp_length: usize, zone: P,
        zone_length: usize, session_name: P, session_name_length: usize, domain: P, domain_length: usize,
        domain_lengths: *const u64, domain_count: usize, authentication: P, authentication_length: usize, body: P,
        body_length: usize, sender: *const RawSender, i: u64, out: M, out_length: usize, answer: *mut RawCut);
    pub fn orl_arrive(t: u64, profile: u64, store: M, store_length: usize, packet: P, packet_length: usize,
        answer: *mut RawArrived);
    pub fn orl_take(t: u64, profile: u64, store: M, store_length: usize, out: M, out_length: usize,
        answer: *mut RawTaken);
    pub fn orl_forget(t: u64, profile: u64, store: M, store_length: usize, number: u64, answer: *mut RawForgot);
    pub fn orl_join(t: u64, profile: u64, store: M, store_length: usize, packet: P, packet_length: usize, out: M, out_length: usize,
        answer: *mut RawJoined);
    pub fn orl_view(packet: P, packet_length: usize, joined: P, joined_length: usize, which: u64, place: u64, length: u64,
        answer: *mut RawView);
    pub fn orl_in_order(t: u64, profile: u64, store: P, store_length: usize, answer: *mut RawNumber);
    pub fn orl_join_recording(t: u64, profile: u64, recording: P, recording_length: usize, out: M, out_length: usize,
        answer: *mut RawRecording);
    pub fn orl_salvage(t: u64, profile: u64, file: P, file_length: usize, begin: u64, place: u64, grant: u64, list: *mut u64,
        list_length: usize, answer: *mut RawSalvaged);
    pub fn orl_pdu_read(pdu: P, pdu_length: usize, answer: *mut PduReading);
    pub fn orl_pdu_write(header: *const RawPduHeader, source: P, source_length: usize, destination: P, destination_length: usize,
        timestamp: P, timestamp_length: usize, zone: P, zone_length: usize, session_name: P, session_name_length: usize,
        domain: P, domain_length: usize, domain_lengths: *const u64, domain_count: usize, authentication: P,
        authentication_length: usize, body: P, body_length: usize, out: M, out_length: usize, answer: *mut PduWritten);
    pub fn orl_to_pdu(t: u64, profile: u64, message: P, message_length: usize, encoding_id: u64, out: M, out_length: usize,
        answer: *mut RawToPdu);
    pub fn orl_to_message(t: u64, profile: u64, pdu: P, pdu_length: usize, route: *const RawRoute, out: M, out_length: usize,
        answer: *mut RawToMessage);
}
