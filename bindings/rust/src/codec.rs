//! Reading, writing and cutting.

use std::mem::MaybeUninit;

use crate::answers::{Cut, CutPacket, Reading, Refusal, Written};
use crate::header::{Header, SegmentCounter, Sender, SequenceCount, Settings};
use crate::raw::{self, RawAfter, RawCut, RawNumber, RawSender};

/// An answer that has nothing to tell on a refusal but its number.
fn unless_refused<A>(refusal: u64, answer: A) -> Result<A, Refusal> {
    match refusal {
        0 => Ok(answer),
        number => Err(Refusal { number, ..Refusal::default() }),
    }
}

/// The next sequence count: 0 comes after 16,383, and after any number from there up to 65,535. A larger one is refused with 22.
pub fn next_sequence_count(sequence_count: SequenceCount) -> Result<SequenceCount, Refusal> {
    let mut answer = RawNumber::default();
    // SAFETY: the answer is ours alone.
    unsafe { raw::orl_next_sequence_count(sequence_count.0, &mut answer) };
    unless_refused(answer.refusal, SequenceCount(answer.number))
}

/// Reads one packet under the settings.
///
/// ```
/// use orlyukan::{read, Settings, FIXED};
/// let packet = [0x18, 5, 0xc0, 0, 0, 0x14, 0, 0, 1, 0, 2, 0, 3, 1, 0x20, 6, 0, 7, 0, 0, 0, 0, 0, 0, 0, 9, 0];
/// assert_eq!(read(8, &packet), read(Settings { t: 6, profile: FIXED }, &packet));
/// assert_eq!(read(Settings { t: 8, profile: 2 }, &packet).refusal, 15);
/// ```
pub fn read(settings: impl Into<Settings>, packet: &[u8]) -> Reading {
    let mut answer = MaybeUninit::<Reading>::uninit();
    let s = settings.into();
    // SAFETY: a slice's pointer is valid for its length; the answer is ours alone, and the call fills all of its numbers.
    unsafe {
        raw::orl_read(s.t, s.profile, packet.as_ptr(), packet.len(), answer.as_mut_ptr());
        answer.assume_init()
    }
}

/// Writes one packet over the front of `out`: its own sequence flags, sequence count and segment counter beside the header's values.
///
/// ```
/// use orlyukan::{write, Header, SegmentCounter, SequenceCount};
/// let mut out = [0; 64];
/// let written = write(8, &Header::default(), 1, SequenceCount(7), SegmentCounter(300), b"tile", &mut out);
/// assert_eq!((written.refusal, written.length), (0, 35));
/// ```
///
/// A counter can't stand in for a sequence count:
///
/// ```compile_fail
/// use orlyukan::{write, Header, SegmentCounter, SequenceCount};
/// let mut out = [0; 64];
/// let written = write(8, &Header::default(), 1, SegmentCounter(300), SequenceCount(7), b"tile", &mut out);
/// assert_eq!((written.refusal, written.length), (0, 35));
/// ```
#[rustfmt::skip]
pub fn write(
    settings: impl Into<Settings>, header: &Header, flags: u64, sequence_count: SequenceCount, counter: SegmentCounter, body: &[u8],
    out: &mut [u8],
) -> Written {
    let mut answer = RawNumber::default();
    let (s, numbers) = (settings.into(), header.numbers());
    // SAFETY: each slice's pointer is valid for its length; `out` is lent to us alone and so overlaps none of the others.
    unsafe {
        raw::orl_write(s.t, s.profile, &numbers, header.timestamp.as_ptr(), header.timestamp.len(), header.zone.as_ptr(), header.zone.len(),
            header.session_name.as_ptr(), header.session_name.len(), header.domain.as_ptr(), header.domain.len(),
            header.domain_lengths.as_ptr(), header.domain_lengths.len(), header.authentication.as_ptr(),
            header.authentication.len(), flags, sequence_count.0, counter.0, body.as_ptr(), body.len(),
            out.as_mut_ptr(), out.len(), &mut answer);
    }
    Written { refusal: answer.refusal, length: answer.number }
}

/// How many packets of at most p octets a message takes whose body has `body_length` octets, and the sender after it.
#[rustfmt::skip]
pub fn cut_count(settings: impl Into<Settings>, p: u64, header: &Header, body_length: u64, sender: Sender) -> Cut {
    let mut answer = RawCut::default();
    let (s, numbers, given) = (settings.into(), header.numbers(), RawSender::from(sender));
    // SAFETY: each slice's pointer is valid for its length; the answer is ours alone.
    unsafe {
        raw::orl_cut_count(s.t, s.profile, p, &numbers, header.timestamp.as_ptr(), header.timestamp.len(), header.zone.as_ptr(),
            header.zone.len(), header.session_name.as_ptr(), header.session_name.len(), header.domain.as_ptr(),
            header.domain.len(), header.domain_lengths.as_ptr(), header.domain_lengths.len(), header.authentication.as_ptr(),
            header.authentication.len(), body_length, &given, &mut answer);
    }
    Cut { refusal: answer.refusal, count: answer.number, sender: answer.sender.into() }
}

/// Writes packet number i of a message over the front of `out`, by the sender's numbers as they stand before the message.
#[rustfmt::skip]
pub fn cut_packet(
    settings: impl Into<Settings>, p: u64, header: &Header, body: &[u8], sender: Sender, i: u64, out: &mut [u8],
) -> CutPacket {
    let mut answer = RawCut::default();
    let (s, numbers, given) = (settings.into(), header.numbers(), RawSender::from(sender));
    // SAFETY: each slice's pointer is valid for its length; `out` is lent to us alone and so overlaps none of the others.
    unsafe {
        raw::orl_cut_packet(s.t, s.profile, p, &numbers, header.timestamp.as_ptr(), header.timestamp.len(), header.zone.as_ptr(),
            header.zone.len(), header.session_name.as_ptr(), header.session_name.len(), header.domain.as_ptr(),
            header.domain.len(), header.domain_lengths.as_ptr(), header.domain_lengths.len(), header.authentication.as_ptr(),
            header.authentication.len(), body.as_ptr(), body.len(), &given, i, out.as_mut_ptr(), out.len(), &mut answer);
    }
    CutPacket { refusal: answer.refusal, length: answer.number, sender: answer.sender.into() }
}

/// The sender after one unsegmented packet.
pub fn after_packet(sender: Sender) -> Result<Sender, Refusal> {
    let mut answer = RawAfter::default();
    // SAFETY: sender and answer are ours alone.
    unsafe { raw::orl_after_packet(&RawSender::from(sender), &mut answer) };
    unless_refused(answer.refusal, answer.sender.into())
}

/// The sender after one segment.
pub fn after_segment(sender: Sender) -> Result<Sender, Refusal> {
    let mut answer = RawAfter::default();
    // SAFETY: sender and answer are ours alone.
    unsafe { raw::orl_after_segment(&RawSender::from(sender), &mut answer) };
    unless_refused(answer.refusal, answer.sender.into())
}
