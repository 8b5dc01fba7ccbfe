//! The store: arrival, taking, forgetting, joining, and the view of a body.

use crate::answers::{Arrived, Forgot, Joined, Kind, Order, Taken, Which};
use crate::header::{SegmentCounter, Settings};
use crate::raw::{self, RawArrived, RawForgot, RawJoined, RawNumber, RawTaken, RawView};

/// Takes a packet into the store.
pub fn arrive(settings: impl Into<Settings>, store: &mut [u8], packet: &[u8]) -> Arrived {
    let mut answer = RawArrived::default();
    let s = settings.into();
    // SAFETY: each slice's pointer is valid for its length; the store is lent to us alone.
    unsafe { raw::orl_arrive(s.t, s.profile, store.as_mut_ptr(), store.len(), packet.as_ptr(), packet.len(), &mut answer) };
    let kind = match answer.kind {
        raw::ORL_WHOLE => Some(Kind::Whole),
        raw::ORL_STORED => Some(Kind::Stored),
        raw::ORL_HELD => Some(Kind::Held),
        raw::ORL_TAKEN => Some(Kind::Taken),
        _ => None,
    };
    Arrived { refusal: answer.refusal, kind, off: answer.off, began: answer.began }
}

/// Takes the complete message with its first in the lowest cell out of the store, into the front of `out`. A record of it stays in that
/// cell, by which late repeats of its segments are known.
pub fn take(settings: impl Into<Settings>, store: &mut [u8], out: &mut [u8]) -> Taken {
    let mut answer = RawTaken::default();
    let s = settings.into();
    // SAFETY: each slice's pointer is valid for its length; store and output are each lent to us alone.
    unsafe { raw::orl_take(s.t, s.profile, store.as_mut_ptr(), store.len(), out.as_mut_ptr(), out.len(), &mut answer) };
    Taken { refusal: answer.refusal, h: answer.h, b: answer.b, counter: SegmentCounter(answer.counter) }
}

/// Forgets the record of a message that was taken, by the number of its cell from 0, which is free then; refused with 31 if the cell has
/// no such record.
pub fn forget(settings: impl Into<Settings>, store: &mut [u8], number: u64) -> Forgot {
    let mut answer = RawForgot::default();
    let s = settings.into();
    // SAFETY: the slice's pointer is valid for its length; the store is lent to us alone.
    unsafe { raw::orl_forget(s.t, s.profile, store.as_mut_ptr(), store.len(), number, &mut answer) };
    Forgot { refusal: answer.refusal }
}

/// Arrival, and if the packet did not come whole, taking.
#[rustfmt::skip]
pub fn join(settings: impl Into<Settings>, store: &mut [u8], packet: &[u8], out: &mut [u8]) -> Joined {
    let mut answer = RawJoined::default();
    let s = settings.into();
    // SAFETY: each slice's pointer is valid for its length; store and output are each lent to us alone.
    unsafe {
        raw::orl_join(s.t, s.profile, store.as_mut_ptr(), store.len(), packet.as_ptr(), packet.len(), out.as_mut_ptr(), out.len(),
            &mut answer);
    }
    let which = match answer.which {
        raw::ORL_PACKET => Which::Packet,
        raw::ORL_JOINED => Which::Joined,
        _ => Which::Nothing,
    };
    let RawJoined { refusal, place, length, h, b, counter, off, began, .. } = answer;
    Joined { refusal, which, place, length, h, b, counter: SegmentCounter(counter), off, began }
}

/// The part of the named buffer that joining told of; empty if place and length do not lie inside it.
#[rustfmt::skip]
pub fn view<'a>(packet: &'a [u8], joined: &'a [u8], which: Which, place: u64, length: u64) -> &'a [u8] {
    let mut answer = RawView::default();
    let (number, buffer): (u64, &[u8]) = match which {
        Which::Nothing => (raw::ORL_NOTHING, &[]),
        Which::Packet => (raw::ORL_PACKET, packet),
        Which::Joined => (raw::ORL_JOINED, joined),
    };
    // SAFETY: each slice's pointer is valid for its length; the answer is ours alone.
    unsafe {
        raw::orl_view(packet.as_ptr(), packet.len(), joined.as_ptr(), joined.len(), number, place, length, &mut answer);
    }
    &buffer[answer.part.place as usize..][..answer.part.length as usize]
}

/// Whether a store is in order, and how many cells it has: 15 or 16 if it is not.
pub fn in_order(settings: impl Into<Settings>, store: &[u8]) -> Order {
    let mut answer = RawNumber::default();
    let s = settings.into();
    // SAFETY: the slice's pointer is valid for its length; the answer is ours alone.
    unsafe { raw::orl_in_order(s.t, s.profile, store.as_ptr(), store.len(), &mut answer) };
    Order { refusal: answer.refusal, cells: answer.number }
}
