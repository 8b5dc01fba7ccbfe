//! Joining, and the view of a body.

use crate::read::read;
use crate::store::{arrive, take, Kind};
use crate::values::{Refusal, Settings};

/// Which buffer holds a body.
#[derive(Clone, Copy, Debug, PartialEq, Eq)]
pub enum Which {
    Nothing,
    Packet,
    Joined,
}

/// Where the body of a message stands; for a joined one also taking's answer.
#[derive(Clone, Copy, Debug, PartialEq, Eq)]
pub struct Joined {
    pub which: Which,
    pub place: usize,
    pub length: usize,
    pub h: usize,
    pub b: usize,
    pub counter: u32,
}

/// Arrival, and if the packet did not come whole, taking.
pub fn join(settings: impl Into<Settings>, store: &mut [u8], packet: &[u8], out: &mut [u8]) -> Result<Joined, Refusal> {
    let s = settings.into();
    if arrive(s, store, packet)? == Kind::Whole {
        let body = read(s, packet)?.body;
        let (place, length) = (body.place as usize, body.length as usize);
        return Ok(Joined { which: Which::Packet, place, length, h: 0, b: 0, counter: 0 });
    }
    let taken = take(s, store, out)?;
    Ok(Joined { which: Which::Joined, place: 2 + taken.h, length: taken.b, h: taken.h, b: taken.b, counter: taken.counter })
}

/// A part of the named buffer, empty if place and length do not lie inside.
pub fn view<'a>(packet: &'a [u8], joined: &'a [u8], which: Which, place: u64, length: u64) -> &'a [u8] {
    let buffer = match which {
        Which::Nothing => &[],
        Which::Packet => packet,
        Which::Joined => joined,
    };
    match place.checked_add(length) {
        Some(end) if end <= buffer.len() as u64 => &buffer[place as usize..end as usize],
        _ => &[],
    }
}
