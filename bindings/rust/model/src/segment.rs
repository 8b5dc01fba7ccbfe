//! A segment as the store sees it: an accepted segmented packet, with where its counter and its body stand.

use std::hash::{Hash, Hasher};

use crate::{Reading, PRIMARY};

/// Equal are two segments of the same key and counter.
#[derive(Clone, Copy, Debug)]
pub(crate) struct Segment<'a> {
    pub packet: &'a [u8],
    pub flags: u8,
    pub counter: u32,
    counter_at: u16,
    body_at: u16,
}

impl<'a> Segment<'a> {
    /// The segment of a packet that was read as segmented.
    pub fn new(packet: &'a [u8], r: &Reading) -> Self {
        let ids = u16::from(r.has(0)) + u16::from(r.has(1));
        Segment { packet, flags: r.flags, counter: r.counter, counter_at: 27 + ids, body_at: r.body.place as u16 }
    }

    /// The header octets before the counter, and those after it.
    pub fn header(&self) -> (&'a [u8], &'a [u8]) {
        let at = usize::from(self.counter_at);
        (&self.packet[PRIMARY..at], &self.packet[at + 4..usize::from(self.body_at)])
    }

    /// Packet type and APID, with the version and the flag that every accepted packet has.
    pub fn id(&self) -> &'a [u8] {
        &self.packet[..2]
    }

    pub fn body(&self) -> &'a [u8] {
        &self.packet[usize::from(self.body_at)..]
    }

    /// H, without the counter.
    pub fn h(&self) -> usize {
        usize::from(self.body_at) - PRIMARY - 4
    }

    pub fn same_key(&self, other: &Segment) -> bool {
        self.id() == other.id() && self.header() == other.header()
    }

    /// Two octets of identification and the header without its counter: what names a message together with its counters.
    pub fn key(&self) -> Vec<u8> {
        let (before, after) = self.header();
        [self.id(), before, after].concat()
    }

    /// Whether flags and body agree too.
    pub fn same_rest(&self, other: &Segment) -> bool {
        self.flags == other.flags && self.body() == other.body()
    }

    /// The same key at another counter.
    pub fn at_counter(self, counter: u32) -> Self {
        Segment { counter, ..self }
    }
}

impl PartialEq for Segment<'_> {
    fn eq(&self, other: &Self) -> bool {
        self.counter == other.counter && self.same_key(other)
    }
}

impl Eq for Segment<'_> {}

impl Hash for Segment<'_> {
    fn hash<S: Hasher>(&self, state: &mut S) {
        let (before, after) = self.header();
        state.write_u32(self.counter);
        state.write(self.id());
        state.write(before);
        state.write(after);
    }
}
