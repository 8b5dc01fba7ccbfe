//! What the calls answer.

use crate::header::{Apid, SecondaryApid, SegmentCounter, Sender, SequenceCount};

/// A refusal: its number of SPEC's table, and what it tells. `off` is beside 5 how many octets are missing, beside 27 how many are left
/// over; `began` is beside 6 the place in the secondary header, or in a PDU that was read, where the unfinished field began.
/// What is not told is 0.
#[derive(Clone, Copy, Debug, Default, PartialEq, Eq)]
pub struct Refusal {
    pub number: u64,
    pub off: u64,
    pub began: u64,
}

impl std::fmt::Display for Refusal {
    fn fmt(&self, f: &mut std::fmt::Formatter) -> std::fmt::Result {
        write!(f, "refusal {}", self.number)?;
        match self.number {
            5 => write!(f, ": octets missing: {}", self.off),
            27 => write!(f, ": octets left over: {}", self.off),
            6 => write!(f, ": the field that began at octet {} is not whole", self.began),
            _ => Ok(()),
        }
    }
}

impl std::error::Error for Refusal {}

/// An answer that may be a refusal.
pub trait Answer: Sized {
    fn refusal(&self) -> u64;

    /// The refusal with what it tells; the calls that read no packet tell nothing but its number.
    fn refused(&self) -> Refusal {
        Refusal { number: self.refusal(), ..Refusal::default() }
    }

    /// The answer if the call succeeded, else the refusal alone.
    fn accepted(self) -> Result<Self, Refusal> {
        match self.refusal() {
            0 => Ok(self),
            _ => Err(self.refused()),
        }
    }
}

/// A place in a packet or a buffer, counted from its first octet, and a length.
#[repr(C)]
#[derive(Clone, Copy, Debug, Default, PartialEq, Eq)]
pub struct Place {
    pub place: u64,
    pub length: u64,
}

/// All that a packet says. The value of an absent field is zero.
#[repr(C)]
#[derive(Clone, Copy, Debug, Default, PartialEq, Eq)]
pub struct Reading {
    pub refusal: u64,
    pub packet_type: u64,
    pub apid: Apid,
    pub flags: u64,
    pub sequence_count: SequenceCount,
    pub sdu: u64,
    pub area: u64,
    pub service: u64,
    pub operation: u64,
    pub area_version: u64,
    pub error: u64,
    pub qos: u64,
    pub session: u64,
    pub secondary_apid: SecondaryApid,
    pub qualifier: u64,
    pub transaction: u64,
    pub has_source: u64,
    pub has_destination: u64,
    pub has_priority: u64,
    pub has_timestamp: u64,
    pub has_zone: u64,
    pub has_session_name: u64,
    pub has_domain: u64,
    pub has_authentication: u64,
    pub source: u64,
    pub destination: u64,
    pub counter: SegmentCounter,
    pub priority: u64,
    pub timestamp: Place,
    pub zone: Place,
    pub session_name: Place,
    pub domain_count: u64,
    pub domain: [Place; 16],
    pub authentication: Place,
    pub h: u64,
    pub body: Place,
    pub off: u64,
    pub began: u64,
    /// 1 if it has a network zone, which is withdrawn.
    pub withdrawn: u64,
}

/// The octets that a written packet took.
#[derive(Clone, Copy, Debug, Default, PartialEq, Eq)]
pub struct Written {
    pub refusal: u64,
    pub length: u64,
}

/// How many packets a message takes, and the sender after it; on a refusal the sender as it was given.
#[derive(Clone, Copy, Debug, PartialEq, Eq)]
pub struct Cut {
    pub refusal: u64,
    pub count: u64,
    pub sender: Sender,
}

/// The octets that packet i of a message took, and the sender, who does not move.
#[derive(Clone, Copy, Debug, PartialEq, Eq)]
pub struct CutPacket {
    pub refusal: u64,
    pub length: u64,
    pub sender: Sender,
}

/// What an arrival came to.
#[derive(Clone, Copy, Debug, PartialEq, Eq)]
pub enum Kind {
    Whole,
    Stored,
    Held,
    /// Of a message that was taken before: a late repeat.
    Taken,
}

/// An arrival's answer; no kind on a refusal.
#[derive(Clone, Copy, Debug, PartialEq, Eq)]
pub struct Arrived {
    pub refusal: u64,
    pub kind: Option<Kind>,
    pub off: u64,
    pub began: u64,
}

/// A taking's answer: H, B, and the first segment's counter.
#[derive(Clone, Copy, Debug, Default, PartialEq, Eq)]
pub struct Taken {
    pub refusal: u64,
    pub h: u64,
    pub b: u64,
    pub counter: SegmentCounter,
}

/// A forgetting's answer: nothing beside the refusal.
#[derive(Clone, Copy, Debug, Default, PartialEq, Eq)]
pub struct Forgot {
    pub refusal: u64,
}

/// Which buffer holds a body.
#[derive(Clone, Copy, Debug, Default, PartialEq, Eq)]
pub enum Which {
    #[default]
    Nothing,
    Packet,
    Joined,
}

/// A joining's answer: where the body stands, and for a joined one also taking's answer.
#[derive(Clone, Copy, Debug, Default, PartialEq, Eq)]
pub struct Joined {
    pub refusal: u64,
    pub which: Which,
    pub place: u64,
    pub length: u64,
    pub h: u64,
    pub b: u64,
    pub counter: SegmentCounter,
    pub off: u64,
    pub began: u64,
}

/// How many cells a store in order has.
#[derive(Clone, Copy, Debug, Default, PartialEq, Eq)]
pub struct Order {
    pub refusal: u64,
    pub cells: u64,
}

macro_rules! answers {
    ($($name:ty),*) => {
        $(impl Answer for $name {
            fn refusal(&self) -> u64 {
                self.refusal
            }
        })*
    };
}

answers!(Written, Cut, CutPacket, Taken, Forgot, Order);

/// The answers of the calls that read a packet.
macro_rules! reading_answers {
    ($($name:ty),*) => {
        $(impl Answer for $name {
            fn refusal(&self) -> u64 {
                self.refusal
            }

            fn refused(&self) -> Refusal {
                Refusal { number: self.refusal, off: self.off, began: self.began }
            }
        })*
    };
}

reading_answers!(Reading, Arrived, Joined);
