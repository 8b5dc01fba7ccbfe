//! Orlyukan for Rust: reading, writing, cutting, storing and joining MAL messages in CCSDS Space Packets, salvaging damaged recordings
//! of them, reading and writing the survey office's PDUs, and carrying messages there and back.
//!
//! The work is done by the proved library, whose promises stand beside its source. These wrappers see to what a caller of C must
//! see to alone: pointers that are valid, lengths that are true, buffers that do not overlap. Each call answers a plain struct whose
//! `refusal` is 0, or a number of SPEC's table with every other field zero, but for what a refusal of reading tells (`off` and `began`);
//! [`Answer::accepted`] makes a `Result` of it, whose [`Refusal`] tells the same. The three calls that only move a number on answer such a
//! `Result` at once.
//!
//! APID, secondary APID, sequence count and segment counter are kinds of their own, and none can stand in for another. They and all
//! other numbers are as wide as the library takes them, so that a number too wide for its field is refused and never cut off.

mod answers;
mod codec;
mod header;
mod office;
mod pdu;
pub mod raw;
mod recording;
mod salvage;
mod store;

pub use answers::{
    Answer, Arrived, Cut, CutPacket, Forgot, Joined, Kind, Order, Place, Reading, Refusal, Taken, Which, Written,
};
pub use codec::{after_packet, after_segment, cut_count, cut_packet, next_sequence_count, read, write};
pub use header::{Apid, Header, SecondaryApid, SegmentCounter, Sender, SequenceCount, Settings, FIXED, VARINT};
pub use office::{to_message, to_pdu, Returned, Route, Sent};
pub use pdu::{pdu_read, pdu_write, PduHeader, PduReading, PduWritten};
pub use recording::{join_recording, Recording, Stop};
pub use salvage::{salvage, Entry, Salvaged};
pub use store::{arrive, forget, in_order, join, take, view};

/// The octets of a cell of the store, and the most cells it may have.
pub const CELL: usize = 1024;
pub const CELLS: usize = 4096;
