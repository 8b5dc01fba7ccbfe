//! A second program for docs/SPEC.md, written from the rules alone, to compare the proved one with.
//!
//! Each call answers `Ok` with its whole answer, or `Err` with the one refusal that comes first. Lent octets change only as SPEC
//! says. Nothing here is proved; that two programs of different making agree on many inputs is what the comparison is worth.

mod cut;
mod hash;
mod join;
mod office;
mod read;
mod recording;
mod salvage;
mod segment;
mod sender;
mod store;
mod values;
mod varint;
mod write;

pub use cut::{count, packet};
pub use join::{join, view, Joined, Which};
pub use office::{to_message, to_pdu, Route, Told};
pub use read::{read, Reading, Span};
pub use recording::{join_recording, join_recording_into, recording_end, Stop};
pub use salvage::{salvage, Listed, Salvaged};
pub use sender::{after_packet, after_segment, next_sequence_count};
pub use store::{arrive, forget, in_order, take, Kind, Order, Taken, CELL, CELLS};
pub use values::{Refusal, Sender, Settings, Values};
pub use varint::{read_varint, write_varint};
pub use write::{write, write_old};

/// The octets of a primary header.
pub const PRIMARY: usize = 6;
/// The most octets of a secondary header, its counter among them.
pub const HEADER_LIMIT: usize = 256;
/// The most parts of a domain.
pub const PARTS: usize = 16;
/// The largest packet.
pub const PACKET_LIMIT: usize = 65_542;
/// The sequence flags of an unsegmented packet, of a first, a last and a continuation.
pub const UNSEGMENTED: u8 = 3;
pub const FIRST: u8 = 1;
pub const LAST: u8 = 2;
pub const CONTINUATION: u8 = 0;
/// How many sequence counts there are: 0 follows the last of them.
pub const SEQUENCE_COUNTS: u64 = 16_384;
/// How many segment counters there are: 0 follows the last of them.
pub const COUNTERS: u64 = 1 << 32;
/// The most segments of a message.
pub const SEGMENTS_LIMIT: u64 = 4096;
