//! The proved library and the model on the same inputs: whole answers and whole buffers compared.

pub mod calls;
pub mod cases;
pub mod headers;
pub mod json;
pub mod packets;
pub mod random;
pub mod recordings;
pub mod stores;
pub mod tally;
mod told;
pub mod torn;
