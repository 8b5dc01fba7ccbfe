//! The small program's work over a recording in memory: 32 cells.

use crate::answers::Answer;
use crate::header::Settings;
use crate::raw::{self, RawRecording};

/// Why the joining of a recording stopped.
#[derive(Clone, Copy, Debug, PartialEq, Eq)]
pub enum Stop {
    /// The recording ends after a packet: all of it was read.
    Ended,
    /// Other octets than a mark follow.
    Unmarked,
    /// A mark, or the packet after it, is not whole.
    Torn,
}

/// The octets of output that were written, where in the recording it stopped, and why; no stop on a refusal.
#[must_use]
#[derive(Clone, Copy, Debug, PartialEq, Eq)]
pub struct Recording {
    pub refusal: u64,
    pub written: u64,
    pub place: u64,
    pub stop: Option<Stop>,
}

impl Answer for Recording {
    fn refusal(&self) -> u64 {
        self.refusal
    }
}

/// Joins a recording into the front of `out`, each message after its mark and its length; refused with 21 if `out` is shorter than the
/// recording. T 8 and Varints are usual: `join_recording(8, ..)`.
#[rustfmt::skip]
pub fn join_recording(settings: impl Into<Settings>, recording: &[u8], out: &mut [u8]) -> Recording {
    let mut answer = RawRecording::default();
    let s = settings.into();
    // SAFETY: each slice's pointer is valid for its length; the output is lent to us alone.
    unsafe {
        raw::orl_join_recording(s.t, s.profile, recording.as_ptr(), recording.len(), out.as_mut_ptr(), out.len(), &mut answer);
    }
    let stop = match answer.stop {
        raw::ORL_ENDED => Some(Stop::Ended),
        raw::ORL_UNMARKED => Some(Stop::Unmarked),
        raw::ORL_TORN => Some(Stop::Torn),
        _ => None,
    };
    Recording { refusal: answer.refusal, written: answer.written, place: answer.place, stop }
}
