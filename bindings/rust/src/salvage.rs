//! Salvaging a damaged recording: what is kept of it and what is skipped.

use crate::answers::Answer;
use crate::header::Settings;
use crate::raw::{self, RawSalvaged};

/// An entry of a file's list: a mark and a packet together, or a stretch that was skipped.
#[repr(C)]
#[derive(Clone, Copy, Debug, Default, PartialEq, Eq)]
pub struct Entry {
    /// [`raw::ORL_KEPT`] or [`raw::ORL_SKIPPED`].
    pub kind: u64,
    pub place: u64,
    pub length: u64,
}

impl Entry {
    pub fn is_kept(&self) -> bool {
        self.kind == raw::ORL_KEPT
    }
}

/// A salvage's answer: the places tested, the entries listed, the state to resume from, and whether the whole file is listed.
#[must_use]
#[derive(Clone, Copy, Debug, Default, PartialEq, Eq)]
pub struct Salvaged {
    pub refusal: u64,
    pub tested: u64,
    pub entries: u64,
    pub begin: u64,
    pub place: u64,
    pub done: bool,
}

impl Answer for Salvaged {
    fn refusal(&self) -> u64 {
        self.refusal
    }
}

/// Salvages a file from a state on, 0 and 0 at first: tests at most `grant` places and lists what it finds in the front of `list`.
///
/// It ends too before a place if fewer than two entries are free, and at the file's end if none is free for an open stretch. With `begin`
/// and `place` of its answer the next call goes on, and all together list what one long call would. Refused with 40 if `begin` is above
/// `place`, or `place` after the file's end.
///
/// ```
/// # use orlyukan::{salvage, Entry};
/// let packet = [0x18, 5, 0xc0, 0, 0, 0x14, 0, 0, 1, 0, 2, 0, 3, 1, 0x20, 6, 0, 7, 0, 0, 0, 0, 0, 0, 0, 9, 0];
/// let file = [&b"torn"[..], b"MP", &packet].concat();
/// let mut list = [Entry::default(); 4];
/// let answer = salvage(8, &file, 0, 0, u64::MAX, &mut list);
/// assert!(answer.done && answer.entries == 2);
/// assert!(!list[0].is_kept() && (list[0].place, list[0].length) == (0, 4));
/// assert!(list[1].is_kept() && (list[1].place, list[1].length) == (4, 29));
/// ```
#[rustfmt::skip]
pub fn salvage(settings: impl Into<Settings>, file: &[u8], begin: u64, place: u64, grant: u64, list: &mut [Entry]) -> Salvaged {
    let Settings { t, profile } = settings.into();
    let mut answer = RawSalvaged::default();
    // SAFETY: the file's pointer is valid for its length; the list is lent to us alone, and an entry is three numbers and nothing else.
    unsafe {
        raw::orl_salvage(t, profile, file.as_ptr(), file.len(), begin, place, grant, list.as_mut_ptr().cast(), 3 * list.len(), &mut answer);
    }
    let RawSalvaged { refusal, tested, entries, begin, place, done } = answer;
    Salvaged { refusal, tested, entries, begin, place, done: done == 1 }
}
