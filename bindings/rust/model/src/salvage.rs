//! What is kept of a damaged recording and what is skipped.
//!
//! It goes from one kept packet to the next: the places between two of them cost a test each, and no entry.

use crate::read::read;
use crate::values::{hold, Refusal, Settings};

const MARK: [u8; 2] = [0x4d, 0x50];

/// An entry: whether it is kept, its place and its length.
#[derive(Clone, Copy, Debug, PartialEq, Eq)]
pub struct Listed {
    pub kept: bool,
    pub place: usize,
    pub length: usize,
}

/// What a call comes to.
#[derive(Clone, Debug, PartialEq, Eq)]
pub struct Salvaged {
    pub tested: u64,
    pub entries: Vec<Listed>,
    pub begin: usize,
    pub place: usize,
}

/// The octets of a mark and a packet that reading accepts, if the file has them at a place.
fn kept(s: Settings, file: &[u8], place: usize) -> Option<usize> {
    let packet = file[place..].strip_prefix(&MARK)?;
    let length = usize::from(u16::from_be_bytes([*packet.get(4)?, *packet.get(5)?])) + 7;
    read(s, packet.get(..length)?).ok()?;
    Some(MARK.len() + length)
}

/// The next place at which a packet is kept, from one on, and its octets.
fn next_kept(s: Settings, file: &[u8], place: usize) -> Option<(usize, usize)> {
    (place..file.len()).find_map(|at| Some((at, kept(s, file, at)?)))
}

/// Salvages from a state on, with so many tests and so many free entries.
pub fn salvage(
    settings: impl Into<Settings>,
    file: &[u8],
    begin: u64,
    place: u64,
    grant: u64,
    free: usize,
) -> Result<Salvaged, Refusal> {
    let s = settings.into();
    s.test()?;
    hold(begin <= place && place <= file.len() as u64, 40)?;
    let (mut open, mut at, mut left, mut entries) = (begin as usize, place as usize, grant, Vec::new());
    while left > 0 && at < file.len() && entries.len() + 2 <= free {
        let found = next_kept(s, file, at);
        let to = found.map_or(file.len(), |(to, _)| to);
        let passed = ((to - at) as u64).min(left);
        left -= passed;
        at += passed as usize;
        let Some((_, length)) = found.filter(|_| at == to && left > 0) else { continue };
        if open < at {
            entries.push(Listed { kept: false, place: open, length: at - open });
        }
        entries.push(Listed { kept: true, place: at, length });
        left -= 1;
        at += length;
        open = at;
    }
    if at == file.len() && open < at && entries.len() < free {
        entries.push(Listed { kept: false, place: open, length: at - open });
        open = at;
    }
    Ok(Salvaged { tested: grant - left, entries, begin: open, place: at })
}
