//! Varints of at most 32 bits: seven bits an octet, the lowest group first, the high bit set if more follow.

use crate::values::{hold, refusal, Refusal};

/// The octets that the shortest writing of a number takes.
pub(crate) fn varint_length(value: u32) -> usize {
    match value {
        0..=0x7f => 1,
        0x80..=0x3fff => 2,
        0x4000..=0x1f_ffff => 3,
        0x20_0000..=0xfff_ffff => 4,
        _ => 5,
    }
}

/// The octets of a UInteger.
pub(crate) fn uinteger_length(is_fixed: bool, value: u32) -> usize {
    if is_fixed {
        4
    } else {
        varint_length(value)
    }
}

/// One more octet of a Varint, number k from 0, judged as soon as it is read: the value so far, and whether it ends here.
pub(crate) fn varint_step(value: u32, k: u32, octet: u8) -> Result<(u32, bool), Refusal> {
    hold(k == 0 || octet != 0, 10)?;
    hold(k < 4 || octet <= 15, 10)?;
    Ok((value | u32::from(octet & 0x7f) << (7 * k), octet < 0x80))
}

/// Reads a Varint at a place of some octets: its value and the place after it. 6 if the octets end inside.
pub fn read_varint(octets: &[u8], at: usize) -> Result<(u32, usize), Refusal> {
    let mut value = 0;
    for k in 0.. {
        let next = at + k as usize;
        let octet = *octets.get(next).ok_or(refusal(6))?;
        let (more, ends) = varint_step(value, k, octet)?;
        value = more;
        if ends {
            return Ok((value, next + 1));
        }
    }
    unreachable!("a fifth octet ends a Varint or is refused")
}

/// Lays a Varint over the front of an output: the octets it took. 22 if the number is too wide, 21 if there is no room.
pub fn write_varint(value: u64, out: &mut [u8]) -> Result<usize, Refusal> {
    let value = u32::try_from(value).map_err(|_| refusal(22))?;
    let length = varint_length(value);
    hold(length <= out.len(), 21)?;
    put_varint(value, &mut out[..length]);
    Ok(length)
}

/// Fills just the octets of a Varint.
pub(crate) fn put_varint(mut value: u32, out: &mut [u8]) {
    if let Some((last, before)) = out.split_last_mut() {
        for octet in before {
            *octet = value as u8 | 0x80;
            value >>= 7;
        }
        *last = value as u8;
    }
}
