//! Damaged recordings by chance: packets after their marks, with octets changed, lost, moved in and laid over each other.

use crate::packets;
use crate::random::Random;
use orlyukan::Settings;

const MARK: [u8; 2] = [0x4d, 0x50];

/// A packet after its mark, as it was recorded.
fn marked(r: &mut Random, s: Settings) -> Vec<u8> {
    let mut packet = if r.once_in(6) { packets::any(r, s) } else { packets::accepted(r, s) };
    if r.once_in(4) {
        packets::set_length(&mut packet);
    }
    [&MARK[..], &packet].concat()
}

/// Tears a file in one place: octets lost, put in, changed, a mark made or broken, a part of it laid over another.
fn tear(r: &mut Random, file: &mut Vec<u8>) {
    let at = r.index(file.len() + 1);
    let long = r.index(40).min(file.len() - at);
    match r.below(7) {
        0 => drop(file.drain(at..at + long)),
        1 => {
            let more = r.index(30);
            let noise = r.octets(more);
            drop(file.splice(at..at, noise));
        }
        2 if at < file.len() => file[at] ^= 1 << r.below(8),
        3 if at + 2 <= file.len() => file[at..at + 2].copy_from_slice(&MARK),
        4 if at + 8 <= file.len() => file[at + 6] = r.pick(&[0, 1, 0xff]),
        5 => {
            let from = r.index(file.len() + 1);
            let part = file[from..file.len().min(from + 60)].to_vec();
            drop(file.splice(at..at + long, part));
        }
        _ => file.truncate(file.len() - long),
    }
}

/// A recording of a few packets, mostly torn; now and then noise with many marks in it.
pub fn any(r: &mut Random, s: Settings) -> Vec<u8> {
    if r.once_in(10) {
        let length = r.index(700);
        let mut noise = r.octets(length);
        for octet in &mut noise {
            if r.once_in(4) {
                *octet = r.pick(&MARK);
            }
        }
        return noise;
    }
    let mut file: Vec<u8> = (0..r.below(8)).flat_map(|_| marked(r, s)).collect();
    if !r.once_in(6) {
        for _ in 0..r.below(6) {
            tear(r, &mut file);
        }
    }
    file
}

/// The same with stretches of noise between them that are longer than what is passed over at once.
pub fn far_apart(r: &mut Random, s: Settings) -> Vec<u8> {
    let mut file = Vec::new();
    for _ in 0..r.between(1, 4) {
        let length = r.pick(&[0, 1, 254, 255, 256, 257, 258, 511, 512, 513, 1030]) as usize;
        let octet = r.pick(&[0, 0x4d, 0x50, 0x61]);
        file.extend(vec![octet; length]);
        file.extend(any(r, s));
    }
    file
}
