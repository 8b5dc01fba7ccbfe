//! Recordings by chance: marked packets of a few messages, late, twice, out of order or torn.

use crate::packets;
use crate::random::Random;
use crate::stores;
use orlyukan::Settings;

/// The packets of a recording in the order in which they come.
fn arrivals(r: &mut Random, s: Settings) -> Vec<Vec<u8>> {
    let mut all = Vec::new();
    for _ in 0..r.between(1, 4) {
        let message = stores::message(r, s);
        if r.once_in(3) {
            all.extend(stores::near(r, s, &message).packets);
        }
        all.extend(message.packets);
    }
    if r.once_in(2) {
        let end = all.len().min(3 + r.index(20));
        r.shuffle(&mut all[..end]);
    }
    for _ in 0..r.below(5) {
        let mut packet = if r.once_in(2) { all[r.index(all.len())].clone() } else { packets::any(r, s) };
        if r.once_in(3) {
            packets::damage(r, &mut packet);
        }
        let at = r.index(all.len() + 1);
        all.insert(at, packet);
    }
    all
}

/// A whole packet of so many octets.
fn whole(length: usize) -> Vec<u8> {
    let mut packet = vec![0; length];
    packet[..27]
        .copy_from_slice(&[0x18, 5, 0xc0, 0, 0, 0x14, 0, 0, 1, 0, 2, 0, 3, 1, 0x20, 6, 0, 7, 0, 0, 0, 0, 0, 0, 0, 9, 0]);
    packets::set_length(&mut packet);
    packet
}

/// A recording; mostly well marked to its end.
pub fn any(r: &mut Random, s: Settings) -> Vec<u8> {
    let mut recording = Vec::new();
    for mut packet in arrivals(r, s) {
        if packet.len() < 7 {
            continue;
        }
        if !r.once_in(60) {
            packets::set_length(&mut packet);
        }
        recording.extend([0x4d, if r.once_in(200) { 0x53 } else { 0x50 }]);
        recording.extend(packet);
        if r.once_in(600) {
            recording.extend([0x4d, 0x50]);
            recording.extend(whole(r.pick(&[32_767, 32_768, 32_769, 65_542]) as usize));
        }
    }
    if r.once_in(5) {
        recording.truncate(r.index(recording.len() + 1));
    }
    if r.once_in(20) {
        recording.extend([0x4d, 0x50, 0x18]);
        recording.truncate(recording.len() - r.index(3));
    }
    recording
}

/// Enough segments without an end that the 32 cells are full, and what comes then.
pub fn full(r: &mut Random, s: Settings) -> Vec<u8> {
    let mut recording = Vec::new();
    for _ in 0..r.between(12, 30) {
        let message = stores::message(r, s);
        for packet in message.packets.iter().skip(usize::from(r.once_in(2))) {
            recording.extend([0x4d, 0x50]);
            recording.extend(packet);
        }
    }
    recording
}
