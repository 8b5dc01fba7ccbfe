//! Packets by chance: what the model's old writer writes, with a zone or without, the same damaged, and octets that only look like a packet.

use crate::headers::{self, Owned};
use crate::random::Random;
use crate::told;
use orlyukan::Settings;

/// The octets of a packet of these values; nothing if they can't be written.
pub fn packet_of(s: Settings, o: &Owned, flags: u64, sequence_count: u64, counter: u64, body: &[u8]) -> Option<Vec<u8>> {
    let mut out = vec![0; 600 + body.len()];
    let size =
        model::write_old(told::settings(s), &told::values(&o.header()), flags, sequence_count, counter, body, &mut out).ok()?;
    out.truncate(size);
    Some(out)
}

/// The settings, or if they are refused those nearest to them.
pub fn in_range(s: Settings) -> Settings {
    Settings { t: s.t.clamp(1, 16), profile: s.profile.min(1) }
}

/// A packet that is mostly accepted under the settings.
pub fn accepted(r: &mut Random, s: Settings) -> Vec<u8> {
    loop {
        let o = headers::fitting(r, s);
        let flags = r.pick(&[0, 1, 2, 3, 3, 3]);
        let counter = if flags == 3 { 0 } else { r.bits(32) };
        let length = if r.once_in(50) { r.index(1200) } else { r.index(40) };
        let body = r.octets(length + usize::from(flags != 3));
        if let Some(packet) = packet_of(in_range(s), &o, flags, r.bits(14), counter, &body) {
            return packet;
        }
    }
}

/// Makes the length field say the packet's length.
pub fn set_length(packet: &mut [u8]) {
    if packet.len() >= 7 {
        let field = (packet.len() - 7) as u16;
        packet[4..6].copy_from_slice(&field.to_be_bytes());
    }
}

/// Octets after the fixed part that only look like fields: Varints of every sort, numbers of four octets, presence octets, lengths.
fn seeming(r: &mut Random) -> Vec<u8> {
    let mut packet = vec![0x18, 0x05, 0xc0, 0, 0, 0];
    packet[2] = r.pick(&[0xc0, 0x40, 0x00, 0x80]);
    packet.extend([0, 0, 1, 0, 2, 0, 3, 1, 0x20, 6, 0, 7, 0, 0, 0, 0, 0, 0, 0, 9]);
    packet.push(r.pick(&[0x02, 0x20, 0x08, 0x04, 0x01, 0x0f, 0xff, 0x2f, 0x12]));
    for _ in 0..r.below(4) {
        let piece: &[u8] = r.pick(&[
            &[0x80, 0x00],
            &[0xff, 0xff, 0xff, 0xff, 0x1f],
            &[0xff, 0xff, 0xff, 0xff, 0x0f],
            &[0xff, 0xff, 0xff, 0xff, 0x80],
            &[0x91],
            &[0x91, 0x00],
            &[0x11],
            &[0x10],
            &[0x02, 0x00],
            &[0x01, 0x01, 0x00],
            &[0x02, 0x01, 0x00, 0x01],
            &[0xea, 0x01],
            &[0xe9, 0x01],
            &[0x80, 0x80, 0x04],
            &[0x00],
            &[0x7f],
            &[0x81, 0x00],
            &[0xff, 0xff, 0xff, 0x7f],
            &[0x80, 0x80, 0x80, 0x80, 0x01],
            &[0x80, 0x80, 0x80, 0x80, 0x10],
            &[0x01, 0x02],
            &[0xff, 0xff, 0xff, 0xff],
            &[0, 0, 0, 0x10],
            &[0, 0, 0, 0x11],
            &[0, 0, 0, 1, 1, 0, 0, 0, 2],
            &[0, 0, 0, 0xe6],
            &[0, 0, 1, 0],
        ]);
        packet.extend(piece);
        if r.once_in(3) {
            let length = r.index(240);
            packet.extend(r.octets(length));
        }
    }
    set_length(&mut packet);
    packet
}

/// Changes a packet in one place, or its length.
pub fn damage(r: &mut Random, packet: &mut Vec<u8>) {
    match r.below(10) {
        0 => packet.truncate(r.index(packet.len() + 1)),
        1 => {
            packet.truncate(r.index(packet.len() + 1));
            set_length(packet);
        }
        2 => {
            let more = r.index(3) + 1;
            packet.extend(r.octets(more));
        }
        3 => {
            let more = r.index(300);
            packet.extend(r.octets(more));
            set_length(packet);
        }
        4 if packet.len() > 14 => {
            let (at, mask) = r.pick(&[(0, 0x20), (0, 0x80), (0, 0x08), (6, 0x20), (6, 0x16), (6, 0x1f), (14, 0x18)]);
            packet[at] ^= mask;
        }
        5 if packet.len() > 1 => {
            packet[0] |= 0x07;
            packet[1] = 0xff;
        }
        6 if packet.len() > 26 => packet[26] ^= 1 << r.below(8),
        _ if !packet.is_empty() => {
            let at = r.index(packet.len().min(60));
            packet[at] = r.octets(1)[0];
        }
        _ => packet.push(0),
    }
}

/// Any octets to be read: a packet, a damaged one, what seems one, or noise.
pub fn any(r: &mut Random, s: Settings) -> Vec<u8> {
    match r.below(10) {
        0..=3 => accepted(r, s),
        4..=6 => {
            let mut packet = accepted(r, s);
            damage(r, &mut packet);
            packet
        }
        7 | 8 => seeming(r),
        _ => {
            let length = r.index(40);
            let mut noise = r.octets(length);
            if r.once_in(2) {
                set_length(&mut noise);
            }
            noise
        }
    }
}
