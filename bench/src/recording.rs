//! Joining a recording of 64 MiB, and salvaging one.

use std::hint::black_box;

use crate::measure::{both_made_ready, line, shown, Times};
use crate::shapes::{packet, plain, segments};
use orlyukan::Entry;

const OCTETS: usize = 64 << 20;

/// Packets over and over, each after its mark, up to 64 MiB; each time with another transaction id.
fn recording(packets: impl Fn(u64) -> Vec<Vec<u8>>) -> Vec<u8> {
    let mut recording = Vec::with_capacity(OCTETS + (1 << 20));
    let mut k = 0;
    while recording.len() < OCTETS {
        for packet in packets(k) {
            recording.extend([0x4d, 0x50]);
            recording.extend(packet);
        }
        k += 1;
    }
    recording.truncate(OCTETS);
    recording
}

/// Two messages of eight segments, their packets in turn.
fn in_turn(k: u64) -> Vec<Vec<u8>> {
    let (a, b) = (segments(&plain(2 * k), 8, 1022), segments(&plain(2 * k + 1), 8, 1022));
    a.into_iter().zip(b).flat_map(|(a, b)| [a, b]).collect()
}

struct Buffers {
    out: Vec<u8>,
    model_out: Vec<u8>,
}

fn join(shape: &str, recording: &[u8]) {
    let mut buffers = Buffers { out: vec![0; recording.len()], model_out: Vec::with_capacity(recording.len()) };
    let ours = |b: &mut Buffers| orlyukan::join_recording(8, black_box(recording), &mut b.out).written;
    let model = |b: &mut Buffers| {
        b.model_out.clear();
        model::join_recording_into(8, black_box(recording), &mut b.model_out);
        b.model_out.len() as u64
    };
    let copy = |b: &mut Buffers| {
        b.out.copy_from_slice(black_box(recording));
        b.out.len() as u64
    };
    let times = both_made_ready(&mut buffers, |_| {}, ours, model);
    let copied = both_made_ready(&mut buffers, |_| {}, copy, copy).ours;
    let written = ours(&mut buffers) as usize;
    assert!(buffers.out[..written] == buffers.model_out, "the outputs differ");
    line("join_recording", shape, times, "1.0");
    let against = Times { ours: times.ours, model: copied };
    println!(
        "| join_recording | {shape}: a plain copy over ours | {} | {} | {:.2} | 0.2 |",
        shown(times.ours),
        shown(copied),
        against.ratio()
    );
}

/// The list of a file that is salvaged at once; a list is made ready beforehand, with room for every packet of 60 octets.
struct Lists {
    list: Vec<Entry>,
    out: Vec<u8>,
}

fn salvage(shape: &str, file: &[u8], other: &str, wanted: &str, against: impl Fn(&[u8], &mut [u8]) -> u64) {
    let mut lists = Lists { list: vec![Entry::default(); file.len() / 31 + 2], out: vec![0; file.len()] };
    let answer = orlyukan::salvage(8, file, 0, 0, u64::MAX, &mut lists.list);
    assert!(answer.done, "the list has room for all");
    let ours = |l: &mut Lists| orlyukan::salvage(8, black_box(file), 0, 0, u64::MAX, &mut l.list).entries;
    let free = lists.list.len();
    let model =
        |_: &mut Lists| model::salvage(8, black_box(file), 0, 0, u64::MAX, free).expect("not refused").entries.len() as u64;
    let times = both_made_ready(&mut lists, |_| {}, ours, model);
    line("salvage", shape, times, "");
    let beside = |l: &mut Lists| against(black_box(file), &mut l.out);
    let beside = both_made_ready(&mut lists, |_| {}, beside, beside).ours;
    let ratio = Times { ours: times.ours, model: beside }.ratio();
    println!("| salvage | {shape}: {other} over ours | {} | {} | {ratio:.2} | {wanted} |", shown(times.ours), shown(beside));
}

/// Octets of no meaning, always the same (splitmix64).
fn noise() -> Vec<u8> {
    let mut state = 9u64;
    let mut next = || {
        state = state.wrapping_add(0x9e37_79b9_7f4a_7c15);
        let a = (state ^ state >> 30).wrapping_mul(0xbf58_476d_1ce4_e5b9);
        let b = (a ^ a >> 27).wrapping_mul(0x94d0_49bb_1331_11eb);
        b ^ b >> 31
    };
    (0..OCTETS / 8).flat_map(|_| next().to_le_bytes()).collect()
}

fn copy(file: &[u8], out: &mut [u8]) -> u64 {
    out.copy_from_slice(file);
    black_box(out).len() as u64
}

fn join_it(file: &[u8], out: &mut [u8]) -> u64 {
    orlyukan::join_recording(8, file, out).written
}

pub fn run_salvage() {
    salvage("64 MiB of noise", &noise(), "a plain copy", "0.33", copy);
    salvage("1 MiB of marks and nothing else", &b"MP".repeat(1 << 19), "a plain copy", "", copy);
    let whole = |size| recording(move |k| vec![packet(&plain(k), 3, 0, 0, size)]);
    for (shape, file) in [
        ("64 MiB, messages of eight segments of 1,022 octets, two in turn", recording(in_turn)),
        ("64 MiB, whole packets of 1,022 octets", whole(1022)),
        ("64 MiB, whole packets of 60 octets", whole(60)),
    ] {
        salvage(shape, &file, "join_recording", "1.0", join_it);
    }
}

pub fn run() {
    join("64 MiB, messages of eight segments of 1,022 octets, two in turn", &recording(in_turn));
    join("64 MiB, whole packets of 1,022 octets", &recording(|k| vec![packet(&plain(k), 3, 0, 0, 1022)]));
    join("64 MiB, whole packets of 60 octets", &recording(|k| vec![packet(&plain(k), 3, 0, 0, 60)]));
}
