//! The packets of SPEC's figures 7 to 12 and 14, each octet changed to every other value, cut off and lengthened: reading by the
//! library and by the model.

use compare::calls::{Calls, Library, Model};
use orlyukan::{Answer, Refusal};

const FIGURE_14: [u8; 27] = [0x18, 0x05, 0xc0, 0, 0, 0x14, 0, 0, 1, 0, 2, 0, 3, 1, 0x20, 6, 0, 7, 0, 0, 0, 0, 0, 0, 0, 9, 0];

const FIRST: u8 = 1;
const CONTINUATION: u8 = 0;
const LAST: u8 = 2;
const WHOLE: u8 = 3;

/// A packet with figure 14's header: its sequence flags and count, its counter if it is a segment, and so many octets of body.
fn packet(flags: u8, count: u8, counter: u32, body: u8) -> Vec<u8> {
    let mut octets = FIGURE_14.to_vec();
    octets[2] = flags << 6;
    octets[3] = count;
    if flags != WHOLE {
        octets.extend(counter.to_be_bytes());
    }
    octets.extend(0..body);
    octets[5] = (octets.len() - 7) as u8;
    octets
}

/// Every packet that a figure speaks of.
fn all() -> Vec<(u8, Vec<u8>)> {
    let mut figures = vec![(7, packet(WHOLE, 0, 0, 37)), (8, packet(FIRST, 0, 0, 33)), (8, packet(LAST, 1, 1, 5))];
    for (figure, bodies) in [(9, vec![33, 33, 33]), (10, vec![33, 33, 33, 1])] {
        for (i, &body) in bodies.iter().enumerate() {
            let flags = if i == 0 {
                FIRST
            } else if i + 1 == bodies.len() {
                LAST
            } else {
                CONTINUATION
            };
            figures.push((figure, packet(flags, i as u8, i as u32, body)));
        }
    }
    figures.push((11, packet(WHOLE, 0, 0, 4)));
    figures.push((12, packet(FIRST, 0, 4_294_967_294, 33)));
    figures.push((12, packet(LAST, 1, 4_294_967_295, 5)));
    figures.push((14, FIGURE_14.to_vec()));
    figures
}

fn compare(figure: u8, octets: &[u8]) -> u64 {
    let (ours, theirs) = (Library.read(8.into(), octets), Model.read(8.into(), octets));
    assert_eq!(ours, theirs, "near figure {figure}: {octets:02x?}");
    ours.refusal
}

#[test]
fn read_near_the_figures() {
    let (mut cases, mut refused) = (0, 0);
    for (figure, octets) in all() {
        assert_eq!(compare(figure, &octets), 0, "figure {figure} itself");
        let mut near = |octets: &[u8]| {
            cases += 1;
            refused += u64::from(compare(figure, octets) != 0);
        };
        for at in 0..octets.len() {
            for value in 0..=255 {
                let mut changed = octets.clone();
                changed[at] = value;
                near(&changed);
            }
            near(&octets[..at]);
        }
        for octet in 0..=255 {
            let mut longer = octets.clone();
            longer.push(octet);
            near(&longer);
            longer[5] += 1;
            near(&longer);
        }
        let mut shorter = octets[..octets.len() - 1].to_vec();
        shorter[5] -= 1;
        near(&shorter);
    }
    println!("read near figures 7 to 12 and 14: {cases} cases, {refused} of them refused");
    assert!(cases > 150_000 && refused > 10_000);
}

/// Figure 14's header with a short and with the longest length field, on slices of every length up to above the largest packet: how many
/// octets are missing or left over.
#[test]
fn read_at_every_length() {
    let mut octets = FIGURE_14.to_vec();
    octets.resize(66_000, 0);
    for field in [20u16, 65_535] {
        octets[4..6].copy_from_slice(&field.to_be_bytes());
        let said = u64::from(field) + 7;
        for length in 0..=octets.len() {
            let (ours, theirs) = (Library.read(8.into(), &octets[..length]), Model.read(8.into(), &octets[..length]));
            assert_eq!(ours, theirs, "{length} octets, {said} by the length field");
            let (number, off) = match length as u64 {
                ..6 => (1, 0),
                n if n < said => (5, said - n),
                n => (if n > said { 27 } else { 0 }, n - said),
            };
            assert_eq!((ours.refusal, ours.off, ours.began), (number, off, 0), "{length} octets, {said} by the length field");
        }
    }
}

/// A refusal made a `Result`: it tells the same, and says it in words.
#[test]
fn refusals() {
    let refused = |octets: &[u8]| Library.read(8.into(), octets).accepted().expect_err("a bad packet").to_string();
    assert_eq!(refused(&FIGURE_14[..26]), "refusal 5: octets missing: 1");
    assert_eq!(refused(&[&FIGURE_14[..], &[0]].concat()), "refusal 27: octets left over: 1");
    let mut cut_off = FIGURE_14[..15].to_vec();
    cut_off[5] = 8;
    assert_eq!(refused(&cut_off), "refusal 6: the field that began at octet 8 is not whole");
    assert_eq!(Library.read(8.into(), &cut_off).refused(), Refusal { number: 6, off: 0, began: 8 });
    assert_eq!(refused(&[]), "refusal 1");
}
