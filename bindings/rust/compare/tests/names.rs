//! The C header's calls, fields and numbers with a name beside those of the wrappers: the same names, the fields in the same order.

const HEADER: &str = include_str!("../../../../include/orlyukan.h");
const RAW: &str = include_str!("../../src/raw.rs");
const ANSWERS: &str = include_str!("../../src/answers.rs");
const PDU: &str = include_str!("../../src/pdu.rs");
const ALL: &str = include_str!("../../src/lib.rs");

/// The lines between the one that begins so and the next that begins as a closing brace.
fn lines<'a>(text: &'a str, begin: &str) -> impl Iterator<Item = &'a str> {
    let (_, rest) = text.split_once(begin).unwrap_or_else(|| panic!("no {begin:?}"));
    rest.lines().skip(1).take_while(|line| !line.starts_with('}')).map(str::trim)
}

/// The fields of a struct of C; H and B are written small in Rust.
fn of_c(name: &str) -> Vec<String> {
    let declared = lines(HEADER, &format!("\nstruct {name} {{")).filter_map(|line| line.split_once(';'));
    let single = declared.map(|(front, _)| front.split_once('[').map_or(front, |(array, _)| array));
    single.filter_map(|front| front.split(' ').next_back()).map(str::to_lowercase).collect()
}

/// The fields of a struct of the wrappers.
fn of_rust(text: &str, name: &str) -> Vec<String> {
    let declared = lines(text, &format!("\npub struct {name} {{")).filter_map(|line| line.strip_prefix("pub "));
    declared.filter_map(|line| line.split_once(':')).map(|(field, _)| field.to_string()).collect()
}

#[test]
fn fields() {
    for (c, rust) in [
        ("orl_sender", "RawSender"),
        ("orl_header", "RawHeader"),
        ("orl_after_answer", "RawAfter"),
        ("orl_arrive_answer", "RawArrived"),
        ("orl_take_answer", "RawTaken"),
        ("orl_forget_answer", "RawForgot"),
        ("orl_join_answer", "RawJoined"),
        ("orl_join_recording_answer", "RawRecording"),
        ("orl_salvage_answer", "RawSalvaged"),
        ("orl_pdu_header", "RawPduHeader"),
        ("orl_to_pdu_answer", "RawToPdu"),
        ("orl_route", "RawRoute"),
        ("orl_to_message_answer", "RawToMessage"),
    ] {
        assert!(!of_c(c).is_empty() && of_c(c) == of_rust(RAW, rust), "{c}: {:?}", of_rust(RAW, rust));
    }
    for (c, rust) in [
        ("orl_place", "Place"),
        ("orl_read_answer", "Reading"),
        ("orl_write_answer", "Written"),
        ("orl_cut_count_answer", "Cut"),
        ("orl_cut_packet_answer", "CutPacket"),
        ("orl_arrive_answer", "Arrived"),
        ("orl_take_answer", "Taken"),
        ("orl_forget_answer", "Forgot"),
        ("orl_join_answer", "Joined"),
        ("orl_in_order_answer", "Order"),
    ] {
        assert!(!of_c(c).is_empty() && of_c(c) == of_rust(ANSWERS, rust), "{c}: {:?}", of_rust(ANSWERS, rust));
    }
    for (c, rust) in [("orl_pdu_read_answer", "PduReading"), ("orl_pdu_write_answer", "PduWritten")] {
        assert!(of_c(c).len() > 1 && of_c(c) == of_rust(PDU, rust), "{c}: {:?}", of_rust(PDU, rust));
    }
}

#[test]
fn calls() {
    let declared = HEADER.lines().filter_map(|line| line.strip_prefix("void ")?.split_once('('));
    let handed_on: Vec<&str> = ALL.lines().filter(|line| line.starts_with("pub use")).collect();
    let handed_on = handed_on.join(" ").replace(['{', '}', ',', ';'], " ");
    let mut count = 0;
    for (name, _) in declared {
        let wrapped = name.strip_prefix("orl_").expect("every name of the library begins so");
        assert!(RAW.contains(&format!("    pub fn {name}(")), "no {name}");
        assert!(handed_on.split(' ').any(|word| word == wrapped), "{wrapped} is not handed on");
        count += 1;
    }
    assert_eq!(count, 19);
}

/// The profiles, what an arrival comes to, which buffer holds a body, why a recording stopped, the kinds of an entry.
#[test]
fn numbers() {
    let defined = HEADER.lines().filter_map(|line| line.strip_prefix("#define ORL_"));
    let mut count = 0;
    for line in defined {
        let words: Vec<&str> = line.split_whitespace().collect();
        let declared = format!("pub const ORL_{}: u64 = {};", words[0], words[1]);
        assert!(RAW.contains(&declared), "no {declared}");
        count += 1;
    }
    assert_eq!(count, 14);
}
