//! The C header and the crate name the same numbers and functions.

use banshorra_host::{Discard, Outcome, Refusal, Ruling, Verdict};
use banshorra_host::{
    ANSWER_ROOM, BOARD_ROOM, FILE_ROOM, LIST_ROOM, OCCUPANCY_ROOM, REPLY_ROOM, VERDICT_SIZE,
};

const HEADER: &str = include_str!("../include/banshorra.h");

/// The names that the header gives a number to, with these numbers.
fn named() -> Vec<(&'static str, usize)> {
    HEADER.lines().filter_map(name_and_number).collect()
}

/// Of a line such as `#define BANSHORRA_NAME 512` or `BANSHORRA_NAME = 20,`.
fn name_and_number(line: &str) -> Option<(&str, usize)> {
    let line = line.trim_start_matches("#define").trim_start();
    let (name, rest) = line.strip_prefix("BANSHORRA_")?.split_once(' ')?;
    let number = rest.trim_start_matches('=').split_whitespace().next()?;
    Some((name, number.trim_end_matches(',').parse().ok()?))
}

#[test]
fn the_header_and_the_crate_agree() {
    let mut expected = vec![
        ("FILE_ROOM", FILE_ROOM),
        ("REPLY_ROOM", REPLY_ROOM),
        ("BOARD_ROOM", BOARD_ROOM),
        ("ANSWER_ROOM", ANSWER_ROOM),
        ("OCCUPANCY_ROOM", OCCUPANCY_ROOM),
        ("LIST_ROOM", LIST_ROOM),
        ("VERDICT_SIZE", VERDICT_SIZE),
        ("REPLY", usize::from(Outcome::Reply(&[]).number())),
    ];
    for (name, discard) in [
        ("BOOK_UNSOUND", Discard::Unsound),
        ("NO_REPLY_ROOM", Discard::ReplyRoom),
        ("NO_HOUSE", Discard::NoHouse),
        ("BAD_HEADER", Discard::Header),
        ("BAD_OPTIONS", Discard::Options { offset: 0 }),
        ("FEATURE", Discard::Feature),
        ("OTHER_SERVER", Discard::OtherServer),
        ("ERROR", Discard::Error),
    ] {
        expected.push((name, discard.number().into()));
    }
    for (name, refusal) in [
        ("WRONG_FORM", Refusal::Form),
        ("UNSOUND", Refusal::Unsound),
        ("SHORT_FILE_ROOM", Refusal::FileRoom),
        ("CUT_OFF", Refusal::CutOff),
        ("SETTINGS", Refusal::Settings),
        ("SHORT_ANSWERS", Refusal::AnswersRoom),
        ("FILE_LENGTH", Refusal::FileLength),
    ] {
        expected.push((name, refusal.number().into()));
    }
    expected.extend((0..).map(reply_name).zip(0..).take(6));
    assert_eq!(named(), expected);
}

/// The header's name for what a verdict says that its reply is.
fn reply_name(reply: u8) -> &'static str {
    let mut octets = [0; VERDICT_SIZE];
    octets[1] = reply;
    match Verdict::from_bytes(octets).ruling() {
        None => "NOTHING",
        Some(Ruling::Offer(_)) => "OFFER",
        Some(Ruling::Lease(_)) => "LEASE_ACK",
        Some(Ruling::Released) => "RELEASE_ACK",
        Some(Ruling::Info(_)) => "INFO_ACK",
        Some(Ruling::Nak { .. }) => "NAK",
    }
}

/// C's types in Rust's words.
const KINDS: [(&str, &str); 6] = [
    ("const uint8_t *", "*const u8"),
    ("uint8_t *", "*mut u8"),
    ("size_t *", "*mut usize"),
    ("uint8_t ", "u8"),
    ("uint32_t ", "u32"),
    ("size_t ", "usize"),
];

/// Of `const uint8_t *file`: `file` and `*const u8`. An array that is lent, `const uint8_t verdict[BANSHORRA_VERDICT_SIZE]`, is a pointer.
fn in_rust(declared: &str) -> (String, &str) {
    let declared = match declared.trim().strip_suffix("[BANSHORRA_VERDICT_SIZE]") {
        Some(array) => array.replace("uint8_t ", "uint8_t *"),
        None => declared.trim().to_owned(),
    };
    let kind = |(c, rust)| Some((declared.strip_prefix(c)?.to_owned(), rust));
    KINDS.into_iter().find_map(kind).expect("a type and a name")
}

/// A function of the header as Rust declares it.
fn function(declared: &str) -> String {
    let (head, parameters) = declared.split_once('(').expect("parameters");
    let (name, result) = in_rust(head);
    let parameters = parameters.split(',').map(in_rust);
    let parameters: Vec<_> = parameters
        .map(|(name, kind)| format!("{name}: {kind}"))
        .collect();
    format!("fn {name}({}) -> {result};", parameters.join(", "))
}

#[test]
fn the_header_and_the_crate_declare_the_same_functions() {
    let plain = |text: &str| text.split_whitespace().collect::<Vec<_>>().join(" ");
    let crates = plain(include_str!("../src/library.rs"))
        .replace("( ", "(")
        .replace(", )", ")");
    let header = plain(HEADER);
    let declarations = header.split_inclusive("*/").filter_map(|part| {
        let (declaration, _) = part.trim().split_once(");")?;
        declaration
            .contains(" banshorra_")
            .then(|| function(declaration))
    });
    let declarations: Vec<String> = declarations.collect();
    assert_eq!(declarations.len(), crates.matches("fn banshorra_").count());
    for declaration in declarations {
        assert!(crates.contains(&declaration), "{declaration}");
    }
}
