//! The names' section of the campus file (W-201).

mod common;

use common::*;
use second::file::{read, write, LONGEST_FILE};
use second::programs::{board, replay};
use second::{Book, Name, ScopeNames};

fn name(flags: u8, tag: &str, text: &str) -> Name {
    Name {
        flags,
        tag: tag.into(),
        text: text.into(),
    }
}

/// The specimens' settings without leases, up to the names' section.
const SETTINGS: &str = "01 0A010101 000003E8
    02 0A010000 0A0100FF 0A020000 0A0200FF
    01 EFC00000 04 0F 02 03 01 04
    00";
/// The same with a second scope and a lease.
const TWO_SCOPES: &str = "01 0A010101 000003E8
    02 0A010000 0A0100FF 0A020000 0A0200FF
    02 EFC00000 04 0F 02 03 01 04  EFC00004 01 10 00 01 00 01
    01 01 01 02 0041 03 00000001 000003E8 000007D0 01 00";
/// "en" and "A", and "de" and "BC", the second flagged 128.
const EN: &str = "00 02 656E 01 41";
const DE: &str = "80 02 6465 02 4243";

/// What the reader makes of settings with a names' section. No release and no hold follow.
fn named(settings: &str, names: &str) -> Result<Book, u8> {
    read(&hex(&format!("{settings} {names} 00 00")))
}

/// The refusal of the specimens' settings with a names' section, 0 for none.
fn refusal(names: &str) -> u8 {
    named(SETTINGS, names).err().unwrap_or(0)
}

/// The refusal where one list of the specimens' scope is this one, count and all, and the others are
/// empty: the same for the campus list and for each house's.
fn refusal_of_a_list(list: &str) -> u8 {
    let refusals = [
        refusal(&format!("01 {list} 00 00")),
        refusal(&format!("01 00 {list} 00")),
        refusal(&format!("01 00 00 {list}")),
    ];
    assert!(refusals.iter().all(|&number| number == refusals[0]));
    refusals[0]
}

/// The hex of a name of given flags and lengths.
fn name_of(flags: u8, tag: usize, text: usize) -> String {
    let tag = format!("{tag:02X} {}", "61".repeat(tag));
    let text = format!("{text:02X} {}", "42".repeat(text));
    format!("{flags:02X} {tag} {text}")
}

#[test]
fn the_section_stands_after_the_leases_and_by_scope() {
    // Per scope the campus list, then house 1's and house 2's. No scope is told otherwise than by its place.
    let section = format!("02  02 {EN} {DE} 00 01 {DE}  00 01 {EN} 02 {EN} {EN}");
    let book = named(TWO_SCOPES, &section).expect("a book");
    let (en, de) = (name(0, "en", "A"), name(128, "de", "BC"));
    let expected = [
        ScopeNames {
            campus: vec![en.clone(), de.clone()],
            houses: vec![vec![], vec![de]],
        },
        ScopeNames {
            campus: vec![],
            houses: vec![vec![en.clone()], vec![en.clone(), en]],
        },
    ];
    assert_eq!(book.names, expected);
    assert_eq!((book.scopes.len(), book.leases.len()), (2, 1));
    // Written back octet for octet.
    let mut room = vec![7; LONGEST_FILE];
    let length = write(&book, &mut room).expect("a length");
    assert_eq!(
        room[..length],
        hex(&format!("{TWO_SCOPES} {section} 00 00"))
    );
    assert!(room[length..].iter().all(|&octet| octet == 7));
    // 23 goes by the length with the names.
    assert_eq!(write(&book, &mut room[..length]), Ok(length));
    let mut short = vec![7; length - 1];
    assert_eq!(write(&book, &mut short), Err(23));
    assert!(short.iter().all(|&octet| octet == 7));
    // Names before the leases, or after the releases, are no names: the sections have an order.
    let (settings, leases) = TWO_SCOPES.rsplit_once('\n').expect("two lines");
    assert_eq!(named(settings, &format!("{section} {leases}")), Err(20));
    let names_last = hex(&format!("{TWO_SCOPES} 00 00 {section}"));
    assert_eq!(read(&names_last), Err(20));
}

#[test]
fn every_cut_and_every_excess_is_20() {
    let section = format!("02  02 {EN} {DE} 00 01 {DE}  00 01 {EN} 02 {EN} {EN}");
    let file = hex(&format!("{TWO_SCOPES} {section} 00 00"));
    assert!(read(&file).is_ok());
    for length in 0..file.len() {
        assert_eq!(read(&file[..length]), Err(20), "cut to {length}");
    }
    for excess in 0..=255 {
        let mut longer = file.clone();
        longer.push(excess);
        assert_eq!(read(&longer), Err(20));
    }
}

#[test]
fn a_missing_section_is_20() {
    assert_eq!(read(&hex(SETTINGS)), Err(20));
    assert_eq!(refusal(""), 20);
    assert_eq!(refusal("01 00 00 00"), 0);
    // Even where the book is unsound: TTL 0.
    let unsound = SETTINGS.replace("04 0F", "04 00");
    assert_eq!(named(&unsound, ""), Err(20));
    assert_eq!(named(&unsound, "01 00 00 00"), Err(21));
}

#[test]
fn the_count_is_that_of_the_scopes() {
    // A whole number of scopes' lists under a count of their own.
    for (settings, scopes) in [(SETTINGS, 1), (TWO_SCOPES, 2)] {
        for count in 0..=255 {
            let section = format!("{count:02X} {}", "00 00 00".repeat(count));
            let expected = if count == scopes { None } else { Some(20) };
            assert_eq!(named(settings, &section).err(), expected);
        }
    }
    // A wrong count before the right octets, and the right count before the wrong ones.
    for section in ["00 00 00 00", "02 00 00 00", "FF 00 00 00"] {
        assert_eq!(refusal(section), 20);
    }
    for lists in [0, 1, 2, 3, 4, 6] {
        let section = format!("01 {}", "00".repeat(lists));
        assert_eq!(refusal(&section), if lists == 3 { 0 } else { 20 });
    }
    // A count too low by one before the lists of every scope.
    assert_eq!(named(TWO_SCOPES, "01 00 00 00 00 00 00"), Err(20));
}

#[test]
fn flags_other_than_0_and_128_are_20() {
    for flags in 0..=255 {
        let expected = if [0, 128].contains(&flags) { 0 } else { 20 };
        let list = format!("01 {}", name_of(flags, 2, 2));
        assert_eq!(refusal_of_a_list(&list), expected, "flags {flags}");
    }
}

#[test]
fn tags_of_1_to_8_octets_and_texts_of_1_to_32() {
    for length in 0..=255 {
        let expected = if (1..=8).contains(&length) { 0 } else { 20 };
        let list = format!("01 {}", name_of(0, length, 1));
        assert_eq!(refusal_of_a_list(&list), expected, "tag of {length}");
        let expected = if (1..=32).contains(&length) { 0 } else { 20 };
        let list = format!("01 {}", name_of(128, 1, length));
        assert_eq!(refusal_of_a_list(&list), expected, "text of {length}");
    }
    assert_eq!(refusal_of_a_list(&format!("01 {}", name_of(0, 8, 32))), 0);
    assert_eq!(refusal_of_a_list(&format!("01 {}", name_of(0, 9, 33))), 20);
    assert_eq!(refusal_of_a_list(&format!("01 {}", name_of(0, 0, 0))), 20);
    // The last of four is judged too.
    let three = EN.repeat(3);
    assert_eq!(refusal_of_a_list(&format!("04 {three} {DE}")), 0);
    for bad in [name_of(1, 1, 1), name_of(0, 9, 1), name_of(0, 1, 33)] {
        assert_eq!(refusal_of_a_list(&format!("04 {three} {bad}")), 20);
    }
}

#[test]
fn five_names_in_a_list_are_20() {
    for count in 0..=255 {
        let list = format!("{count:02X} {}", EN.repeat(count));
        let expected = if count <= 4 { 0 } else { 20 };
        assert_eq!(refusal_of_a_list(&list), expected, "{count} names");
    }
    // Four in every list are fine.
    let four = format!("04 {}", EN.repeat(4));
    assert_eq!(refusal(&format!("01 {four} {four} {four}")), 0);
}

#[test]
fn tags_and_texts_are_opaque() {
    for octet in 0..=255u8 {
        let list = format!("01 00 01 {octet:02X} 02 {octet:02X}{octet:02X}");
        assert_eq!(refusal_of_a_list(&list), 0);
    }
    // One tag twice, two flagged 128, equal names.
    assert_eq!(refusal_of_a_list(&format!("02 {EN} 00 02 656E 01 43")), 0);
    assert_eq!(refusal_of_a_list(&format!("02 {DE} 80 02 656E 01 43")), 0);
    assert_eq!(refusal_of_a_list(&format!("04 {DE}{DE}{EN}{EN}")), 0);
    assert_eq!(refusal(&format!("01 01 {EN} 01 {EN} 01 {EN}")), 0);
}

#[test]
fn a_bad_name_comes_before_an_unsound_book() {
    // The lease's end is not after the clock.
    let ended = TWO_SCOPES.replace("000007D0", "000003E8");
    let bad = name_of(1, 1, 1);
    for (settings, expected) in [(TWO_SCOPES, None), (ended.as_str(), Some(21))] {
        let good = format!("02 00 00 00 00 00 01 {EN}");
        assert_eq!(named(settings, &good).err(), expected);
        let bad = format!("02 00 00 00 00 00 01 {bad}");
        assert_eq!(named(settings, &bad).err(), Some(20));
    }
}

/// Settings of so many houses and scopes, up to the names. Only these numbers can make them unsound.
fn many(houses: usize, scopes: usize) -> String {
    let houses_section: String = (0..houses)
        .map(|number| format!("0A0000{number:02X} 0A0000{number:02X}"))
        .collect();
    let quotas = "0000".repeat(houses);
    let scopes_section: String = (0..scopes)
        .map(|number| format!("EFC000{number:02X} 01 01 {quotas}"))
        .collect();
    format!("01 0A010101 000003E8 {houses:02X} {houses_section} {scopes:02X} {scopes_section} 00")
}

#[test]
fn names_go_by_the_house_and_scope_counts_as_written() {
    for (houses, scopes, expected) in [
        (8, 4, None),
        (9, 1, Some(21)),
        (1, 5, Some(21)),
        (9, 5, Some(21)),
        (0, 1, Some(21)),
        (1, 0, Some(21)),
        (0, 0, Some(21)),
        (255, 1, Some(21)),
        (0, 255, Some(21)),
    ] {
        let settings = many(houses, scopes);
        let lists = scopes * (1 + houses);
        let section = |lists| format!("{scopes:02X} {}", "00".repeat(lists));
        assert_eq!(named(&settings, &section(lists)).err(), expected);
        assert_eq!(named(&settings, &section(lists + 1)), Err(20));
        if lists > 0 {
            assert_eq!(named(&settings, &section(lists - 1)), Err(20));
            let good = format!("{scopes:02X} {} 01 {EN}", "00".repeat(lists - 1));
            assert_eq!(named(&settings, &good).err(), expected);
            let bad = format!(
                "{scopes:02X} {} 01 {}",
                "00".repeat(lists - 1),
                name_of(1, 1, 1)
            );
            assert_eq!(named(&settings, &bad), Err(20));
        }
        for count in [scopes + 1, scopes.wrapping_sub(1)] {
            if count <= 255 {
                let other = format!("{count:02X} {}", "00".repeat(count * (1 + houses)));
                assert_eq!(named(&settings, &other), Err(20));
            }
        }
    }
}

#[test]
fn the_programs_and_the_names() {
    let file = hex(&format!("{SETTINGS} 01 01 {EN} 00 01 {DE} 00 00"));
    let text = "scope house share limit holds\n239.192.0.0 1 2 3 0\n239.192.0.0 2 1 4 0\n";
    assert_eq!(board(&file), text);
    let mut input = (file.len() as u16).to_be_bytes().to_vec();
    input.extend(&file);
    assert_eq!(
        replay(&input),
        format!("book {}\n", second::octets::hex(&file))
    );
    // Flags 1 in the campus list.
    let mut bad = file.clone();
    let flags = hex(SETTINGS).len() + 2;
    bad[flags] = 1;
    assert_eq!(board(&bad), "refused 20\n");
    input[2 + flags] = 1;
    assert_eq!(replay(&input), "refused 20\n");
    assert_eq!(board(&hex(SETTINGS)), "refused 20\n");
}
