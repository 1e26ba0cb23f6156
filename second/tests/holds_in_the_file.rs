//! The holds' section of the campus file (W-205).

mod common;

use common::*;
use second::file::{read, write, LONGEST_FILE};
use second::programs::{board, replay};
use second::Book;

/// The specimens' settings and a lease of house 1 on 0041, up to the holds' section; no names and no release.
const SETTINGS: &str = "01 0A010101 000003E8
    02 0A010000 0A0100FF 0A020000 0A0200FF
    01 EFC00000 04 0F 02 03 01 04
    01 01 01 02 0041 03 00000001 000003E8 000007D0 01 00
    01 00 00 00
    00";
/// The type and transaction id of most holds here, the period from 1000 to 2000, and the lapse at 1030.
const ID_9: &str = "01 00000009";
const PERIOD: &str = "000003E8 000007D0";
const LAPSE: &str = "00000406";

/// What the reader makes of settings with a holds' section.
fn holding(settings: &str, holds: &str) -> Result<Book, u8> {
    read(&hex(&format!("{settings} {holds}")))
}

/// The refusal of a holds' section, 0 for none.
fn refusal(holds: &str) -> u8 {
    holding(SETTINGS, holds).err().unwrap_or(0)
}

/// A hold of house, scope and identifier with its length, and of the addresses with their count.
fn held(head: &str, offsets: &str) -> String {
    format!("{head} {ID_9} {PERIOD} {offsets} {LAPSE}")
}

/// The refusal of a section with these holds, each on the next address from .1 on.
fn refusal_of(heads: &[&str]) -> u8 {
    let holds: String = heads
        .iter()
        .zip(1..)
        .map(|(head, offset): (_, u8)| held(head, &format!("01 {offset:02X}")))
        .collect();
    refusal(&format!("{:02X} {holds}", heads.len()))
}

#[test]
fn the_section_stands_last_laid_out_as_leases_with_the_lapse() {
    let section = "02
        01 01 03 004100 01 01020304 00000000 FFFFFFFF 02 01 02 000003E9
        02 01 02 0041 01 FFFFFFFF 000003E8 00000406 01 03 00000406";
    let book = holding(SETTINGS, section).expect("a book");
    let mut expected = [
        hold(1, &[0, 0x41, 0], (0, u32::MAX), &[1, 2], 1001),
        hold(2, &[0, 0x41], (1000, 1030), &[3], 1030),
    ];
    expected[0].lease.transaction = 0x0102_0304;
    expected[1].lease.transaction = u32::MAX;
    assert_eq!(book.holds, expected);
    assert_eq!(book.leases, [lease(1, &[0, 0x41], 1000, 2000, &[0])]);
    // Written back octet for octet.
    let mut room = vec![7; LONGEST_FILE];
    let length = write(&book, &mut room).expect("a length");
    assert_eq!(room[..length], hex(&format!("{SETTINGS} {section}")));
    assert!(room[length..].iter().all(|&octet| octet == 7));
    // 23 goes by the length with the holds.
    assert_eq!(write(&book, &mut room[..length]), Ok(length));
    let mut short = vec![7; length - 1];
    assert_eq!(write(&book, &mut short), Err(23));
    assert!(short.iter().all(|&octet| octet == 7));
    // Holds before the releases are no holds.
    let (settings, releases) = SETTINGS.rsplit_once('\n').expect("two lines");
    assert_eq!(holding(settings, &format!("{section} {releases}")), Err(20));
}

#[test]
fn every_cut_and_every_excess_is_20() {
    let (first, second) = (
        held("01 01 02 0042", "01 01"),
        held("02 01 02 0042", "01 02"),
    );
    let file = hex(&format!("{SETTINGS} 02 {first} {second}"));
    assert!(read(&file).is_ok());
    for length in 0..file.len() {
        assert_eq!(read(&file[..length]), Err(20), "cut to {length}");
    }
    for excess in 0..=255 {
        let mut longer = file.clone();
        longer.push(excess);
        assert_eq!(read(&longer), Err(20));
    }
}

#[test]
fn a_missing_section_is_20() {
    assert_eq!(refusal(""), 20);
    assert_eq!(refusal("00"), 0);
    // Even where the book is unsound: TTL 0.
    let unsound = SETTINGS.replace("04 0F", "04 00");
    assert_eq!(holding(&unsound, ""), Err(20));
    assert_eq!(holding(&unsound, "00"), Err(21));
}

#[test]
fn the_count_goes_before_the_holds() {
    let one = held("01 01 02 0042", "01 01");
    for count in 0..=255 {
        let expected = if count == 1 { 0 } else { 20 };
        assert_eq!(refusal(&format!("{count:02X} {one}")), expected);
    }
    assert_eq!(refusal(&one), 20, "no count");
}

#[test]
fn holds_out_of_order_are_20_and_equal_identifiers_21() {
    assert_eq!(refusal_of(&["01 01 02 0042", "01 01 02 0043"]), 0);
    assert_eq!(refusal_of(&["01 01 02 0042", "01 01 03 004200"]), 0);
    assert_eq!(refusal_of(&["01 01 02 0043", "02 01 02 0042"]), 0);
    assert_eq!(refusal_of(&["01 01 02 0042", "02 01 02 0042"]), 0);
    assert_eq!(refusal_of(&["01 01 02 0042", "01 01 02 0042"]), 21);
    assert_eq!(refusal_of(&["01 01 02 0043", "01 01 02 0042"]), 20);
    assert_eq!(refusal_of(&["01 01 03 004200", "01 01 02 0042"]), 20);
    assert_eq!(refusal_of(&["02 01 02 0042", "01 01 02 0043"]), 20);
    // By the house octet as written, even 0 or 200.
    assert_eq!(refusal_of(&["C8 01 02 0042", "01 01 02 0043"]), 20);
    assert_eq!(refusal_of(&["01 01 02 0042", "C8 01 02 0043"]), 21);
    assert_eq!(refusal_of(&["01 01 02 0042", "00 01 02 0043"]), 20);
    assert_eq!(refusal_of(&["00 01 02 0042", "01 01 02 0043"]), 21);
    // By themselves: a hold may come before a lease of the house.
    assert_eq!(refusal_of(&["01 01 02 0040"]), 0);
    // Neither lapses nor types have an order.
    let falling = "02 01 01 02 0042 01 00000009 000003E8 000007D0 01 01 00000406
        01 01 02 0043 01 00000008 000003E8 000007D0 01 02 00000405";
    assert_eq!(refusal(falling), 0);
}

#[test]
fn offsets_that_dont_rise_are_20() {
    let on = |offsets: &str| refusal(&format!("01 {}", held("02 01 02 0042", offsets)));
    assert_eq!(on("02 01 02"), 0);
    assert_eq!(on("02 02 01"), 20);
    assert_eq!(on("02 01 01"), 20);
    assert_eq!(on("03 01 03 02"), 20);
    // Too many, or none, or past the size are 21 where the layout fits.
    assert_eq!(on("00"), 21);
    assert_eq!(on("01 04"), 21);
    let many: String = (0..255).map(|offset| format!("{offset:02X}")).collect();
    assert_eq!(on(&format!("FF {many}")), 21);
    assert_eq!(on(&format!("41 {}", &many[..2 * 65])), 21);
}

#[test]
fn unknown_houses_and_scopes_and_identifier_lengths_are_21() {
    for number in 0..=255 {
        let house = if [1, 2].contains(&number) { 0 } else { 21 };
        assert_eq!(refusal_of(&[&format!("{number:02X} 01 02 0042")]), house);
        let scope = if number == 1 { 0 } else { 21 };
        assert_eq!(refusal_of(&[&format!("01 {number:02X} 02 0042")]), scope);
    }
    for length in 0..=255 {
        let expected = if (2..=32).contains(&length) { 0 } else { 21 };
        let head = format!("02 01 {length:02X} {}", "41".repeat(length));
        assert_eq!(refusal_of(&[&head]), expected, "{length} octets");
    }
}

#[test]
fn type_1_is_for_holds_alone() {
    for kind in 0..=255 {
        let hold = format!("01 02 01 02 0042 {kind:02X} 00000009 {PERIOD} 01 01 {LAPSE}");
        assert_eq!(refusal(&hold), if kind == 1 { 0 } else { 21 });
        let lease = format!("0041 {kind:02X} 00000001");
        let settings = SETTINGS.replace("0041 03 00000001", &lease);
        let expected = if [3, 4].contains(&kind) { 0 } else { 21 };
        let refusal = holding(&settings, "00").err().unwrap_or(0);
        assert_eq!(refusal, expected);
    }
}

#[test]
fn a_hold_lapses_after_the_clock_within_thirty_seconds_and_not_after_its_end() {
    let lapsing = |end: u32, lapse: u32| {
        refusal(&format!(
            "01 02 01 02 0042 {ID_9} 000003E7 {end:08X} 01 01 {lapse:08X}"
        ))
    };
    for (lapse, expected) in [
        (0, 21),
        (999, 21),
        (1000, 21),
        (1001, 0),
        (1029, 0),
        (1030, 0),
        (1031, 21),
        (u32::MAX, 21),
    ] {
        assert_eq!(lapsing(2000, lapse), expected, "at {lapse}");
    }
    assert_eq!(lapsing(1010, 1009), 0);
    assert_eq!(lapsing(1010, 1010), 0);
    assert_eq!(lapsing(1010, 1011), 21);
    // An ended period, whatever the lapse.
    assert_eq!(lapsing(1000, 1000), 21);
    assert_eq!(lapsing(1000, 1001), 21);
}

#[test]
fn a_lease_and_a_hold_of_one_identifier_in_a_house_are_21() {
    assert_eq!(refusal_of(&["01 01 02 0041"]), 21);
    assert_eq!(refusal_of(&["01 01 02 0042"]), 0);
    assert_eq!(refusal_of(&["02 01 02 0041"]), 0);
}

#[test]
fn a_release_on_a_holds_identifier_is_21() {
    let released = |head: &str| {
        let release = format!("01 00 00 00\n    01 {head} 00000009 000003E8");
        let settings = SETTINGS.replace("01 00 00 00\n    00", &release);
        assert_ne!(settings, SETTINGS);
        let section = format!("01 {}", held("01 01 02 0042", "01 01"));
        holding(&settings, &section).err().unwrap_or(0)
    };
    assert_eq!(released("01 02 0042"), 21);
    assert_eq!(released("01 02 0043"), 0);
    assert_eq!(released("02 02 0042"), 0);
}

#[test]
fn more_than_sixteen_records_of_a_house_together_are_21() {
    // Holds of a second each on .1, next to the one lease of house 1 on .0.
    let section = |house: u8, count: u8| {
        let holds: String = (0..count)
            .map(|number| {
                let start = 1000 + u32::from(number);
                let end = start + 1;
                format!(
                    "{house:02X} 01 02 07{number:02X} {ID_9} {start:08X} {end:08X} 01 01 000003E9"
                )
            })
            .collect();
        refusal(&format!("{count:02X} {holds}"))
    };
    assert_eq!(section(1, 15), 0);
    assert_eq!(section(1, 16), 21);
    assert_eq!(section(2, 16), 0);
    assert_eq!(section(2, 17), 21);
    assert_eq!(section(2, 255), 21);
}

#[test]
fn leases_and_holds_share_addresses_limits_and_shares_as_leases_do() {
    let with = |head: &str, period: &str, offsets: &str| {
        refusal(&format!("01 {head} {ID_9} {period} {offsets} {LAPSE}"))
    };
    // On the lease's .0, whose period ends at 2000: touching is fine, for the same house.
    assert_eq!(with("01 01 02 0042", "000007D0 000007D1", "01 00"), 0);
    assert_eq!(with("01 01 02 0042", "000007CF 000007D1", "01 00"), 21);
    assert_eq!(with("02 01 02 0042", "000007D0 000007D1", "01 00"), 21);
    // The limit of house 1 is 3, and house 2 has a share of 1.
    assert_eq!(with("01 01 02 0042", PERIOD, "02 01 02"), 0);
    assert_eq!(with("01 01 02 0042", PERIOD, "03 01 02 03"), 21);
    // House 1 has a share of 2, so house 2 may have 2 of the 4.
    assert_eq!(with("02 01 02 0042", PERIOD, "02 01 02"), 0);
    assert_eq!(with("02 01 02 0042", PERIOD, "03 01 02 03"), 21);
    // Two holds on one address.
    let two = |start: u32| {
        refusal(&format!(
            "02 {} 01 01 02 0043 {ID_9} {start:08X} 00001000 01 01 {LAPSE}",
            held("01 01 02 0042", "01 01")
        ))
    };
    assert_eq!(two(2000), 0);
    assert_eq!(two(1999), 21);
}

#[test]
fn form_comes_before_soundness() {
    // The lease's end is not after the clock; identifiers that fall in the holds.
    let ended = SETTINGS.replace("000007D0", "000003E8");
    let (first, second) = (
        held("01 01 02 0042", "01 01"),
        held("01 01 02 0043", "01 02"),
    );
    assert_eq!(holding(&ended, &format!("02 {first} {second}")), Err(21));
    assert_eq!(holding(&ended, &format!("02 {second} {first}")), Err(20));
    // A bad name comes before an unsound hold: flags 1.
    let named =
        |flags| SETTINGS.replace("01 00 00 00", &format!("01 01 {flags} 01 65 01 41 00 00"));
    let unknown_house = format!("01 {}", held("03 01 02 0042", "01 01"));
    assert_eq!(holding(&named("00"), &unknown_house), Err(21));
    assert_eq!(holding(&named("01"), &unknown_house), Err(20));
}

#[test]
fn the_programs_and_the_holds() {
    let file = hex(&format!(
        "{SETTINGS} 01 {}",
        held("01 01 02 0042", "02 01 02")
    ));
    // The board counts what is held.
    let text = "scope house share limit holds\n239.192.0.0 1 2 3 3\n239.192.0.0 2 1 4 0\n";
    assert_eq!(board(&file), text);
    let mut input = (file.len() as u16).to_be_bytes().to_vec();
    input.extend(&file);
    let book_line = format!("book {}\n", second::octets::hex(&file));
    assert_eq!(replay(&input), book_line);
    // Its REQUEST from 10.1.0.5, at 1029.
    let request = "0003 0001 0000000A 0003 0002 0042 0004 0004 EFC00000 0000 0000";
    input.extend(hex(&format!("00000405 0A010005 0200 001A {request}")));
    let ack = hex(
        "00 05 0001 0000000A  0001 0004 000003E8  0002 0006 0001 0A010101  0003 0002 0042
         0004 0004 EFC00000  0006 0004 000003E8  000A 0006 EFC00001 0002  000B 0004 00000405  0000 0000",
    );
    let settings = "01 0A010101 00000405
        02 0A010000 0A0100FF 0A020000 0A0200FF
        01 EFC00000 04 0F 02 03 01 04
        02 01 01 02 0041 03 00000001 000003E8 000007D0 01 00
           01 01 02 0042 03 0000000A 000003E8 000007D0 02 01 02
        01 00 00 00 00 00";
    // The hold, which lapses before the lease ends, is found first, by the resend test and by error 1.
    let lines = format!(
        "0 {} #2\nbook {}\n",
        second::octets::hex(&ack),
        second::octets::hex(&hex(settings))
    );
    assert_eq!(replay(&input), lines);
    // A lapse that has passed, and a section cut off.
    let lapsed = hex(
        &format!("{SETTINGS} 01 {}", held("01 01 02 0042", "01 01")).replace(LAPSE, "000003E8")
    );
    assert_eq!(board(&lapsed), "refused 21\n");
    assert_eq!(board(&file[..file.len() - 1]), "refused 20\n");
}
