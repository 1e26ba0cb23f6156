//! The releases' section of the campus file (W-202).

mod common;

use common::*;
use second::file::{read, write, LONGEST_FILE};
use second::programs::{board, replay};
use second::Book;

/// The specimens' settings and a lease of house 1 on 0041, up to the releases' section; no names.
const SETTINGS: &str = "01 0A010101 000003E8
    02 0A010000 0A0100FF 0A020000 0A0200FF
    01 EFC00000 04 0F 02 03 01 04
    01 01 01 02 0041 03 00000001 000003E8 000007D0 01 00
    01 00 00 00";
/// The transaction id and the time of most releases here: 9, at 1000.
const AT_1000: &str = "00000009 000003E8";

/// What the reader makes of settings with a releases' section. No hold follows.
fn remembering(settings: &str, releases: &str) -> Result<Book, u8> {
    read(&hex(&format!("{settings} {releases} 00")))
}

/// The refusal of a releases' section, 0 for none.
fn refusal(releases: &str) -> u8 {
    remembering(SETTINGS, releases).err().unwrap_or(0)
}

/// The refusal of a section with these releases at 1000, each its house and its identifier with the length.
fn refusal_of(heads: &[&str]) -> u8 {
    let releases: String = heads
        .iter()
        .map(|head| format!("{head} {AT_1000}"))
        .collect();
    refusal(&format!("{:02X} {releases}", heads.len()))
}

/// The refusal of a section with one identifier each for these houses and times, in this order.
fn refusal_of_order(houses_and_times: &[(u8, u32)]) -> u8 {
    let releases: String = houses_and_times
        .iter()
        .enumerate()
        .map(|(number, (house, time))| format!("{house:02X} 02 07{number:02X} 00000009 {time:08X}"))
        .collect();
    refusal(&format!("{:02X} {releases}", houses_and_times.len()))
}

#[test]
fn the_section_stands_after_the_names_by_house_oldest_first() {
    let section = "03
        01 02 0042 01020304 00000000
        01 03 004100 FFFFFFFF 000003E8
        02 02 0041 00000000 00000007";
    let book = remembering(SETTINGS, section).expect("a book");
    let expected = [
        release(1, &[0, 0x42], 0x0102_0304, 0),
        release(1, &[0, 0x41, 0], u32::MAX, 1000),
        release(2, &[0, 0x41], 0, 7),
    ];
    assert_eq!(book.releases, expected);
    assert_eq!(book.leases.len(), 1);
    // Written back octet for octet.
    let mut room = vec![7; LONGEST_FILE];
    let length = write(&book, &mut room).expect("a length");
    assert_eq!(room[..length], hex(&format!("{SETTINGS} {section} 00")));
    assert!(room[length..].iter().all(|&octet| octet == 7));
    // 23 goes by the length with the releases.
    assert_eq!(write(&book, &mut room[..length]), Ok(length));
    let mut short = vec![7; length - 1];
    assert_eq!(write(&book, &mut short), Err(23));
    assert!(short.iter().all(|&octet| octet == 7));
    // Releases before the names are no releases.
    let (settings, names) = SETTINGS.rsplit_once('\n').expect("two lines");
    assert_eq!(
        remembering(settings, &format!("{section} {names}")),
        Err(20)
    );
}

#[test]
fn every_cut_and_every_excess_is_20() {
    let file = hex(&format!(
        "{SETTINGS} 02 01 02 0042 {AT_1000} 02 03 004200 {AT_1000} 00"
    ));
    assert!(read(&file).is_ok());
    for length in 0..file.len() {
        assert_eq!(read(&file[..length]), Err(20), "cut to {length}");
    }
    for excess in 0..=255 {
        let mut longer = file.clone();
        longer.push(excess);
        assert_eq!(read(&longer), Err(20));
    }
}

#[test]
fn a_missing_section_is_20() {
    assert_eq!(refusal(""), 20);
    assert_eq!(refusal("00"), 0);
    // Even where the book is unsound: TTL 0.
    let unsound = SETTINGS.replace("04 0F", "04 00");
    assert_eq!(remembering(&unsound, ""), Err(20));
    assert_eq!(remembering(&unsound, "00"), Err(21));
}

#[test]
fn the_count_goes_before_the_releases() {
    let one = format!("01 02 0042 {AT_1000}");
    assert_eq!(refusal(&format!("01 {one}")), 0);
    for count in (0..=255).filter(|&count| count != 1) {
        assert_eq!(refusal(&format!("{count:02X} {one}")), 20);
    }
    assert_eq!(refusal(&one), 20, "no count");
}

#[test]
fn falling_houses_are_20() {
    assert_eq!(refusal_of_order(&[(1, 1000), (2, 1000)]), 0);
    assert_eq!(refusal_of_order(&[(2, 1000), (1, 1000)]), 20);
    assert_eq!(refusal_of_order(&[(1, 1000), (2, 1000), (1, 1000)]), 20);
    // Whatever the times.
    assert_eq!(refusal_of_order(&[(2, 7), (1, 1000)]), 20);
    // By the house octet as written, even 0 or 200.
    assert_eq!(refusal_of_order(&[(200, 1000), (1, 1000)]), 20);
    assert_eq!(refusal_of_order(&[(1, 1000), (200, 1000)]), 21);
    assert_eq!(refusal_of_order(&[(1, 1000), (0, 1000)]), 20);
    assert_eq!(refusal_of_order(&[(0, 1000), (1, 1000)]), 21);
}

#[test]
fn falling_times_within_a_house_are_20() {
    assert_eq!(refusal_of_order(&[(1, 999), (1, 1000)]), 0);
    assert_eq!(refusal_of_order(&[(1, 1000), (1, 1000)]), 0);
    assert_eq!(refusal_of_order(&[(1, 1000), (1, 999)]), 20);
    assert_eq!(refusal_of_order(&[(1, 5), (1, 7), (1, 6), (1, 8)]), 20);
    // From house to house the times need not rise.
    assert_eq!(refusal_of_order(&[(1, 1000), (2, 0), (2, 1000)]), 0);
    assert_eq!(refusal_of_order(&[(1, 1000), (2, 1000), (2, 0)]), 20);
    // Of a house that isn't known either, and with times after the clock.
    assert_eq!(refusal_of_order(&[(9, 1000), (9, 999)]), 20);
    assert_eq!(refusal_of_order(&[(1, u32::MAX), (1, 1001)]), 20);
    assert_eq!(refusal_of_order(&[(1, 1001), (1, u32::MAX)]), 21);
    // Neither identifiers nor transaction ids have an order.
    assert_eq!(refusal_of(&["01 02 0043", "01 02 0042"]), 0);
    let falling_ids = "02 01 02 0042 00000009 000003E8 01 02 0043 00000008 000003E8";
    assert_eq!(refusal(falling_ids), 0);
}

#[test]
fn an_unknown_house_is_21() {
    for house in 0..=255 {
        let expected = if [1, 2].contains(&house) { 0 } else { 21 };
        assert_eq!(refusal_of(&[&format!("{house:02X} 02 0042")]), expected);
    }
}

#[test]
fn more_than_four_for_a_house_are_21() {
    for count in 0..=255 {
        let expected = if count <= 4 { 0 } else { 21 };
        let of_house_2 = vec![(2, 1000); count];
        assert_eq!(refusal_of_order(&of_house_2), expected);
    }
    let four_each: Vec<_> = [1, 1, 1, 1, 2, 2, 2, 2].map(|house| (house, 5)).into();
    assert_eq!(refusal_of_order(&four_each), 0);
    let five_and_three: Vec<_> = [1, 1, 1, 1, 1, 2, 2, 2].map(|house| (house, 5)).into();
    assert_eq!(refusal_of_order(&five_and_three), 21);
}

#[test]
fn an_identifier_too_short_or_long_is_21() {
    for length in 0..=255 {
        let expected = if (2..=32).contains(&length) { 0 } else { 21 };
        let head = format!("02 {length:02X} {}", "41".repeat(length));
        assert_eq!(refusal_of(&[&head]), expected, "{length} octets");
    }
}

#[test]
fn an_identifier_repeated_in_the_house_is_21() {
    assert_eq!(refusal_of(&["01 02 0042", "01 02 0042"]), 21);
    assert_eq!(refusal_of(&["01 02 0042", "01 02 0043", "01 02 0042"]), 21);
    assert_eq!(refusal_of(&["01 02 0042", "01 03 004200"]), 0);
    assert_eq!(refusal_of(&["01 02 0042", "02 02 0042"]), 0);
    // With other transaction ids and times too.
    let twice = "02 01 02 0042 00000001 00000000 01 02 0042 00000002 000003E8";
    assert_eq!(refusal(twice), 21);
}

#[test]
fn an_identifier_on_a_lease_of_the_house_is_21() {
    assert_eq!(refusal_of(&["01 02 0041"]), 21);
    assert_eq!(refusal_of(&["01 02 0042", "01 02 0041"]), 21);
    assert_eq!(refusal_of(&["02 02 0041"]), 0);
    assert_eq!(refusal_of(&["01 03 004100"]), 0);
}

#[test]
fn a_time_after_the_clock_is_21() {
    for (time, expected) in [(0, 0), (999, 0), (1000, 0), (1001, 21), (u32::MAX, 21)] {
        assert_eq!(refusal_of_order(&[(1, time)]), expected, "at {time}");
        assert_eq!(refusal_of_order(&[(1, 0), (2, time)]), expected);
    }
}

#[test]
fn form_comes_before_soundness() {
    // The lease's end is not after the clock; houses that fall in the releases.
    let ended = SETTINGS.replace("000007D0", "000003E8");
    let right = format!("02 01 02 0042 {AT_1000} 02 02 0042 {AT_1000}");
    let falling = format!("02 02 02 0042 {AT_1000} 01 02 0042 {AT_1000}");
    assert_eq!(remembering(&ended, &right), Err(21));
    assert_eq!(remembering(&ended, &falling), Err(20));
    // A bad name comes before an unsound release: flags 1.
    let named =
        |flags| SETTINGS.replace("01 00 00 00", &format!("01 01 {flags} 01 65 01 41 00 00"));
    let unknown_house = format!("01 03 02 0042 {AT_1000}");
    assert_eq!(remembering(&named("00"), &unknown_house), Err(21));
    assert_eq!(remembering(&named("01"), &unknown_house), Err(20));
}

#[test]
fn a_house_past_the_eighth_is_21_with_its_release() {
    let nine_houses = "01 0A010101 000003E8 09".to_string()
        + &(0..9)
            .map(|number| format!("0A0000{number:02X} 0A0000{number:02X}"))
            .collect::<String>()
        + "01 EFC00000 04 0F"
        + &"00 00".repeat(9)
        + "00 01"
        + &"00".repeat(10);
    let of_the_ninth = format!("01 09 02 0042 {AT_1000}");
    assert_eq!(remembering(&nine_houses, &of_the_ninth), Err(21));
    assert_eq!(
        remembering(&nine_houses, &format!("{of_the_ninth} 00")),
        Err(20)
    );
}

#[test]
fn the_programs_and_the_releases() {
    let section = format!("01 01 02 0042 {AT_1000}");
    let file = hex(&format!("{SETTINGS} {section} 00"));
    let text = "scope house share limit holds\n239.192.0.0 1 2 3 1\n239.192.0.0 2 1 4 0\n";
    assert_eq!(board(&file), text);
    let mut input = (file.len() as u16).to_be_bytes().to_vec();
    input.extend(&file);
    let book_line = format!("book {}\n", second::octets::hex(&file));
    assert_eq!(replay(&input), book_line);
    // The RELEASE again from 10.1.0.5, at 1299.
    let again = "000700010000000900030002004200000000";
    input.extend(hex(&format!("00000513 0A010005 0200 0012 {again}")));
    let ack = "00050001000000090002000600010a01010100030002004200000000";
    let at_1299 = book_line.replacen("000003e8", "00000513", 1);
    assert_eq!(replay(&input), format!("0 {ack} #0\n{at_1299}"));
    // Times after the clock, and a section cut off.
    let late = hex(&format!("{SETTINGS} 01 01 02 0042 00000009 000003E9 00"));
    assert_eq!(board(&late), "refused 21\n");
    assert_eq!(board(&file[..file.len() - 1]), "refused 20\n");
}
