//! Form of the campus file, reader and writer, and the programs' text.

mod common;

use common::*;
use second::file::{read, write, LONGEST_FILE};
use second::programs::{board, replay};
use second::{Book, Hold, House, Name, Quota, Scope, ScopeNames};

/// The specimens' book.
const EMPTY: &str = "01 0A010101 000003E8
    02 0A010000 0A0100FF 0A020000 0A0200FF
    01 EFC00000 04 0F 02 03 01 04
    00
    01 00 00 00
    00
    00";
/// The last three sections of the specimens' book, which has no names, no release and no hold: one scope, and three
/// empty lists; no release; no hold.
const NOTHING_ELSE: &str = "01 00 00 00 00 00";
/// The same after P1 and P3.
const AFTER_P3: &str = "01 0A010101 000003E8
    02 0A010000 0A0100FF 0A020000 0A0200FF
    01 EFC00000 04 0F 02 03 01 04
    02
    01 01 02 00A3 03 00000003 000003E8 000007D0 02 02 03
    02 01 02 00B2 03 00000001 000003E8 000011F8 02 00 01
    01 00 00 00
    00
    00";

/// The specimens' settings with the leases that the hex gives, count and all.
fn with_leases(leases: &str) -> Vec<u8> {
    let mut file = hex(EMPTY);
    file.truncate(file.len() - hex(NOTHING_ELSE).len() - 1);
    file.extend(hex(leases));
    file.extend(hex(NOTHING_ELSE));
    file
}

#[test]
fn empty_book() {
    assert_eq!(read(&hex(EMPTY)), Ok(specimen_book()));
}

#[test]
fn book_after_p3() {
    let mut book = specimen_book();
    book.leases = vec![
        lease(1, &[0x00, 0xA3], 1000, 2000, &[2, 3]),
        lease(2, &[0x00, 0xB2], 1000, 4600, &[0, 1]),
    ];
    book.leases[0].transaction = 3;
    assert_eq!(read(&hex(AFTER_P3)), Ok(book.clone()));
    let mut room = [0; LONGEST_FILE];
    let length = write(&book, &mut room).expect("a length");
    assert_eq!(room[..length], hex(AFTER_P3));
}

#[test]
fn every_cut_and_every_excess_is_20() {
    let file = hex(AFTER_P3);
    for length in 0..file.len() {
        assert_eq!(read(&file[..length]), Err(20));
    }
    for excess in 0..=255 {
        let mut longer = file.clone();
        longer.push(excess);
        assert_eq!(read(&longer), Err(20));
    }
}

#[test]
fn server_count_other_than_1_is_20() {
    for count in [0, 2, 255] {
        let mut file = hex(EMPTY);
        file[0] = count;
        assert_eq!(read(&file), Err(20));
    }
    // Two servers, laid out in full.
    let mut two = hex("02 0A010101 000003E8");
    two.extend(&hex(EMPTY)[1..]);
    assert_eq!(read(&two), Err(20));
}

#[test]
fn offsets_that_dont_rise_are_20() {
    let lease = "01 01 01 02 0041 03 00000001 000003E8 000007D0 02";
    assert!(read(&with_leases(&format!("{lease} 01 02"))).is_ok());
    assert_eq!(read(&with_leases(&format!("{lease} 02 01"))), Err(20));
    assert_eq!(read(&with_leases(&format!("{lease} 01 01"))), Err(20));
    // Also where the lease is unsound in other ways.
    let unsound = "01 C8 00 00 09 00000001 000003E8 000003E8 02";
    assert_eq!(read(&with_leases(&format!("{unsound} 01 02"))), Err(21));
    assert_eq!(read(&with_leases(&format!("{unsound} 01 01"))), Err(20));
}

/// Two leases of given house and identifier (with its length), on addresses 0 and 1.
fn two(first: &str, second: &str) -> Result<Book, u8> {
    let (house_1, identifier_1) = first.split_at(2);
    let (house_2, identifier_2) = second.split_at(2);
    read(&with_leases(&format!(
        "02 {house_1} 01 {identifier_1} 03 00000001 000003E8 000007D0 01 00
            {house_2} 01 {identifier_2} 03 00000001 000003E8 000007D0 01 01"
    )))
}

#[test]
fn leases_out_of_order_are_20_and_equal_identifiers_21() {
    assert!(two("01 02 0041", "01 02 0042").is_ok());
    assert!(two("01 02 0041", "01 03 004100").is_ok());
    assert!(two("01 03 0041FF", "01 02 0042").is_ok());
    assert!(two("01 02 0042", "02 02 0041").is_ok());
    assert!(two("01 02 0041", "02 02 0041").is_ok());
    assert_eq!(two("01 02 0041", "01 02 0041"), Err(21));
    assert_eq!(two("01 02 0042", "01 02 0041"), Err(20));
    assert_eq!(two("01 03 004100", "01 02 0041"), Err(20));
    assert_eq!(two("02 02 0041", "01 02 0042"), Err(20));
    // By the house octet as written, even 0 or 200.
    assert_eq!(two("C8 02 0041", "01 02 0042"), Err(20));
    assert_eq!(two("01 02 0041", "C8 02 0042"), Err(21));
    assert_eq!(two("01 02 0041", "00 02 0042"), Err(20));
    assert_eq!(two("00 02 0041", "01 02 0042"), Err(21));
    // The form of the whole file comes before soundness.
    assert_eq!(two("01 00", "01 00"), Err(21));
    assert_eq!(two("01 01 41", "01 00"), Err(20));
}

#[test]
fn counts_past_the_limits_are_21_where_the_layout_fits() {
    let nine_houses = "01 0A010101 000003E8 09".to_string()
        + &"0A010000 0A0100FF".repeat(9)
        + "01 EFC00000 04 0F"
        + &"00 00".repeat(9)
        + "00 01"
        + &"00".repeat(10)
        + "00 00";
    assert_eq!(read(&hex(&nine_houses)), Err(21));
    assert_eq!(read(&hex(&nine_houses[..nine_houses.len() - 2])), Err(20));
    let no_house = "01 0A010101 000003E8 00 01 EFC00000 04 0F 00 01 00 00 00";
    assert_eq!(read(&hex(no_house)), Err(21));
    let no_scope = "01 0A010101 000003E8 01 0A010000 0A0100FF 00 00 00 00 00";
    assert_eq!(read(&hex(no_scope)), Err(21));
    let five_scopes = "01 0A010101 000003E8 01 0A010000 0A0100FF 05".to_string()
        + &"EFC00000 04 0F 00 00".repeat(5)
        + "00 05"
        + &"00 00".repeat(5)
        + "00 00";
    assert_eq!(read(&hex(&five_scopes)), Err(21));
    let long_identifier =
        "01 01 01 FF".to_string() + &"41".repeat(255) + "03 00000001 000003E8 000007D0 01 00";
    assert_eq!(read(&with_leases(&long_identifier)), Err(21));
    let no_address = "01 01 01 02 0041 03 00000001 000003E8 000007D0 00";
    assert_eq!(read(&with_leases(no_address)), Err(21));
    let all_offsets: String = (0..255).map(|offset| format!("{offset:02X}")).collect();
    let many_addresses =
        "01 01 01 02 0041 03 00000001 000003E8 000007D0 FF".to_string() + &all_offsets;
    assert_eq!(read(&with_leases(&many_addresses)), Err(21));
    let many_leases: String = (0..129)
        .map(|number| format!("01 01 02 00{number:02X} 03 00000001 000003E8 000007D0 01 00"))
        .collect();
    assert_eq!(read(&with_leases(&format!("81 {many_leases}"))), Err(21));
}

/// Every count at its limit, and every lease with as many addresses as two houses to a scope leave it.
fn fullest_book() -> Book {
    let houses = (0..8)
        .map(|number| House {
            lowest: number,
            highest: number,
        })
        .collect();
    let quota = Quota {
        share: 0,
        limit: 64,
    };
    let scopes = (0..4)
        .map(|number| Scope {
            lowest: 0xE000_0000 + 64 * number,
            size: 64,
            ttl: 1,
            quotas: vec![quota.clone(); 8],
        })
        .collect();
    let name = Name {
        flags: 128,
        tag: vec![0xFF; 8],
        text: vec![0xFF; 32],
    };
    let names = ScopeNames {
        campus: vec![name.clone(); 4],
        houses: vec![vec![name; 4]; 8],
    };
    let halves: [Vec<u8>; 2] = [(0..32).collect(), (32..64).collect()];
    let mut leases = vec![];
    let mut releases = vec![];
    for house in 0..8u8 {
        for number in 0..16u8 {
            let start = u32::from(number);
            let half = &halves[usize::from(house % 2)];
            let mut lease = lease(house + 1, &[number; 32], start, start + 1, half);
            lease.scope = house / 2 + 1;
            leases.push(lease);
        }
        for number in 16..20u8 {
            releases.push(release(house + 1, &[number; 32], u32::MAX, 0));
        }
    }
    Book {
        server: 1,
        clock: 0,
        houses,
        scopes,
        leases,
        names: vec![names; 4],
        releases,
        holds: vec![],
    }
}

/// The same with every lease a hold that lapses at its period's end.
fn fullest_book_of_holds() -> Book {
    let mut book = fullest_book();
    for mut lease in std::mem::take(&mut book.leases) {
        lease.message_type = 1;
        let lapse = lease.end;
        book.holds.push(Hold { lease, lapse });
    }
    book
}

#[test]
fn the_longest_file_of_a_sound_book() {
    let names = 1 + 4 * 9 * (1 + 4 * 43);
    let releases = 1 + 32 * 42;
    let with_leases = 163 + (1 + 128 * 81) + names + releases + 1;
    let with_holds = 163 + 1 + names + releases + (1 + 128 * 85);
    assert_eq!(with_holds, 18_619);
    for (book, expected) in [
        (fullest_book(), with_leases),
        (fullest_book_of_holds(), with_holds),
    ] {
        let mut room = vec![7; LONGEST_FILE];
        let length = write(&book, &mut room).expect("a length");
        assert_eq!(length, expected);
        assert_eq!(read(&room[..length]), Ok(book));
        assert!(room[length..].iter().all(|&octet| octet == 7));
    }
}

/// A file of right form with 62 leases of 527 octets and a last one that makes up its length.
fn file_of(length: usize) -> Vec<u8> {
    let mut leases = vec![63];
    for number in 0..62 {
        leases.extend([1, 1, 255]);
        leases.extend([number; 255]);
        leases.extend(hex("03 00000001 000003E8 000007D0 FF"));
        leases.extend(0..255);
    }
    let last = length - hex(EMPTY).len() - 62 * 527 - 18;
    leases.extend([1, 1, last as u8]);
    leases.extend(vec![62; last]);
    leases.extend(hex("03 00000001 000003E8 000007D0 01 00"));
    let file = with_leases(&second::octets::hex(&leases));
    assert_eq!(file.len(), length);
    file
}

#[test]
fn more_than_32_768_octets_are_20() {
    assert_eq!(LONGEST_FILE, 32_768);
    assert_eq!(read(&file_of(32_767)), Err(21));
    assert_eq!(read(&file_of(32_768)), Err(21));
    assert_eq!(read(&file_of(32_769)), Err(20));
    // Just 32,768 are judged as usual: with an octet in excess, or without its last section or more, a file is 20.
    let mut excess = file_of(32_767);
    excess.push(0);
    assert_eq!(read(&excess), Err(20));
    for left_out in [1, 2, 6] {
        let mut cut = file_of(32_768 + left_out);
        cut.truncate(32_768);
        assert_eq!(read(&cut), Err(20));
    }
    // The programs go by the same limit.
    assert_eq!(board(&file_of(32_768)), "refused 21\n");
    assert_eq!(board(&file_of(32_769)), "refused 20\n");
    assert_eq!(replay(&replay_input(&file_of(32_768), "")), "refused 21\n");
    assert_eq!(replay(&replay_input(&file_of(32_769), "")), "refused 20\n");
}

#[test]
fn the_writers_room() {
    let book = specimen_book();
    let file = hex(EMPTY);
    let mut exact = vec![7; file.len()];
    assert_eq!(write(&book, &mut exact), Ok(file.len()));
    assert_eq!(exact, file);
    let mut longer = vec![7; file.len() + 3];
    assert_eq!(write(&book, &mut longer), Ok(file.len()));
    assert_eq!(longer[file.len()..], [7; 3]);
    let mut short = vec![7; file.len() - 1];
    assert_eq!(write(&book, &mut short), Err(23));
    assert!(short.iter().all(|&octet| octet == 7));
    // Unsound comes before the room.
    let mut unsound = book;
    unsound.scopes[0].ttl = 0;
    assert_eq!(write(&unsound, &mut []), Err(22));
}

#[test]
fn board_texts() {
    assert_eq!(
        board(&hex(AFTER_P3)),
        "scope house share limit holds\n239.192.0.0 1 2 3 2\n239.192.0.0 2 1 4 2\n"
    );
    assert_eq!(board(&[]), "refused 20\n");
    let mut unsound = hex(EMPTY);
    unsound[4] = 2;
    assert!(board(&unsound).starts_with("scope"));
    unsound[31] = 0;
    assert_eq!(board(&unsound), "refused 21\n");
}

/// The input of `replay`: a file and records in hex.
fn replay_input(file: &[u8], records: &str) -> Vec<u8> {
    let mut input = (file.len() as u16).to_be_bytes().to_vec();
    input.extend(file);
    input.extend(hex(records));
    input
}

/// P12 from 10.1.0.5 at 1000 with a room of 512 octets.
const P12: &str = "000003E8 0A010005 0200 0012 000700010102030400030002004100000000";
const P12_LINE: &str = "0 0006000101020304000200060001\
    0a01010100030002004100100002000300000000 #0\n";

#[test]
fn replay_texts() {
    let empty_line = "book 010a010101000003e8020a0100000a0100ff0a0200000a0200ff\
        01efc00000040f0203010400010000000000\n";
    let file = hex(EMPTY);
    assert_eq!(replay(&replay_input(&file, "")), empty_line);
    assert_eq!(
        replay(&replay_input(&file, P12)),
        format!("{P12_LINE}{empty_line}")
    );
    // A room below 512 comes before the stranger; the time is then not taken.
    assert_eq!(
        replay(&replay_input(&file, "FFFFFFFF 00000000 01FF 0000")),
        format!("2 #0\n{empty_line}")
    );
    assert_eq!(replay(&replay_input(&[], P12)), "refused 20\n");
}

#[test]
fn replay_of_an_input_that_is_cut_off() {
    let whole = replay_input(&hex(EMPTY), &format!("{P12}{P12}"));
    let file_end = 2 + hex(EMPTY).len();
    let record = hex(P12).len();
    for length in 0..whole.len() {
        let expected = match length {
            _ if length < file_end => "refused 24\n".to_string(),
            _ if length == file_end || length == file_end + record => continue,
            _ if length < file_end + record => "refused 24\n".to_string(),
            _ => format!("{P12_LINE}refused 24\n"),
        };
        assert_eq!(replay(&whole[..length]), expected);
    }
    // A refused file comes before a record that is cut off.
    assert_eq!(replay(&replay_input(&[], "00")), "refused 20\n");
}
