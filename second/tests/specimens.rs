//! Document 01's specimens, with whole datagrams.

mod common;

use common::*;
use second::programs::board_text;
use second::Book;

/// House 2, least 1, desired 4.
const P1: &str =
    "00 03 0001 00000001  0003 0002 00B2  0004 0004 EFC00000  0007 0004 0001 0004  0000 0000";
const P1_ACK: &str =
    "00 05 0001 00000001  0001 0004 00000E10  0002 0006 0001 0A010101  0003 0002 00B2
    0004 0004 EFC00000  0006 0004 000003E8  000A 0006 EFC00000 0002  000B 0004 000003E8  0000 0000";
/// House 1, least 2, desired 3, Lease Time 1000.
const P3: &str = "00 03 0001 00000003  0001 0004 000003E8  0003 0002 00A3  0004 0004 EFC00000
    0007 0004 0002 0003  0000 0000";
const P3_ACK: &str =
    "00 05 0001 00000003  0001 0004 000003E8  0002 0006 0001 0A010101  0003 0002 00A3
    0004 0004 EFC00000  0006 0004 000003E8  000A 0006 EFC00002 0002  000B 0004 000003E8  0000 0000";
/// House 1, least 2, desired 2, from 2000.
const P5: &str = "00 03 0001 00000005  0003 0002 00A5  0004 0004 EFC00000  0006 0004 000007D0
    0007 0004 0002 0002  000B 0004 000003E8  0000 0000";
const P5_ACK: &str =
    "00 05 0001 00000005  0001 0004 00000E10  0002 0006 0001 0A010101  0003 0002 00A5
    0004 0004 EFC00000  0006 0004 000007D0  000A 0006 EFC00002 0002  000B 0004 000003E8  0000 0000";

fn check(book: &mut Book, client: u32, datagram: &str, reply: &str) {
    let expected = (0, hex(reply));
    assert_eq!(call(book, client, 1000, &hex(datagram)), expected);
}

fn after_p1() -> Book {
    let mut book = specimen_book();
    check(&mut book, CLIENT_2, P1, P1_ACK);
    book
}

fn after_p3() -> Book {
    let mut book = after_p1();
    check(&mut book, CLIENT_1, P3, P3_ACK);
    book
}

fn after_p5() -> Book {
    let mut book = after_p3();
    check(&mut book, CLIENT_1, P5, P5_ACK);
    book
}

#[test]
fn p1_gets_0_and_1() {
    let book = after_p1();
    let mut recorded = lease(2, &[0x00, 0xB2], 1000, 4600, &[0, 1]);
    recorded.transaction = 1;
    assert_eq!(book.leases, [recorded]);
}

#[test]
fn p2_with_least_3_is_error_0() {
    let mut book = specimen_book();
    check(
        &mut book,
        CLIENT_2,
        "00 03 0001 00000002  0003 0002 00B2  0004 0004 EFC00000  0007 0004 0003 0004  0000 0000",
        "00 06 0001 00000002  0002 0006 0001 0A010101  0003 0002 00B2  0010 0002 0000  0000 0000",
    );
    assert_eq!(book, specimen_book());
}

#[test]
fn p3_gets_2_and_3() {
    let book = after_p3();
    let mut recorded = lease(1, &[0x00, 0xA3], 1000, 2000, &[2, 3]);
    recorded.transaction = 3;
    assert_eq!(book.leases[0], recorded);
    assert_eq!(book.leases[1], after_p1().leases[0]);
    assert_eq!(book.leases.len(), 2);
}

#[test]
fn p4_with_least_3_is_error_0() {
    check(
        &mut after_p1(),
        CLIENT_1,
        "00 03 0001 00000004  0003 0002 00A4  0004 0004 EFC00000  0007 0004 0003 0003  0000 0000",
        "00 06 0001 00000004  0002 0006 0001 0A010101  0003 0002 00A4  0010 0002 0000  0000 0000",
    );
}

#[test]
fn p5_from_2000_gets_2_and_3_again() {
    let book = after_p5();
    let mut recorded = lease(1, &[0x00, 0xA5], 2000, 5600, &[2, 3]);
    recorded.transaction = 5;
    assert_eq!(book.leases[1], recorded);
    assert_eq!(book.leases.len(), 3);
}

#[test]
fn p6_from_1999_is_error_0() {
    check(
        &mut after_p3(),
        CLIENT_1,
        "00 03 0001 00000006  0003 0002 00A5  0004 0004 EFC00000  0006 0004 000007CF
         0007 0004 0002 0002  000B 0004 000003E8  0000 0000",
        "00 06 0001 00000006  0002 0006 0001 0A010101  0003 0002 00A5  0010 0002 0000  0000 0000",
    );
}

#[test]
fn p7_renew_with_1001_is_error_0() {
    let mut book = after_p5();
    check(
        &mut book,
        CLIENT_1,
        "00 04 0001 00000007  0001 0004 000003E9  0003 0002 00A3  0000 0000",
        "00 06 0001 00000007  0002 0006 0001 0A010101  0003 0002 00A3  0010 0002 0000  0000 0000",
    );
    assert_eq!(book, after_p5());
}

#[test]
fn p8_renew_with_1000_is_acknowledged() {
    let mut book = after_p5();
    check(
        &mut book,
        CLIENT_1,
        "00 04 0001 00000008  0001 0004 000003E8  0003 0002 00A3  0000 0000",
        "00 05 0001 00000008  0001 0004 000003E8  0002 0006 0001 0A010101  0003 0002 00A3
         0004 0004 EFC00000  0006 0004 000003E8  000A 0006 EFC00002 0002  000B 0004 000003E8  0000 0000",
    );
    assert_eq!(book.leases[0].message_type, 4);
    assert_eq!(book.leases[0].transaction, 8);
}

#[test]
fn p9_lives_at_1999_and_is_gone_at_2000() {
    let getinfo = hex("00 08 0001 00000009  0003 0002 00A3  0000 0000");
    let mut book = after_p3();
    assert_eq!(call(&mut book, CLIENT_1, 1999, &getinfo).0, 0);
    assert_eq!((book.clock, book.leases.len()), (1999, 2));
    assert_eq!(call(&mut book, CLIENT_1, 2000, &getinfo).0, 0);
    assert_eq!((book.clock, book.leases.len()), (2000, 1));
    assert_eq!(book.leases[0].house, 2);
}

#[test]
fn p10_eleven_octets_are_4() {
    let eleven = hex("00 03 0001 00000001 0000 00");
    assert_eq!(
        call(&mut specimen_book(), CLIENT_1, 1000, &eleven),
        (4, vec![])
    );
}

#[test]
fn p11_header_and_end_alone_are_5() {
    let bare = hex("00 03 0001 00000001 0000 0000");
    assert_eq!(
        call(&mut specimen_book(), CLIENT_1, 1000, &bare),
        (5, vec![])
    );
}

#[test]
fn p12_release_of_an_identifier_not_held() {
    check(
        &mut after_p3(),
        CLIENT_1,
        "00 07 00 01 01 02 03 04 00 03 00 02 00 41 00 00 00 00",
        "00 06 00 01 01 02 03 04 00 02 00 06 00 01 0A 01 01 01 00 03 00 02 00 41 00 10 00 02 00 03 00 00 00 00",
    );
}

/// A REQUEST of house 1 with a Current Time, at the clock 10,000.
fn with_current_time(time: u32) -> (u8, Vec<u8>) {
    let request = datagram(
        3,
        9,
        &[
            (3, &[0, 0x41]),
            (4, &hex("EFC00000")),
            (11, &time.to_be_bytes()),
        ],
    );
    call(&mut specimen_book(), CLIENT_1, 10_000, &request)
}

#[test]
fn skew_1800_passes_and_1801_is_error_2() {
    for time in [8_200, 11_800] {
        let (outcome, reply) = with_current_time(time);
        assert_eq!((outcome, reply[1]), (0, 5));
    }
    for time in [8_199, 11_801] {
        let (outcome, reply) = with_current_time(time);
        assert_eq!((outcome, error_of(&reply)), (0, Some(2)));
    }
}

#[test]
fn board_after_p3() {
    let text = "scope house share limit holds\n239.192.0.0 1 2 3 2\n239.192.0.0 2 1 4 2\n";
    assert_eq!(board_text(&after_p3()), text);
}
