//! Document 01's specimens P1 to P12, with whole datagrams, replies and campus files.

mod common;

use banshorra_host::CampusFile;
use common::*;

const OF_P1: &[u8] = &[0x00, 0xB1];
const OF_P3: &[u8] = &[0x00, 0xA3];
const OF_P5: &[u8] = &[0x00, 0xA5];

fn lease(house: u8, of: &[u8], transaction: u32, period: (u32, u32), offsets: &[u8]) -> Lease {
    Lease {
        house,
        scope: 1,
        identifier: of.to_vec(),
        kind: REQUEST,
        transaction,
        start: period.0,
        end: period.1,
        offsets: offsets.to_vec(),
    }
}

fn lease_of_p1() -> Lease {
    lease(2, OF_P1, 1, (1000, 4600), &[0, 1])
}

fn lease_of_p3() -> Lease {
    lease(1, OF_P3, 3, (1000, 2000), &[2, 3])
}

fn lease_of_p5() -> Lease {
    lease(1, OF_P5, 5, (2000, 5600), &[2, 3])
}

/// House 2, least 1, desired 4.
fn p1() -> CampusFile {
    let mut campus = specimen();
    let request = message(REQUEST, 1, &[identifier(OF_P1), scope(POOL), number(1, 4)]);
    let reply = ack(1, OF_P1, (1000, 3600), (0, 2), 1000);
    assert_eq!(call(&mut campus, HOUSE_2, 1000, &request), (0, reply));
    assert_eq!(campus.as_bytes(), file_at(1000, &[lease_of_p1()]));
    campus
}

/// After P1, house 1, least 2, desired 3, Lease Time 1000.
fn p3() -> CampusFile {
    let mut campus = p1();
    let options = [
        lease_time(1000),
        identifier(OF_P3),
        scope(POOL),
        number(2, 3),
    ];
    let request = message(REQUEST, 3, &options);
    let reply = ack(3, OF_P3, (1000, 1000), (2, 2), 1000);
    assert_eq!(call(&mut campus, HOUSE_1, 1000, &request), (0, reply));
    let leases = [lease_of_p3(), lease_of_p1()];
    assert_eq!(campus.as_bytes(), file_at(1000, &leases));
    campus
}

/// House 1, least 2, desired 2, from a start.
fn two_from(start: u32, transaction: u32) -> Vec<u8> {
    let options = [
        identifier(OF_P5),
        scope(POOL),
        start_time(start),
        number(2, 2),
        current_time(1000),
    ];
    message(REQUEST, transaction, &options)
}

/// After P3, from 2000.
fn p5() -> CampusFile {
    let mut campus = p3();
    let reply = ack(5, OF_P5, (2000, 3600), (2, 2), 1000);
    assert_eq!(
        call(&mut campus, HOUSE_1, 1000, &two_from(2000, 5)),
        (0, reply)
    );
    let leases = [lease_of_p3(), lease_of_p5(), lease_of_p1()];
    assert_eq!(campus.as_bytes(), file_at(1000, &leases));
    campus
}

/// A call that draws a NAK and changes nothing.
fn refused(mut campus: CampusFile, client: std::net::Ipv4Addr, datagram: &[u8], nak: Vec<u8>) {
    let before = campus.clone();
    assert_eq!(call(&mut campus, client, 1000, datagram), (0, nak));
    assert_eq!(campus, before);
}

#[test]
fn p1_gets_0_and_1() {
    p1();
    // The paper's octets of the Ranges.
    assert_eq!(range(POOL, 2).1, [0xEF, 0xC0, 0x00, 0x00, 0x00, 0x02]);
}

#[test]
fn p2_with_least_3_is_error_0() {
    let request = message(REQUEST, 2, &[identifier(OF_P1), scope(POOL), number(3, 4)]);
    refused(specimen(), HOUSE_2, &request, nak(2, OF_P1, 0));
}

#[test]
fn p3_gets_2_and_3() {
    p3();
}

#[test]
fn p4_with_least_3_is_error_0() {
    let request = message(REQUEST, 4, &[identifier(OF_P3), scope(POOL), number(3, 3)]);
    refused(p1(), HOUSE_1, &request, nak(4, OF_P3, 0));
}

#[test]
fn p5_from_2000_gets_2_and_3() {
    p5();
}

#[test]
fn p6_from_1999_is_error_0() {
    refused(p3(), HOUSE_1, &two_from(1999, 6), nak(6, OF_P5, 0));
}

#[test]
fn p7_renew_of_p3_with_1001_is_error_0() {
    let renew = message(RENEW, 7, &[lease_time(1001), identifier(OF_P3)]);
    refused(p5(), HOUSE_1, &renew, nak(7, OF_P3, 0));
}

#[test]
fn p8_renew_of_p3_with_1000_is_acknowledged() {
    let mut campus = p5();
    let renew = message(RENEW, 8, &[lease_time(1000), identifier(OF_P3)]);
    let reply = ack(8, OF_P3, (1000, 1000), (2, 2), 1000);
    assert_eq!(call(&mut campus, HOUSE_1, 1000, &renew), (0, reply));
    let renewed = Lease {
        kind: RENEW,
        transaction: 8,
        ..lease_of_p3()
    };
    let leases = [renewed, lease_of_p5(), lease_of_p1()];
    assert_eq!(campus.as_bytes(), file_at(1000, &leases));
}

#[test]
fn p9_p3s_lease_lives_at_1999_and_is_gone_at_2000() {
    let mut campus = p3();
    let getinfo = message(GETINFO, 9, &[identifier(OF_P3)]);
    let reply = message(ACK, 9, &[server_identifier(SERVER), identifier(OF_P3)]);
    assert_eq!(
        call(&mut campus, HOUSE_1, 1999, &getinfo),
        (0, reply.clone())
    );
    let leases = [lease_of_p3(), lease_of_p1()];
    assert_eq!(campus.as_bytes(), file_at(1999, &leases));
    assert_eq!(call(&mut campus, HOUSE_1, 2000, &getinfo), (0, reply));
    assert_eq!(campus.as_bytes(), file_at(2000, &[lease_of_p1()]));
}

#[test]
fn p10_eleven_octets_are_4() {
    let mut campus = specimen();
    let eleven = &message(REQUEST, 10, &[])[..11];
    assert_eq!(call(&mut campus, HOUSE_1, 1000, eleven), (4, vec![]));
    assert_eq!(campus, specimen());
}

#[test]
fn p11_header_and_end_alone_are_5() {
    let mut campus = specimen();
    let bare = message(REQUEST, 11, &[]);
    assert_eq!(call(&mut campus, HOUSE_1, 1000, &bare), (5, vec![]));
    assert_eq!(campus, specimen());
}

#[test]
fn p12_release_of_an_identifier_not_held() {
    let release = [
        0x00, 0x07, 0x00, 0x01, 0x01, 0x02, 0x03, 0x04, 0x00, 0x03, 0x00, 0x02, 0x00, 0x41, 0x00,
        0x00, 0x00, 0x00,
    ];
    let reply = vec![
        0x00, 0x06, 0x00, 0x01, 0x01, 0x02, 0x03, 0x04, 0x00, 0x02, 0x00, 0x06, 0x00, 0x01, 0x0A,
        0x01, 0x01, 0x01, 0x00, 0x03, 0x00, 0x02, 0x00, 0x41, 0x00, 0x10, 0x00, 0x02, 0x00, 0x03,
        0x00, 0x00, 0x00, 0x00,
    ];
    refused(p3(), HOUSE_1, &release, reply);
}

#[test]
fn skew_1800_passes_and_1801_is_error_2() {
    let with = |time| {
        let options = [identifier(OF_P3), scope(POOL), current_time(time)];
        let mut campus = specimen();
        call(
            &mut campus,
            HOUSE_1,
            10_000,
            &message(REQUEST, 13, &options),
        )
    };
    for time in [8_200, 11_800] {
        let reply = ack(13, OF_P3, (10_000, 3600), (0, 1), 10_000);
        assert_eq!(with(time), (0, reply));
    }
    for time in [8_199, 11_801] {
        assert_eq!(with(time), (0, nak(13, OF_P3, 2)));
    }
}

#[test]
fn the_board_after_p3() {
    let text = "scope house share limit holds\n239.192.0.0 1 2 3 2\n239.192.0.0 2 1 4 2\n";
    assert_eq!(p3().board(), text);
}

#[test]
fn a_file_taken_up_again_goes_on_as_before() {
    let mut campus = CampusFile::from_bytes(p3().as_bytes()).expect("sound");
    let reply = ack(5, OF_P5, (2000, 3600), (2, 2), 1000);
    assert_eq!(
        call(&mut campus, HOUSE_1, 1000, &two_from(2000, 5)),
        (0, reply)
    );
    assert_eq!(campus, p5());
}
