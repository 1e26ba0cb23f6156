//! A RELEASE sent again: how long its ACK is repeated, what forgets it, the file that remembers it, and sections that are refused.

mod common;

use banshorra_host::{CampusFile, Refusal};
use common::*;
use std::net::Ipv4Addr;

const OF_1: &[u8] = b"ab";

fn lease(house: u8, of: &[u8]) -> Lease {
    Lease {
        house,
        scope: 1,
        identifier: of.to_vec(),
        kind: REQUEST,
        transaction: 1,
        start: CLOCK,
        end: CLOCK + 3600,
        offsets: vec![house - 1],
    }
}

fn released(house: u8, of: &[u8], transaction: u32, time: u32) -> Release {
    Release {
        house,
        identifier: of.to_vec(),
        transaction,
        time,
    }
}

fn campus(leases: &[Lease], releases: &[Release]) -> CampusFile {
    CampusFile::from_bytes(&file_with(CLOCK, leases, releases)).expect("sound")
}

fn release(transaction: u32, of: &[u8]) -> Vec<u8> {
    message(RELEASE, transaction, &[identifier(of)])
}

fn request(transaction: u32, of: &[u8]) -> Vec<u8> {
    message(REQUEST, transaction, &[identifier(of), scope(POOL)])
}

/// A RELEASE that draws its ACK, or else error 3.
fn sends(campus: &mut CampusFile, client: Ipv4Addr, time: u32, (id, of): (u32, &[u8]), ack: bool) {
    let reply = match ack {
        true => release_ack(id, of),
        false => nak(id, of, 3),
    };
    let answer = call(campus, client, time, &release(id, of));
    assert_eq!(answer, (0, reply), "{client} at {time} with {id}");
}

#[test]
fn it_is_acknowledged_again_for_299_seconds() {
    let mut one = campus(&[lease(1, OF_1)], &[]);
    sends(&mut one, HOUSE_1, CLOCK + 5, (7, OF_1), true);
    let remembered = [released(1, OF_1, 7, CLOCK + 5)];
    // The time that is remembered isn't renewed.
    for (after, ack) in [(0, true), (1, true), (299, true), (300, false)] {
        let time = CLOCK + 5 + after;
        sends(&mut one, HOUSE_1, time, (7, OF_1), ack);
        assert_eq!(one.as_bytes(), file_with(time, &[], &remembered));
    }
    // It stays in the file, and an earlier time doesn't put the clock back.
    sends(&mut one, HOUSE_1, CLOCK + 5, (7, OF_1), false);
    sends(&mut one, HOUSE_1, CLOCK + 9000, (7, OF_1), false);
    let file = file_with(CLOCK + 9000, &[], &remembered);
    assert_eq!(one.as_bytes(), file);
}

#[test]
fn house_identifier_and_transaction_id_have_to_agree() {
    let remembered = [
        released(1, OF_1, 7, CLOCK),
        released(2, b"abc", 8, CLOCK - 10),
    ];
    let mut both = campus(&[], &remembered);
    sends(&mut both, HOUSE_1, CLOCK, (8, OF_1), false);
    sends(&mut both, HOUSE_1, CLOCK, (7, b"abc"), false);
    sends(&mut both, HOUSE_1, CLOCK, (8, b"abc"), false);
    sends(&mut both, HOUSE_2, CLOCK, (7, OF_1), false);
    sends(&mut both, HOUSE_2, CLOCK, (8, b"abc"), true);
    sends(&mut both, HOUSE_1, CLOCK, (7, OF_1), true);
    assert_eq!(both, campus(&[], &remembered));
    assert_eq!(
        call(&mut both, STRANGER, CLOCK, &release(7, OF_1)),
        (3, vec![])
    );
}

#[test]
fn an_option_that_isnt_allowed_is_no_matter() {
    let options = [identifier(OF_1), lease_time(0), features([&[9], &[], &[]])];
    let due = [
        server_identifier(SERVER),
        identifier(OF_1),
        features([&[]; 3]),
    ];
    let mut one = campus(&[], &[released(1, OF_1, 7, CLOCK)]);
    let again = message(RELEASE, 7, &options);
    let reply = message(ACK, 7, &due);
    assert_eq!(call(&mut one, HOUSE_1, CLOCK + 299, &again), (0, reply));
    // Later it is judged as new: error 1.
    let answer = call(
        &mut one,
        HOUSE_1,
        CLOCK + 300,
        &message(RELEASE, 7, &options[..2]),
    );
    assert_eq!(answer, (0, nak(7, OF_1, 1)));
}

#[test]
fn a_new_lease_forgets_it_and_the_same_release_then_releases_it() {
    let remembered = [released(1, OF_1, 7, CLOCK), released(2, OF_1, 7, CLOCK)];
    let mut both = campus(&[], &remembered);
    // A DISCOVER and a REQUEST that are refused forget nothing.
    let discover = message(DISCOVER, 2, &[identifier(OF_1), scope(POOL), number(4, 4)]);
    assert_eq!(call(&mut both, HOUSE_1, CLOCK, &discover).0, 8);
    let refused = message(REQUEST, 3, &[identifier(OF_1), scope(POOL), number(4, 4)]);
    let answer = call(&mut both, HOUSE_1, CLOCK, &refused);
    assert_eq!(answer, (0, nak(3, OF_1, 0)));
    assert_eq!(both, campus(&[], &remembered));
    let reply = ack(4, OF_1, (CLOCK, 3600), (0, 1), CLOCK);
    let answer = call(&mut both, HOUSE_1, CLOCK, &request(4, OF_1));
    assert_eq!(answer, (0, reply));
    let leased = Lease {
        transaction: 4,
        ..lease(1, OF_1)
    };
    assert_eq!(both, campus(&[leased], &remembered[1..]));
    sends(&mut both, HOUSE_1, CLOCK, (7, OF_1), true);
    assert_eq!(both, campus(&[], &remembered));
}

#[test]
fn a_fifth_of_the_house_forgets_the_oldest() {
    let names: [&[u8]; 5] = [b"zz", b"ab", b"xx", b"aa", b"mm"];
    let mut both = campus(&[], &[released(2, b"ab", 7, CLOCK)]);
    let mut remembered = vec![];
    for (place, of) in names.into_iter().enumerate() {
        assert_eq!(call(&mut both, HOUSE_1, CLOCK, &request(1, of)).0, 0);
        // The first two at one time.
        let time = CLOCK + 10 * (place as u32).max(1);
        sends(&mut both, HOUSE_1, time, (7, of), true);
        remembered.push(released(1, of, 7, time));
    }
    remembered.remove(0);
    remembered.push(released(2, b"ab", 7, CLOCK));
    let file = file_with(CLOCK + 40, &[], &remembered);
    assert_eq!(both.as_bytes(), file);
    for (place, of) in names.into_iter().enumerate() {
        sends(&mut both, HOUSE_1, CLOCK + 40, (7, of), place > 0);
    }
    sends(&mut both, HOUSE_2, CLOCK + 40, (7, b"ab"), true);
    assert_eq!(both.as_bytes(), file);
}

#[test]
fn at_the_end_of_time_it_is_known_for_good() {
    let last = u32::MAX;
    let file = file_with(last - 1, &[], &[released(1, OF_1, 7, last - 299)]);
    let mut one = CampusFile::from_bytes(&file).expect("sound");
    sends(&mut one, HOUSE_1, last, (7, OF_1), true);
    sends(&mut one, HOUSE_1, last, (7, OF_1), true);
}

fn refusal(leases: &[Lease], releases: &[Release]) -> Option<Refusal> {
    CampusFile::from_bytes(&file_with(CLOCK, leases, releases)).err()
}

#[test]
fn unsound_releases_are_21() {
    let one = |house: u8, length: usize, time: u32| released(house, &vec![b'i'; length], 7, time);
    for (release, is_sound) in [
        (one(1, 2, 0), true),
        (one(2, 32, CLOCK), true),
        (one(0, 2, CLOCK), false),
        (one(3, 2, CLOCK), false),
        (one(9, 2, CLOCK), false),
        (one(255, 2, CLOCK), false),
        (one(1, 0, CLOCK), false),
        (one(1, 1, CLOCK), false),
        (one(1, 33, CLOCK), false),
        (one(1, 255, CLOCK), false),
        (one(1, 2, CLOCK + 1), false),
        (one(1, 2, u32::MAX), false),
    ] {
        let due = (!is_sound).then_some(Refusal::Unsound);
        assert_eq!(
            refusal(&[], std::slice::from_ref(&release)),
            due,
            "{release:?}"
        );
    }
    let of = |house: u8, of: &[u8]| released(house, of, 7, CLOCK);
    let four = [of(1, b"aa"), of(1, b"bb"), of(1, b"cc"), of(1, b"dd")];
    let five = [&four[..], &[of(1, b"ee")]].concat();
    let eight = [&four[..], &four.clone().map(|r| Release { house: 2, ..r })].concat();
    let next_to = [of(1, b"aa"), of(1, b"aa")];
    let apart = [of(1, b"aa"), of(1, b"bb"), released(1, b"aa", 8, CLOCK)];
    for (releases, is_sound) in [
        (&four[..], true),
        (&eight, true),
        (&five, false),
        (&next_to, false),
        (&apart, false),
    ] {
        let due = (!is_sound).then_some(Refusal::Unsound);
        assert_eq!(refusal(&[], releases), due, "{releases:?}");
    }
    // An identifier that the house has a lease on; another house's lease is no matter.
    for (house, due) in [(1, Some(Refusal::Unsound)), (2, None)] {
        assert_eq!(refusal(&[lease(1, OF_1)], &[of(house, OF_1)]), due);
    }
}

#[test]
fn a_section_out_of_order_or_of_another_length_is_20() {
    let of = |house: u8, of: &[u8], time: u32| released(house, of, 7, time);
    for releases in [
        [of(2, b"aa", 1), of(1, b"bb", 2)],
        [of(200, b"aa", 1), of(9, b"bb", 2)],
        [of(1, b"aa", 2), of(1, b"bb", 1)],
    ] {
        assert_eq!(refusal(&[], &releases), Some(Refusal::Form));
    }
    // Times begin again with each house.
    assert_eq!(refusal(&[], &[of(1, b"aa", 2), of(2, b"bb", 1)]), None);
    let [front, names, _, holds] = campus_at(CLOCK, pool(), &[]).sections();
    let one = of(1, b"aa", 1).octets();
    for (section, due) in [
        (vec![0], None),
        ([&[1], &one[..]].concat(), None),
        (vec![], Some(Refusal::Form)),
        (vec![0, 0], Some(Refusal::Form)),
        (vec![1], Some(Refusal::Form)),
        ([&[0], &one[..]].concat(), Some(Refusal::Form)),
        ([&[2], &one[..]].concat(), Some(Refusal::Form)),
        ([&[1], &one[..11]].concat(), Some(Refusal::Form)),
    ] {
        let file = [&front[..], &names, &section, &holds].concat();
        assert_eq!(CampusFile::from_bytes(&file).err(), due, "{section:?}");
    }
}
