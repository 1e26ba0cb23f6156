//! Salvage of a campus file (W-212): what is kept, what is dropped and by which rule, and the refusals.

mod common;

use common::*;
use second::file::{file_of, read, LONGEST_FILE};
use second::octets::hex as in_hex;
use second::salvage::{salvage, salvage_text, salvaged, Dropped};
use second::sound::{first_broken_by_records, first_broken_by_releases};
use second::{sound, Book, Hold, Lease, Name, Quota, Release, Scope, ScopeNames};

/// What is dropped, as (kind, place, rule).
type Triple = (u8, u8, u8);

/// What is left of a book's file and what is dropped. The new file is accepted, isn't longer, and has nothing more to
/// drop; settings, clock and names are as they were.
fn left(book: &Book) -> (Book, Vec<Triple>) {
    let file = file_of(book);
    let (kept, dropped) = salvaged(&file).expect("something is left");
    let new = file_of(&kept);
    assert_eq!(read(&new), Ok(kept.clone()));
    assert!(new.len() <= file.len());
    assert_eq!(salvaged(&new), Ok((kept.clone(), vec![])));
    let records = kept.leases.len() + kept.holds.len() + kept.releases.len();
    let all = book.leases.len() + book.holds.len() + book.releases.len();
    assert_eq!(records + dropped.len(), all);
    let settings = Book {
        leases: book.leases.clone(),
        holds: book.holds.clone(),
        releases: book.releases.clone(),
        ..kept.clone()
    };
    assert_eq!(settings, *book);
    let triple = |d: Dropped| (d.kind, d.place, d.rule);
    (kept, dropped.into_iter().map(triple).collect())
}

/// What is dropped of a book's file.
fn dropped(book: &Book) -> Vec<Triple> {
    left(book).1
}

/// The specimens' book with these.
fn book(leases: &[Lease], holds: &[Hold], releases: &[Release]) -> Book {
    let mut book = specimen_book();
    book.leases = leases.to_vec();
    book.holds = holds.to_vec();
    book.releases = releases.to_vec();
    book
}

/// A sound lease of house 1 on .0, changed, is dropped by this rule, beside one of house 2 on .3 that stays. So is a
/// hold with the same changed.
fn broken(rule: u8, change: impl Fn(&mut Lease)) {
    lease_broken(rule, &change);
    let mut changed = hold(1, b"aa", (1000, 2000), &[0], 1030);
    change(&mut changed.lease);
    let other = lease(2, b"zz", 1000, 2000, &[3]);
    assert_eq!(dropped(&book(&[other], &[changed], &[])), [(2, 1, rule)]);
}

/// A lease alone.
fn lease_broken(rule: u8, change: impl Fn(&mut Lease)) {
    let mut changed = lease(1, b"aa", 1000, 2000, &[0]);
    change(&mut changed);
    let other = lease(2, b"zz", 1000, 2000, &[3]);
    let mut both = book(&[changed.clone(), other], &[], &[]);
    both.leases.sort_by(|a, b| a.house.cmp(&b.house));
    let place = 1 + both
        .leases
        .iter()
        .position(|l| *l == changed)
        .expect("there") as u8;
    assert_eq!(dropped(&both), [(1, place, rule)]);
}

/// A hold, changed, is dropped by this rule.
fn hold_broken(rule: u8, change: impl Fn(&mut Hold)) {
    let mut changed = hold(1, b"aa", (1000, 2000), &[0], 1030);
    change(&mut changed);
    assert_eq!(dropped(&book(&[], &[changed], &[])), [(2, 1, rule)]);
}

#[test]
fn a_sound_file_comes_back_octet_for_octet_with_count_0() {
    let mut sound_book = book(
        &[
            lease(1, b"aa", 1000, 2000, &[0]),
            lease(2, b"aa", 1000, 2000, &[3]),
        ],
        &[hold(1, b"bb", (2000, 3000), &[0, 1], 1030)],
        &[release(1, b"cc", 7, 1000), release(2, b"bb", 7, 0)],
    );
    sound_book.names[0].campus = vec![Name {
        flags: 128,
        tag: b"en".to_vec(),
        text: b"A".to_vec(),
    }];
    assert!(sound(&sound_book));
    for book in [specimen_book(), sound_book] {
        let file = file_of(&book);
        let text = format!("file {}\ndropped 0000\n", in_hex(&file));
        assert_eq!(salvage_text(&file), text);
        assert_eq!(left(&book), (book, vec![]));
    }
}

#[test]
fn rule_1_identifier_lengths() {
    for length in [0, 1, 33, 255] {
        broken(1, |lease| lease.identifier = vec![7; length]);
    }
    for length in [2, 32] {
        let fits = lease(1, &vec![7; length], 1000, 2000, &[0]);
        assert_eq!(dropped(&book(&[fits], &[], &[])), []);
    }
}

/// So many leases of a house, one after the other on .0.
fn many(house: u8, count: u8) -> Vec<Lease> {
    let one = |n: u8| {
        let start = 2000 + u32::from(n);
        lease(house, &[1, n], start, start + 1, &[0])
    };
    (0..count).map(one).collect()
}

/// The same as holds, after them.
fn many_holds(house: u8, count: u8) -> Vec<Hold> {
    let one = |n: u8| {
        let start = 3000 + u32::from(n);
        hold(house, &[2, n], (start, start + 1), &[0], 1030)
    };
    (0..count).map(one).collect()
}

#[test]
fn rule_1_a_seventeenth_record_of_the_house() {
    assert_eq!(dropped(&book(&many(1, 16), &[], &[])), []);
    let drops = dropped(&book(&many(1, 18), &[], &[]));
    assert_eq!(drops, [(1, 17, 1), (1, 18, 1)]);
    assert_eq!(dropped(&book(&[], &many_holds(1, 17), &[])), [(2, 17, 1)]);
    // Together with the leases, which outrank the holds.
    let both = book(&many(1, 15), &many_holds(1, 2), &[]);
    assert_eq!(dropped(&both), [(2, 2, 1)]);
    // Those that are dropped take none.
    let mut seventeen = many(1, 17);
    seventeen[4].message_type = 9;
    assert_eq!(dropped(&book(&seventeen, &[], &[])), [(1, 5, 7)]);
    // It comes before rule 8: an identifier twice where no record is left.
    let mut again = many(1, 17);
    again[16].identifier = again[15].identifier.clone();
    assert_eq!(dropped(&book(&again, &[], &[])), [(1, 17, 1)]);
}

#[test]
fn rule_2_offsets_below_the_size() {
    for offsets in [&[4][..], &[0, 4], &[0, 1, 2, 3, 4], &[255]] {
        broken(2, |lease| lease.offsets = offsets.to_vec());
    }
    // More than 64 addresses, of a known scope or none.
    for count in [65, 255] {
        broken(2, |lease| lease.offsets = (0..count).collect());
        broken(2, |lease| {
            lease.offsets = (0..count).collect();
            lease.scope = 9;
        });
    }
}

#[test]
fn rule_7_each_of_its_parts() {
    for house in [0, 3, 9, 255] {
        lease_broken(7, |lease| lease.house = house);
        hold_broken(7, |hold| hold.lease.house = house);
    }
    for scope in [0, 2, 5, 255] {
        broken(7, |lease| lease.scope = scope);
    }
    for kind in [0, 1, 2, 5, 7, 255] {
        lease_broken(7, |lease| lease.message_type = kind);
    }
    broken(7, |lease| lease.start = lease.end);
    broken(7, |lease| lease.start = lease.end + 1);
    broken(7, |lease| (lease.start, lease.end) = (500, 1000));
    broken(7, |lease| (lease.start, lease.end) = (500, 999));
    broken(7, |lease| lease.offsets.clear());
    // Both sides of the boundary.
    let ends_next = lease(1, b"aa", 1000, 1001, &[0]);
    assert_eq!(dropped(&book(&[ends_next], &[], &[])), []);
}

#[test]
fn rule_8_identifiers_differ_within_a_house() {
    let first = lease(1, b"aa", 1000, 2000, &[0]);
    let same = lease(1, b"aa", 3000, 4000, &[0]);
    let others = lease(2, b"aa", 1000, 2000, &[1]);
    let twice = book(&[first.clone(), same.clone(), others], &[], &[]);
    let (kept, drops) = left(&twice);
    assert_eq!((&kept.leases[0], drops), (&first, vec![(1, 2, 8)]));
    // A hold beside a lease, and beside a hold.
    let held = hold(1, b"aa", (5000, 6000), &[0], 1030);
    let drops = dropped(&book(&[first], std::slice::from_ref(&held), &[]));
    assert_eq!(drops, [(2, 1, 8)]);
    let mut again = held.clone();
    (again.lease.start, again.lease.end) = (7000, 8000);
    assert_eq!(dropped(&book(&[], &[held, again], &[])), [(2, 2, 8)]);
}

#[test]
fn rule_9_no_address_has_two_houses() {
    // At another time too, which 10 would pass.
    let first = lease(1, b"aa", 1000, 2000, &[0, 1]);
    let later = lease(2, b"aa", 3000, 4000, &[1, 2]);
    assert_eq!(
        dropped(&book(&[first.clone(), later], &[], &[])),
        [(1, 2, 9)]
    );
    let held = hold(2, b"aa", (3000, 4000), &[1], 1030);
    assert_eq!(dropped(&book(&[first], &[held], &[])), [(2, 1, 9)]);
}

#[test]
fn rule_10_leases_on_one_address_do_not_overlap() {
    let first = lease(1, b"aa", 1000, 2000, &[0, 1]);
    let with = |start, offset| lease(1, b"bb", start, start + 1000, &[offset]);
    let drops = |other| dropped(&book(&[first.clone(), other], &[], &[]));
    assert_eq!(drops(with(1999, 1)), [(1, 2, 10)]);
    assert_eq!(drops(with(2000, 1)), []);
    assert_eq!(drops(with(1999, 2)), []);
    let held = hold(1, b"bb", (1999, 3000), &[1], 1030);
    assert_eq!(dropped(&book(&[first], &[held], &[])), [(2, 1, 10)]);
}

#[test]
fn rule_11_each_holding_at_most_its_limit() {
    // House 1 has limit 3.
    let three = lease(1, b"aa", 1000, 2000, &[0, 1, 2]);
    let fourth = lease(1, b"bb", 1000, 2000, &[3]);
    assert_eq!(
        dropped(&book(&[three.clone(), fourth], &[], &[])),
        [(1, 2, 11)]
    );
    let held = hold(1, b"bb", (1000, 2000), &[3], 1030);
    assert_eq!(dropped(&book(&[three], &[held], &[])), [(2, 1, 11)]);
    // All at once, the first one too.
    let four = lease(1, b"aa", 1000, 2000, &[0, 1, 2, 3]);
    assert_eq!(dropped(&book(&[four], &[], &[])), [(1, 1, 11)]);
}

#[test]
fn rule_12_the_sum_of_larger_of_holding_and_share() {
    // House 2 has limit 4, and house 1 share 2 of 4.
    let three = lease(2, b"aa", 1000, 2000, &[1, 2, 3]);
    assert_eq!(dropped(&book(&[three], &[], &[])), [(1, 1, 12)]);
    let two = lease(2, b"aa", 1000, 2000, &[2, 3]);
    let held = hold(2, b"bb", (1000, 2000), &[1], 1030);
    assert_eq!(dropped(&book(&[two], &[held], &[])), [(2, 1, 12)]);
}

#[test]
fn rule_13_a_holds_type_and_lapse() {
    for kind in [0, 2, 3, 4, 255] {
        hold_broken(13, |hold| hold.lease.message_type = kind);
    }
    for lapse in [0, 999, 1000, 1031, u32::MAX] {
        hold_broken(13, |hold| hold.lapse = lapse);
    }
    hold_broken(13, |hold| {
        (hold.lease.start, hold.lease.end) = (1000, 1010);
        hold.lapse = 1011;
    });
    for (lapse, end) in [(1001, 2000), (1030, 2000), (1010, 1010)] {
        let fits = hold(1, b"aa", (1000, end), &[0], lapse);
        assert_eq!(dropped(&book(&[], &[fits], &[])), []);
    }
}

#[test]
fn a_hold_with_end_at_the_clock_breaks_7_and_not_13() {
    hold_broken(7, |hold| {
        (hold.lease.start, hold.lease.end) = (500, 1000);
        hold.lapse = 1000;
    });
    hold_broken(7, |hold| {
        (hold.lease.start, hold.lease.end) = (500, 1000);
        hold.lapse = 1030;
        hold.lease.message_type = 3;
    });
}

#[test]
fn rule_13_is_the_last_and_every_hold_counts_before_it() {
    // Of type 3, or lapsed, or lapsing too late: whatever else they break comes first.
    let one = lease(1, b"aa", 1000, 2000, &[0, 1]);
    let changes: [fn(&mut Hold); 4] = [
        |hold| hold.lease.message_type = 3,
        |hold| hold.lapse = 1000,
        |hold| hold.lapse = 1,
        |hold| hold.lapse = 1031,
    ];
    for change in changes {
        let first_rule = |mut held: Hold, rule| {
            change(&mut held);
            let both = book(std::slice::from_ref(&one), &[held], &[]);
            assert_eq!(dropped(&both), [(2, 1, rule)]);
        };
        first_rule(hold(1, b"aa", (1000, 2000), &[3], 1030), 8);
        first_rule(hold(2, b"aa", (3000, 4000), &[1], 1030), 9);
        first_rule(hold(1, b"bb", (1999, 3000), &[1], 1030), 10);
        first_rule(hold(1, b"bb", (3000, 4000), &[2, 3], 1030), 11);
        first_rule(hold(2, b"bb", (3000, 4000), &[2, 3], 1030), 13);
    }
    // House 2's third, where house 1 has its share.
    let mut three = hold(2, b"bb", (3000, 4000), &[1, 2, 3], 1030);
    three.lapse = 1000;
    assert_eq!(dropped(&book(&[], &[three], &[])), [(2, 1, 12)]);
}

#[test]
fn the_lowest_number_counts() {
    // A short identifier, an offset at the size, an unknown scope, no period: rule by rule is mended.
    let mut bad = lease(1, b"a", 2000, 2000, &[1, 4]);
    let other = lease(1, b"\0\0", 1000, 3000, &[1, 2]);
    let drops = |bad: &Lease| dropped(&book(&[other.clone(), bad.clone()], &[], &[]));
    assert_eq!(drops(&bad), [(1, 2, 1)]);
    bad.identifier = b"aa".to_vec();
    assert_eq!(drops(&bad), [(1, 2, 2)]);
    bad.offsets = vec![0, 1, 3];
    assert_eq!(drops(&bad), [(1, 2, 7)]);
    bad.end = 2001;
    assert_eq!(drops(&bad), [(1, 2, 10)]);
    bad.offsets = vec![0, 3];
    assert_eq!(drops(&bad), [(1, 2, 11)]);
    bad.offsets = vec![3];
    assert_eq!(drops(&bad), []);
}

#[test]
fn what_needs_an_unknown_house_or_scope_is_passed_over() {
    // An offset that no scope of ours has, in a scope that isn't there; a bad identifier of a house that isn't.
    lease_broken(7, |lease| (lease.scope, lease.offsets) = (2, vec![63]));
    lease_broken(7, |lease| (lease.scope, lease.offsets) = (2, vec![255]));
    lease_broken(1, |lease| (lease.house, lease.identifier) = (3, vec![1]));
    lease_broken(1, |lease| (lease.scope, lease.identifier) = (3, vec![1]));
    lease_broken(2, |lease| (lease.house, lease.offsets) = (3, vec![4]));
    // A seventeenth of a house that isn't there.
    let strangers = book(&many(9, 18), &[], &[]);
    let all: Vec<Triple> = (1..=18).map(|place| (1, place, 7)).collect();
    assert_eq!(dropped(&strangers), all);
    // A hold of an unknown house with a wrong type.
    hold_broken(7, |hold| {
        (hold.lease.house, hold.lease.message_type) = (0, 9)
    });
}

#[test]
fn rules_14_to_18_of_a_release() {
    let drops = |releases: &[Release]| {
        let leases = [lease(1, b"aa", 1000, 2000, &[0])];
        let holds = [hold(2, b"bb", (1000, 2000), &[3], 1030)];
        dropped(&book(&leases, &holds, releases))
    };
    for house in [0, 3, 9, 200] {
        assert_eq!(drops(&[release(house, b"cc", 1, 0)]), [(3, 1, 14)]);
    }
    let five: Vec<Release> = (0..6).map(|n| release(1, &[9, n], 1, n.into())).collect();
    assert_eq!(drops(&five), [(3, 5, 15), (3, 6, 15)]);
    for length in [0, 1, 33, 255] {
        assert_eq!(drops(&[release(1, &vec![9; length], 1, 0)]), [(3, 1, 16)]);
    }
    // Repeated, neighbours or not; on a lease; on a hold. Another house's are no matter.
    let twice = [release(1, b"cc", 1, 0), release(1, b"cc", 2, 1)];
    assert_eq!(drops(&twice), [(3, 2, 17)]);
    let apart = [
        release(1, b"cc", 1, 0),
        release(1, b"dd", 1, 0),
        release(1, b"cc", 1, 0),
    ];
    assert_eq!(drops(&apart), [(3, 3, 17)]);
    assert_eq!(drops(&[release(1, b"aa", 1, 0)]), [(3, 1, 17)]);
    assert_eq!(drops(&[release(2, b"bb", 1, 0)]), [(3, 1, 17)]);
    assert_eq!(
        drops(&[release(1, b"bb", 1, 0), release(2, b"aa", 1, 0)]),
        []
    );
    assert_eq!(drops(&[release(1, b"cc", 1, 1001)]), [(3, 1, 18)]);
    assert_eq!(drops(&[release(1, b"cc", 1, 1000)]), []);
}

#[test]
fn of_a_releases_rules_too_the_lowest_counts() {
    let four: Vec<Release> = (0..4).map(|n| release(1, &[9, n], 1, 0)).collect();
    let drops = |last: Release| {
        let mut releases = four.clone();
        releases.push(last);
        dropped(&book(&[], &[], &releases))
    };
    // Unknown house, bad identifier, after the clock.
    assert_eq!(drops(release(3, b"", 1, 1001)), [(3, 5, 14)]);
    // A fifth with a bad identifier, or repeated, or after the clock.
    assert_eq!(drops(release(1, b"", 1, 1001)), [(3, 5, 15)]);
    assert_eq!(drops(release(1, &[9, 0], 1, 1001)), [(3, 5, 15)]);
    // A bad identifier after the clock; repeated after the clock.
    assert_eq!(drops(release(2, b"x", 1, 1001)), [(3, 5, 16)]);
    let twice = [release(2, b"xx", 1, 5), release(2, b"xx", 1, 1001)];
    assert_eq!(dropped(&book(&[], &[], &twice)), [(3, 2, 17)]);
}

#[test]
fn the_oldest_four_releases_are_kept_and_dropped_ones_do_not_count() {
    let mut releases: Vec<Release> = (0..6).map(|n| release(1, &[9, n], 1, n.into())).collect();
    releases[1].identifier = vec![9];
    let (kept, drops) = left(&book(&[], &[], &releases));
    assert_eq!(drops, [(3, 2, 16), (3, 6, 15)]);
    let times: Vec<u32> = kept.releases.iter().map(|release| release.time).collect();
    assert_eq!(times, [0, 2, 3, 4]);
}

#[test]
fn leases_go_first_then_holds_then_releases() {
    // The hold stands behind the releases in the file, and a lease outranks it; the release is on both.
    let leases = [lease(1, b"bb", 1000, 2000, &[0])];
    let holds = [
        hold(1, b"aa", (1500, 3000), &[0], 1030),
        hold(1, b"cc", (2000, 3000), &[0], 1030),
    ];
    let releases = [release(1, b"aa", 1, 0), release(1, b"cc", 1, 0)];
    let (kept, drops) = left(&book(&leases, &holds, &releases));
    assert_eq!(drops, [(2, 1, 10), (3, 2, 17)]);
    // A release on the identifier of what is dropped is kept.
    assert_eq!(kept.releases, releases[..1]);
    // Of two leases the first in the file is kept, whichever it is.
    let two = [
        lease(1, b"aa", 1000, 2000, &[0]),
        lease(1, b"bb", 1500, 2500, &[0]),
        lease(1, b"cc", 2000, 3000, &[0]),
    ];
    let (kept, drops) = left(&book(&two, &[], &[]));
    assert_eq!(drops, [(1, 2, 10)]);
    assert_eq!(kept.leases, [two[0].clone(), two[2].clone()]);
}

#[test]
fn places_are_those_of_the_section_as_it_was_read() {
    let mut leases = many(1, 5);
    leases[1].start = leases[1].end;
    leases[3].message_type = 0;
    let mut holds = many_holds(1, 3);
    holds[2].lapse = 0;
    let releases = [
        release(1, b"cc", 1, 0),
        release(1, &[1, 0], 1, 0),
        release(1, &[1, 1], 1, 0),
    ];
    let drops = dropped(&book(&leases, &holds, &releases));
    assert_eq!(drops, [(1, 2, 7), (1, 4, 7), (2, 3, 13), (3, 2, 17)]);
}

#[test]
fn the_count_of_the_list_has_two_octets_high_first() {
    let bad_lease = Lease {
        message_type: 0,
        ..lease(1, b"aa", 1000, 2000, &[0])
    };
    let bad_hold = hold(1, b"aa", (1000, 2000), &[0], 0);
    let bad_release = release(1, b"", 1, 0);
    let all = book(
        &vec![bad_lease; 255],
        &vec![bad_hold; 255],
        &vec![bad_release; 255],
    );
    let text = salvage_text(&file_of(&all));
    let (file, list) = text.split_once('\n').expect("two lines");
    assert_eq!(file, format!("file {}", in_hex(&file_of(&specimen_book()))));
    // Of 255 releases the fifth and later would break 15, but none is kept.
    let mut due = "dropped 02fd".to_string();
    for (kind, rule) in [(1, 7), (2, 13), (3, 16)] {
        due.extend((1..=255).map(|place| format!("{kind:02x}{place:02x}{rule:02x}")));
    }
    assert_eq!(list, due + "\n");
}

/// What a file and two rooms come to; a refusal has to write nothing.
fn in_rooms(file: &[u8], room: usize, list: usize) -> Result<(Vec<u8>, Vec<u8>), u8> {
    let (mut file_room, mut list_room) = (vec![0xA5; room], vec![0x5A; list]);
    let result = salvage(file, &mut file_room, &mut list_room);
    let (length, listed) = result.unwrap_or((0, 0));
    assert!(file_room[length..].iter().all(|&octet| octet == 0xA5));
    assert!(list_room[listed..].iter().all(|&octet| octet == 0x5A));
    file_room.truncate(length);
    list_room.truncate(listed);
    result.map(|_| (file_room, list_room))
}

#[test]
fn a_room_too_short_is_23_and_one_that_just_fits_is_not() {
    let sound_book = book(&many(1, 2), &[], &[]);
    let mut damaged = sound_book.clone();
    damaged.releases = vec![release(7, b"cc", 1, 0)];
    let new = file_of(&sound_book);
    for (file, list) in [
        (file_of(&sound_book), vec![0, 0]),
        (file_of(&damaged), vec![0, 1, 3, 1, 14]),
    ] {
        let (fits, listed) = (new.len(), list.len());
        let both = Ok((new.clone(), list));
        assert_eq!(in_rooms(&file, fits, listed), both);
        assert_eq!(in_rooms(&file, fits + 1, listed + 9), both);
        for (room, list) in [
            (fits - 1, listed),
            (fits, listed - 1),
            (0, listed),
            (fits, 0),
            (0, 0),
        ] {
            assert_eq!(in_rooms(&file, room, list), Err(23));
        }
    }
}

#[test]
fn a_wrong_form_is_20_before_all_else() {
    let good = file_of(&book(&many(1, 2), &many_holds(1, 2), &[]));
    let mut bad_names = specimen_book();
    bad_names.names[0].campus = vec![Name {
        flags: 1,
        tag: b"en".to_vec(),
        text: b"A".to_vec(),
    }];
    let mut no_order = book(&many(1, 2), &[], &[]);
    no_order.leases.reverse();
    let mut no_order_of_holds = book(&[], &many_holds(1, 2), &[]);
    no_order_of_holds.holds.reverse();
    let times = [release(1, b"aa", 1, 5), release(1, b"bb", 1, 4)];
    let offsets = lease(1, b"aa", 1000, 2000, &[1, 0]);
    let mut unsound_too = bad_names.clone();
    unsound_too.scopes[0].ttl = 0;
    let mut files = vec![
        vec![],
        good[..good.len() - 1].to_vec(),
        [&good[..], &[0]].concat(),
        vec![0; LONGEST_FILE + 1],
    ];
    for book in [
        bad_names,
        no_order,
        no_order_of_holds,
        book(&[], &[], &times),
        book(&[offsets], &[], &[]),
        unsound_too,
    ] {
        files.push(file_of(&book));
    }
    for file in files {
        assert_eq!(salvage_text(&file), "refused 20\n");
        assert_eq!(in_rooms(&file, 0, 0), Err(20));
    }
}

#[test]
fn settings_that_are_unsound_by_themselves_are_25() {
    let scope = |lowest, size, ttl| Scope {
        lowest,
        size,
        ttl,
        quotas: vec![Quota { share: 0, limit: 0 }; 2],
    };
    let changes: [&dyn Fn(&mut Book); 13] = [
        &|book| {
            book.houses.clear();
            book.scopes[0].quotas.clear();
            book.names = vec![ScopeNames::none(0)];
        },
        &|book| {
            book.scopes.clear();
            book.names.clear();
        },
        &|book| {
            let lowest = |n: u32| 0xE100_0000 + (n << 8);
            book.scopes = (0..5).map(|n| scope(lowest(n), 1, 1)).collect();
            book.names = vec![ScopeNames::none(2); 5];
        },
        &|book| book.scopes = vec![scope(0xEFC0_0000, 0, 1)],
        &|book| book.scopes = vec![scope(0xEFC0_0000, 65, 1)],
        &|book| book.houses[0].lowest = book.houses[0].highest + 1,
        &|book| book.houses[1].lowest = book.houses[0].highest,
        &|book| book.scopes[0].lowest = 0xEFFF_FFFE,
        &|book| book.scopes[0].lowest = 0xDFFF_FFFF,
        &|book| book.scopes[0].ttl = 0,
        &|book| book.scopes[0].quotas[0].share = 4,
        &|book| book.scopes[0].quotas[1].limit = 5,
        &|book| book.scopes[0].quotas = vec![Quota { share: 3, limit: 3 }; 2],
    ];
    for (number, change) in changes.iter().enumerate() {
        for leases in [vec![], many(1, 20)] {
            let mut changed = book(&leases, &[], &[]);
            change(&mut changed);
            let file = file_of(&changed);
            assert_eq!(salvage_text(&file), "refused 25\n", "{number}");
            // Before a room too short.
            assert_eq!(in_rooms(&file, 0, 0), Err(25), "{number}");
        }
    }
}

/// A file with much wrong in it, by a few octets of each record.
fn damaged(random: &mut Random) -> Book {
    let mut any = |number: u8| {
        let start = 1000 + random.below(6) as u32 * 500;
        let identifier = vec![random.below(6) as u8; random.pick(&[1, 2, 2, 2, 2, 2, 3, 33])];
        let mut offsets: Vec<u8> = (0..5).filter(|_| random.chance(25)).collect();
        if number == 0 {
            offsets = (0..random.pick(&[0, 65])).collect();
        }
        Lease {
            house: random.pick(&[1, 1, 1, 2, 2, 2, 2, 0, 3]),
            scope: random.pick(&[1, 1, 1, 1, 1, 1, 1, 2]),
            message_type: random.pick(&[3, 3, 3, 3, 1, 4]),
            ..lease(1, &identifier, start, start + 500, &offsets)
        }
    };
    let mut book = specimen_book();
    book.leases = (0..14).map(&mut any).collect();
    let holds: Vec<Lease> = (0..8).map(&mut any).collect();
    book.holds = holds
        .into_iter()
        .map(|lease| Hold {
            lapse: random.pick(&[1030, 1030, 1010, 1000, 1031]),
            lease: Lease {
                message_type: random.pick(&[1, 1, 1, 3]),
                ..lease
            },
        })
        .collect();
    let mut one = |_| Release {
        house: random.pick(&[1, 1, 2, 2, 2, 3]),
        identifier: vec![random.below(6) as u8; random.pick(&[1, 2, 2, 2, 3])],
        transaction: 1,
        time: random.pick(&[1, 2, 999, 1000, 1001]),
    };
    book.releases = (0..12).map(&mut one).collect();
    book.leases
        .sort_by(|a, b| (a.house, &a.identifier).cmp(&(b.house, &b.identifier)));
    book.holds.sort_by(|a, b| {
        (a.lease.house, &a.lease.identifier).cmp(&(b.lease.house, &b.lease.identifier))
    });
    book.releases
        .sort_by_key(|release| (release.house, release.time));
    book
}

#[test]
fn on_any_file_each_one_kept_leaves_the_book_sound_and_each_one_dropped_does_not() {
    let mut random = Random::new(212);
    let mut rules = std::collections::BTreeMap::new();
    for _ in 0..400 {
        let book = damaged(&mut random);
        let (kept, drops) = left(&book);
        assert!(sound(&kept));
        for (kind, place, rule) in drops {
            *rules.entry((kind, rule)).or_insert(0) += 1;
            // What more is kept later can only break more.
            let mut with_it = kept.clone();
            let place = usize::from(place) - 1;
            let first = match kind {
                1 => {
                    with_it.insert(book.leases[place].clone());
                    first_broken_by_records(&with_it)
                }
                2 => {
                    with_it.insert_hold(book.holds[place].clone());
                    first_broken_by_records(&with_it)
                }
                _ => {
                    with_it.releases.push(book.releases[place].clone());
                    first_broken_by_releases(&with_it)
                }
            };
            assert!(first.is_some_and(|first| first <= rule));
            assert!(!sound(&with_it));
        }
    }
    // Every rule occurs, of leases and holds both.
    let seen: Vec<_> = rules.keys().copied().collect();
    let due: Vec<(u8, u8)> = [1, 2]
        .iter()
        .flat_map(|&kind| [1, 2, 7, 8, 9, 10, 11, 12, 13].map(|rule| (kind, rule)))
        .chain([14, 15, 16, 17, 18].map(|rule| (3, rule)))
        .filter(|&pair| pair != (1, 13))
        .collect();
    assert_eq!(seen, due, "{rules:?}");
}
