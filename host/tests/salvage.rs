//! What is kept of campus files that are unsound, what is dropped and by which rule, and the rooms for both.

mod common;

use banshorra_host::Kind::{self, Hold as OfHold, Lease as OfLease, Release as OfRelease};
use banshorra_host::{campus, lent, library, CampusFile, Dropped, Refusal, FILE_ROOM, LIST_ROOM};
use common::*;

fn lease(house: u8, identifier: &[u8], offsets: &[u8]) -> Lease {
    Lease {
        house,
        scope: 1,
        identifier: identifier.to_vec(),
        kind: REQUEST,
        transaction: 7,
        start: 900,
        end: 1020,
        offsets: offsets.to_vec(),
    }
}

fn hold(house: u8, identifier: &[u8], offsets: &[u8]) -> Hold {
    Hold {
        lease: Lease {
            kind: DISCOVER,
            ..lease(house, identifier, offsets)
        },
        lapse: 1010,
    }
}

fn release(house: u8, identifier: &[u8], time: u32) -> Release {
    Release {
        house,
        identifier: identifier.to_vec(),
        transaction: 9,
        time,
    }
}

/// A lease, a hold and a release of either house, in the specimens' campus with a scope of 16: shares 5 and 1, limits 8 and 15.
fn sound() -> Campus {
    let scope = Scope {
        size: 16,
        parts: vec![(5, 8), (1, 15)],
        ..pool()
    };
    Campus {
        holds: vec![hold(1, b"h1", &[2]), hold(2, b"h2", &[3])],
        releases: vec![release(1, b"r1", 990), release(2, b"r2", 1000)],
        ..campus_at(
            CLOCK,
            scope,
            &[lease(1, b"l1", &[0]), lease(2, b"l2", &[1])],
        )
    }
}

type Listed = (Kind, u8, u8);

/// The list of what is dropped; the new file has to be accepted, and to be the old one without it.
fn salvaged(old: &Campus) -> Vec<Listed> {
    let (new, dropped) = CampusFile::salvage(&old.octets()).expect("settings are sound");
    let listed: Vec<Listed> = dropped
        .iter()
        .map(|one| (one.kind, one.place, one.rule))
        .collect();
    let rest = Campus {
        leases: without(&old.leases, OfLease, &listed),
        holds: without(&old.holds, OfHold, &listed),
        releases: without(&old.releases, OfRelease, &listed),
        ..old.clone()
    };
    assert_eq!(new.as_bytes(), rest.octets());
    assert_eq!(lent::check(new.as_bytes()), Ok(()));
    // What is left is sound, so that it stays as it is.
    assert_eq!(CampusFile::salvage(new.as_bytes()), Ok((new, vec![])));
    listed
}

fn without<T: Clone>(all: &[T], kind: Kind, dropped: &[Listed]) -> Vec<T> {
    let is_kept = |place: u8| dropped.iter().all(|one| (one.0, one.1) != (kind, place));
    let kept = (1..=u8::MAX).zip(all).filter(|one| is_kept(one.0));
    kept.map(|(_, one)| one.clone()).collect()
}

/// What is dropped of the sound campus once it is spoiled.
fn spoiled(spoil: impl Fn(&mut Campus)) -> Vec<Listed> {
    let mut campus = sound();
    spoil(&mut campus);
    salvaged(&campus)
}

#[test]
fn a_sound_file_comes_back_as_it_was() {
    assert_eq!(spoiled(|_| ()), []);
    assert_eq!(salvaged(&campus_at(CLOCK, pool(), &[])), []);
}

/// House 2's lease is spoiled, and then its hold: either is dropped by this rule.
fn of_records(rule: u8, spoil: impl Fn(&mut Lease)) {
    let of_lease = spoiled(|campus| spoil(&mut campus.leases[1]));
    assert_eq!(of_lease, [(OfLease, 2, rule)]);
    let of_hold = spoiled(|campus| spoil(&mut campus.holds[1].lease));
    assert_eq!(of_hold, [(OfHold, 2, rule)]);
}

#[test]
fn leases_and_holds_by_each_rule() {
    of_records(1, |lease| lease.identifier = b"z".to_vec());
    of_records(1, |lease| lease.identifier = vec![b'z'; 33]);
    of_records(2, |lease| lease.offsets = vec![4, 16]);
    of_records(2, |lease| lease.offsets = (0..65).collect());
    of_records(7, |lease| lease.house = 3);
    of_records(7, |lease| lease.scope = 0);
    of_records(7, |lease| lease.scope = 2);
    of_records(7, |lease| lease.start = lease.end);
    of_records(7, |lease| (lease.start, lease.end) = (900, CLOCK));
    of_records(7, |lease| lease.offsets = vec![]);
    // House 1 has offset 0, but not then.
    of_records(9, |lease| {
        (lease.offsets, lease.start, lease.end) = (vec![0], 1020, 1030)
    });
    of_records(12, |lease| lease.offsets = (4..16).collect());
}

/// One more lease or hold of house 1, in the file's order.
fn one_more(rule: u8, more: Lease) {
    let of_lease = spoiled(|campus| campus.leases.insert(1, more.clone()));
    assert_eq!(of_lease, [(OfLease, 2, rule)]);
    let of_hold = spoiled(|campus| {
        let (kind, lapse) = (DISCOVER, 1010);
        let lease = Lease {
            kind,
            ..more.clone()
        };
        campus.holds.insert(1, Hold { lease, lapse });
    });
    assert_eq!(of_hold, [(OfHold, 2, rule)]);
}

#[test]
fn one_more_by_rules_8_10_and_11() {
    one_more(10, lease(1, b"zz", &[0, 5]));
    one_more(11, lease(1, b"zz", &[5, 6, 7, 8, 9, 10, 11, 12]));
    let again = spoiled(|campus| campus.leases.insert(1, lease(1, b"l1", &[5])));
    assert_eq!(again, [(OfLease, 2, 8)]);
    // A lease outranks the hold that has its identifier.
    let held = spoiled(|campus| campus.leases.insert(0, lease(1, b"h1", &[5])));
    assert_eq!(held, [(OfHold, 1, 8)]);
}

#[test]
fn a_house_has_sixteen_leases_and_holds() {
    let many = |count: u8| {
        spoiled(|campus| {
            let identifiers = (0..count).map(|number| [b'm', number]);
            let apart = |(id, start): ([u8; 2], u32)| Lease {
                start,
                end: start + 1,
                ..lease(1, &id, &[5])
            };
            let more: Vec<Lease> = identifiers.zip(2000..).map(apart).collect();
            campus.leases.splice(1..1, more);
        })
    };
    assert_eq!(many(14), []);
    assert_eq!(many(15), [(OfHold, 1, 1)]);
    assert_eq!(
        many(17),
        [(OfLease, 17, 1), (OfLease, 18, 1), (OfHold, 1, 1)]
    );
}

#[test]
fn types_by_section() {
    for kind in [0, DISCOVER, 2, 5, 255] {
        let of_lease = spoiled(|campus| campus.leases[0].kind = kind);
        assert_eq!(of_lease, [(OfLease, 1, 7)]);
    }
    assert_eq!(spoiled(|campus| campus.leases[0].kind = RENEW), []);
    for kind in [0, REQUEST, RENEW, 255] {
        let of_hold = spoiled(|campus| campus.holds[0].lease.kind = kind);
        assert_eq!(of_hold, [(OfHold, 1, 13)]);
        // The type of a hold comes last.
        let overlapping = spoiled(|campus| {
            campus.holds[0].lease.kind = kind;
            campus.holds[0].lease.offsets = vec![0];
        });
        assert_eq!(overlapping, [(OfHold, 1, 10)]);
    }
}

#[test]
fn a_holds_lapse() {
    for (lapse, is_kept) in [(999, false), (1000, false), (1001, true)] {
        let dropped = spoiled(|campus| campus.holds[0].lapse = lapse);
        assert_eq!(dropped.is_empty(), is_kept, "{lapse}");
    }
    for (end, lapse, is_kept) in [(1030, 1030, true), (1031, 1031, false), (1009, 1010, false)] {
        let dropped = spoiled(|campus| {
            campus.holds[0].lease.end = end;
            campus.holds[0].lapse = lapse;
        });
        let expected = if is_kept {
            vec![]
        } else {
            vec![(OfHold, 1, 13)]
        };
        assert_eq!(dropped, expected, "{end} {lapse}");
    }
    // An end that has come is rule 7's.
    let ended = spoiled(|campus| (campus.holds[0].lease.end, campus.holds[0].lapse) = (1000, 1000));
    assert_eq!(ended, [(OfHold, 1, 7)]);
}

#[test]
fn releases_by_each_rule() {
    let last = |rule: u8, more: Release| {
        let dropped = spoiled(|campus| campus.releases.push(more.clone()));
        assert_eq!(dropped, [(OfRelease, 3, rule)]);
    };
    last(14, release(3, b"zz", 1000));
    last(16, release(2, b"z", 1000));
    last(16, release(2, &[b'z'; 33], 1000));
    last(17, release(2, b"r2", 1000));
    last(17, release(2, b"l2", 1000));
    last(17, release(2, b"h2", 1000));
    last(18, release(2, b"zz", 1001));
    let unknown = spoiled(|campus| campus.releases.insert(0, release(0, b"zz", 1)));
    assert_eq!(unknown, [(OfRelease, 1, 14)]);
}

#[test]
fn the_oldest_four_releases_are_kept() {
    let more = [b"a1", b"a2", b"a3", b"a4", b"a5"];
    let dropped = spoiled(|campus| {
        let more = more.iter().zip(991..);
        let more: Vec<Release> = more.map(|(id, time)| release(1, *id, time)).collect();
        campus.releases.splice(1..1, more);
    });
    assert_eq!(dropped, [(OfRelease, 5, 15), (OfRelease, 6, 15)]);
    // A fifth with a bad identifier is 15 as well, and one that was dropped leaves its place to the next.
    let dropped = spoiled(|campus| {
        let more = [&b"a1"[..], b"x", b"a3", b"a4", b"y"];
        let more = more.iter().zip(991..);
        let more: Vec<Release> = more.map(|(id, time)| release(1, id, time)).collect();
        campus.releases.splice(1..1, more);
    });
    assert_eq!(dropped, [(OfRelease, 3, 16), (OfRelease, 6, 15)]);
}

#[test]
fn the_lowest_rule_is_named() {
    type Spoil = fn(&mut Lease);
    let spoils: [(u8, Spoil); 4] = [
        (1, |lease| lease.identifier = b"z".to_vec()),
        (2, |lease| lease.offsets = (0..70).collect()),
        (7, |lease| lease.scope = 9),
        (9, |lease| lease.offsets.push(9)),
    ];
    for (at, first) in spoils.iter().enumerate() {
        for second in &spoils[at + 1..] {
            let dropped = spoiled(|campus| {
                campus.leases.insert(0, lease(1, b"a9", &[9]));
                second.1(&mut campus.leases[2]);
                first.1(&mut campus.leases[2]);
            });
            assert_eq!(
                dropped,
                [(OfLease, 3, first.0)],
                "{} and {}",
                first.0,
                second.0
            );
        }
    }
}

#[test]
fn rules_that_need_an_unknown_house_or_scope_are_passed_over() {
    // Offsets of a scope that isn't known can't be above its size, but there may not be more than 64.
    let unknown = |offsets: Vec<u8>| {
        spoiled(|campus| {
            campus.leases[0].scope = 3;
            campus.leases[0].offsets = offsets.clone();
        })
    };
    assert_eq!(unknown(vec![200]), [(OfLease, 1, 7)]);
    assert_eq!(unknown((0..65).collect()), [(OfLease, 1, 2)]);
    // A house that isn't known has no sixteen records to keep to, but its identifiers have a length.
    let strangers = spoiled(|campus| {
        let strangers = (0..20).map(|number| lease(9, &[b's', number], &[9]));
        campus.leases.extend(strangers);
        campus.leases.push(lease(9, b"t", &[9]));
    });
    assert_eq!(
        strangers[..20],
        (3..23).map(|place| (OfLease, place, 7)).collect::<Vec<_>>()
    );
    assert_eq!(strangers[20..], [(OfLease, 23, 1)]);
}

#[test]
fn each_is_judged_with_those_kept_before_it() {
    // The second lease meets the first, which is dropped, and so stays; the release on the dropped one's identifier stays as well.
    let dropped = spoiled(|campus| {
        campus.leases[0].end = CLOCK;
        campus.leases.insert(1, lease(1, b"l2", &[0]));
        campus.releases.insert(1, release(1, b"l1", 991));
    });
    assert_eq!(dropped, [(OfLease, 1, 7)]);
}

#[test]
fn refusals_come_in_their_order_and_write_nothing() {
    let mut broken = sound();
    broken.leases[0].scope = 2;
    let file = broken.octets();
    let (new, dropped) = CampusFile::salvage(&file).expect("settings are sound");
    let (length, listed) = (new.as_bytes().len(), 2 + 3 * dropped.len());
    let refused = |file: &[u8], room: usize, list: usize, number: u8| {
        let (mut new, mut dropped) = (pattern(room), pattern(list));
        let (mut length, mut listed) = (1, 1);
        let got = library::salvage(file, &mut new, &mut length, &mut dropped, &mut listed);
        assert_eq!((got, length, listed), (number, 0, 0));
        assert_eq!((new, dropped), (pattern(room), pattern(list)));
    };
    let shorter = [
        (length - 1, listed),
        (length, listed - 1),
        (length - 1, listed - 1),
        (0, 0),
    ];
    for (room, list) in shorter {
        refused(&file, room, list, 23);
        refused(&file[1..], room, list, 20);
    }
    // Rules 1 and 3 to 6 of the settings.
    let unsettle: [fn(&mut Campus); 6] = [
        |campus| campus.scopes[0].size = 65,
        |campus| campus.houses[0].1 = 0,
        |campus| campus.scopes[0].lowest = 0,
        |campus| campus.scopes[0].ttl = 0,
        |campus| campus.scopes[0].parts[0] = (9, 8),
        |campus| {
            campus.houses.clear();
            campus.scopes[0].parts.clear();
            campus.scopes[0].names.truncate(1);
        },
    ];
    for unsettle in unsettle {
        let mut unsettled = broken.clone();
        unsettle(&mut unsettled);
        refused(&unsettled.octets(), 0, 0, 25);
        refused(&unsettled.octets(), FILE_ROOM, LIST_ROOM, 25);
        assert_eq!(
            CampusFile::salvage(&unsettled.octets()).err(),
            Some(Refusal::Settings)
        );
    }
    // Rooms that are just long enough, and what lies past them.
    for more in [0, 1, 50] {
        let (mut room, mut list) = (pattern(length + more), pattern(listed + more));
        let salvaged = lent::salvage(&file, &mut room, &mut list).expect("rooms are enough");
        assert_eq!(
            (salvaged.file, &salvaged.dropped),
            (new.as_bytes(), &dropped)
        );
        assert_eq!(room[length..], pattern(length + more)[length..]);
        assert_eq!(list[..listed], [0, 1, 1, 1, 7]);
        assert_eq!(list[listed..], pattern(listed + more)[listed..]);
    }
}

#[test]
fn all_that_a_file_can_have_is_listed() {
    let mut campus = sound();
    let (lease, hold) = (lease(9, b"st", &[9]), hold(9, b"st", &[9]));
    campus.leases = vec![lease; 255];
    campus.holds = vec![hold; 255];
    campus.releases = vec![release(9, b"st", 1000); 255];
    let dropped = salvaged(&campus);
    assert_eq!(2 + 3 * dropped.len(), LIST_ROOM);
    let kinds = [(OfLease, 7), (OfHold, 7), (OfRelease, 14)];
    let expected = kinds
        .iter()
        .flat_map(|(kind, rule)| (1..=255).map(move |place| (*kind, place, *rule)));
    assert_eq!(dropped, expected.collect::<Vec<_>>());
}

#[test]
fn in_words() {
    let mut broken = sound();
    broken.leases[1].offsets = vec![0];
    let old = campus::Campus::from_octets(&broken.octets()).expect("right form");
    let words = |kind, place, rule| Dropped { kind, place, rule }.in_words(&old);
    assert_eq!(
        words(OfLease, 2, 9),
        "lease 2 (house 2, \"l2\"): rule 9: no address may have two houses"
    );
    assert_eq!(
        words(OfHold, 1, 10),
        "hold 1 (house 1, \"h1\"): rule 10: leases and holds on an address may not overlap"
    );
    assert_eq!(
        words(OfRelease, 2, 18),
        "release 2 (house 2, \"r2\"): rule 18: a release may not be after the clock"
    );
}
