//! One test for each rule of a sound book: just inside it, and just outside.

mod common;

use common::*;
use second::file::{read, write, LONGEST_FILE};
use second::{serve, sound, Book, Hold, House, Name, Quota, Scope, ScopeNames};

/// The specimens' book with a change.
fn changed(change: impl FnOnce(&mut Book)) -> Book {
    let mut book = specimen_book();
    change(&mut book);
    book
}

/// Sound, for the reader, the writer and the server too.
fn accepted(change: impl FnOnce(&mut Book)) {
    let mut book = changed(change);
    assert!(sound(&book));
    let mut room = vec![0; LONGEST_FILE];
    let length = write(&book, &mut room).expect("a length");
    assert_eq!(read(&room[..length]), Ok(book.clone()));
    // An empty datagram gets past the tests 1 and 2, to 3 or 4.
    let (outcome, ..) = serve(&mut book, &[], STRANGER, 0, &mut [0; 512]);
    assert!([3, 4].contains(&outcome));
}

/// Unsound: 22 for the writer, 1 for the server, and neither changes anything.
fn refused(change: impl FnOnce(&mut Book)) {
    let book = changed(change);
    assert!(!sound(&book));
    let mut room = vec![7; LONGEST_FILE];
    assert_eq!(write(&book, &mut room), Err(22));
    assert!(room.iter().all(|&octet| octet == 7));
    let mut served = book.clone();
    let mut room = [7; 512];
    assert_eq!(
        serve(&mut served, &[], STRANGER, 5_000, &mut room),
        (1, 0, 0, 0)
    );
    assert_eq!((served, room), (book, [7; 512]));
}

/// A book of so many houses and scopes, with share 0 and limit 1 throughout.
fn wide(book: &mut Book, houses: u32, scopes: u32) {
    book.houses = (0..houses)
        .map(|number| House {
            lowest: number,
            highest: number,
        })
        .collect();
    book.scopes = (0..scopes)
        .map(|number| Scope {
            lowest: 0xE000_0000 + number,
            size: 1,
            ttl: 1,
            quotas: vec![Quota { share: 0, limit: 1 }; houses as usize],
        })
        .collect();
    book.names = vec![ScopeNames::none(houses as usize); scopes as usize];
}

#[test]
fn houses_1_to_8() {
    refused(|book| wide(book, 0, 1));
    accepted(|book| wide(book, 1, 1));
    accepted(|book| wide(book, 8, 1));
    refused(|book| wide(book, 9, 1));
}

#[test]
fn scopes_1_to_4() {
    refused(|book| wide(book, 1, 0));
    accepted(|book| wide(book, 1, 4));
    refused(|book| wide(book, 1, 5));
}

#[test]
fn addresses_in_a_scope_1_to_64() {
    let size = |size| {
        move |book: &mut Book| {
            wide(book, 1, 1);
            book.scopes[0].size = size;
            book.scopes[0].quotas[0].limit = 0;
        }
    };
    refused(size(0));
    accepted(size(1));
    accepted(size(64));
    refused(size(65));
}

#[test]
fn a_share_and_limit_for_each_house() {
    refused(|book| {
        book.scopes[0].quotas.pop();
    });
    refused(|book| book.scopes[0].quotas.push(Quota { share: 0, limit: 0 }));
}

#[test]
fn sixteen_leases_to_a_house() {
    let leases = |count: u8| {
        move |book: &mut Book| {
            book.leases = (0..count)
                .map(|number| {
                    let start = 1000 + u32::from(number);
                    lease(1, &[0, number], start, start + 1, &[0])
                })
                .collect();
        }
    };
    accepted(leases(16));
    refused(leases(17));
}

#[test]
fn identifiers_of_2_to_32_octets() {
    let length = |length| {
        move |book: &mut Book| book.leases = vec![lease(1, &vec![0; length], 1000, 1001, &[0])]
    };
    refused(length(0));
    refused(length(1));
    accepted(length(2));
    accepted(length(32));
    refused(length(33));
}

#[test]
fn offsets_below_the_size() {
    accepted(|book| book.leases = vec![lease(1, &[0, 1], 1000, 1001, &[3])]);
    refused(|book| book.leases = vec![lease(1, &[0, 1], 1000, 1001, &[4])]);
}

#[test]
fn offsets_rise() {
    accepted(|book| book.leases = vec![lease(1, &[0, 1], 1000, 1001, &[0, 2])]);
    refused(|book| book.leases = vec![lease(1, &[0, 1], 1000, 1001, &[2, 0])]);
    refused(|book| book.leases = vec![lease(1, &[0, 1], 1000, 1001, &[2, 2])]);
}

#[test]
fn client_ranges_not_empty() {
    accepted(|book| book.houses[0].highest = book.houses[0].lowest);
    refused(|book| book.houses[0].highest = book.houses[0].lowest - 1);
}

#[test]
fn client_ranges_disjoint() {
    accepted(|book| book.houses[0].highest = book.houses[1].lowest - 1);
    refused(|book| book.houses[0].highest = book.houses[1].lowest);
    accepted(|book| book.houses[0].lowest = 0);
    accepted(|book| book.houses[1].highest = u32::MAX);
    refused(|book| book.houses[1] = book.houses[0].clone());
    refused(|book| {
        book.houses[0].lowest = 0;
        book.houses[0].highest = u32::MAX;
    });
}

#[test]
fn pools_inside_224_0_0_0_to_239_255_255_255() {
    accepted(|book| book.scopes[0].lowest = 0xE000_0000);
    refused(|book| book.scopes[0].lowest = 0xDFFF_FFFF);
    accepted(|book| book.scopes[0].lowest = 0xEFFF_FFFC);
    refused(|book| book.scopes[0].lowest = 0xEFFF_FFFD);
    refused(|book| book.scopes[0].lowest = 0xFFFF_FFFF);
}

#[test]
fn pools_disjoint() {
    let second_at = |lowest| {
        move |book: &mut Book| {
            let mut second = book.scopes[0].clone();
            second.lowest = lowest;
            book.scopes.push(second);
            book.names.push(ScopeNames::none(2));
        }
    };
    accepted(second_at(0xEFC0_0004));
    refused(second_at(0xEFC0_0003));
    refused(second_at(0xEFC0_0000));
    refused(second_at(0xEFBF_FFFD));
    accepted(second_at(0xEFBF_FFFC));
}

#[test]
fn ttl_not_0() {
    accepted(|book| book.scopes[0].ttl = 255);
    refused(|book| book.scopes[0].ttl = 0);
}

#[test]
fn share_at_most_limit_at_most_size() {
    accepted(|book| book.scopes[0].quotas[0] = Quota { share: 0, limit: 0 });
    accepted(|book| book.scopes[0].quotas[0] = Quota { share: 3, limit: 3 });
    refused(|book| book.scopes[0].quotas[0] = Quota { share: 3, limit: 2 });
    refused(|book| book.scopes[0].quotas[0] = Quota { share: 2, limit: 5 });
}

#[test]
fn shares_together_at_most_size() {
    accepted(|book| book.scopes[0].quotas[1].share = 2);
    refused(|book| book.scopes[0].quotas[1].share = 3);
}

#[test]
fn leases_name_a_known_house_and_scope() {
    for house in [0, 3, 200] {
        refused(|book| book.leases = vec![lease(house, &[0, 1], 1000, 1001, &[0])]);
    }
    for scope in [0, 2, 200] {
        refused(|book| {
            book.leases = vec![lease(1, &[0, 1], 1000, 1001, &[0])];
            book.leases[0].scope = scope;
        });
    }
}

#[test]
fn leases_have_type_3_or_4() {
    let with_type = |message_type| {
        move |book: &mut Book| {
            book.leases = vec![lease(1, &[0, 1], 1000, 1001, &[0])];
            book.leases[0].message_type = message_type;
        }
    };
    accepted(with_type(3));
    accepted(with_type(4));
    for message_type in [0, 1, 2, 5, 7, 255] {
        refused(with_type(message_type));
    }
}

#[test]
fn start_before_end() {
    accepted(|book| book.leases = vec![lease(1, &[0, 1], 1999, 2000, &[0])]);
    refused(|book| book.leases = vec![lease(1, &[0, 1], 2000, 2000, &[0])]);
    refused(|book| book.leases = vec![lease(1, &[0, 1], 2001, 2000, &[0])]);
}

#[test]
fn periods_need_not_keep_longest_lease_or_horizon() {
    accepted(|book| book.leases = vec![lease(1, &[0, 1], 0, u32::MAX, &[0])]);
    accepted(|book| book.leases = vec![lease(1, &[0, 1], u32::MAX - 1, u32::MAX, &[0])]);
}

#[test]
fn end_after_the_clock() {
    accepted(|book| book.leases = vec![lease(1, &[0, 1], 500, 1001, &[0])]);
    refused(|book| book.leases = vec![lease(1, &[0, 1], 500, 1000, &[0])]);
    accepted(|book| book.clock = u32::MAX);
}

#[test]
fn leases_have_an_address() {
    refused(|book| book.leases = vec![lease(1, &[0, 1], 1000, 1001, &[])]);
}

#[test]
fn identifiers_differ_within_a_house() {
    refused(|book| {
        book.leases = vec![
            lease(1, &[0, 1], 1000, 1001, &[0]),
            lease(1, &[0, 1], 1001, 1002, &[1]),
        ];
    });
    accepted(|book| {
        book.leases = vec![
            lease(1, &[0, 1], 1000, 1001, &[0]),
            lease(2, &[0, 1], 1000, 1001, &[1]),
        ];
    });
}

#[test]
fn leases_stand_in_the_files_order() {
    accepted(|book| {
        book.leases = vec![
            lease(1, &[0, 1], 1000, 1001, &[0]),
            lease(1, &[0, 1, 0], 1000, 1001, &[1]),
            lease(1, &[0, 2], 1001, 1002, &[0]),
        ];
    });
    refused(|book| {
        book.leases = vec![
            lease(1, &[0, 1, 0], 1000, 1001, &[0]),
            lease(1, &[0, 1], 1000, 1001, &[1]),
        ];
    });
    refused(|book| {
        book.leases = vec![
            lease(2, &[0, 1], 1000, 1001, &[0]),
            lease(1, &[0, 1], 1000, 1001, &[1]),
        ];
    });
}

#[test]
fn no_address_has_two_houses() {
    refused(|book| {
        book.leases = vec![
            lease(1, &[0, 1], 1000, 1001, &[0]),
            lease(2, &[0, 1], 2000, 2001, &[0]),
        ];
    });
}

#[test]
fn leases_on_one_address_dont_overlap() {
    let second_from = |start| {
        move |book: &mut Book| {
            book.leases = vec![
                lease(1, &[0, 1], 1000, 2000, &[0, 1]),
                lease(1, &[0, 2], start, 3000, &[1]),
            ];
        }
    };
    accepted(second_from(2000));
    refused(second_from(1999));
}

#[test]
fn holdings_at_most_their_limit() {
    let held = |offsets: &'static [u8]| {
        move |book: &mut Book| {
            book.scopes[0].quotas[1].share = 0;
            book.leases = vec![
                lease(1, &[0, 1], 1000, 2000, &[0]),
                lease(1, &[0, 2], 2000, 3000, offsets),
            ];
        }
    };
    accepted(held(&[0, 1, 2]));
    refused(held(&[1, 2, 3]));
}

#[test]
fn per_scope_the_larger_of_holding_and_share_at_most_size() {
    accepted(|book| book.leases = vec![lease(2, &[0, 1], 1000, 1001, &[0, 1])]);
    refused(|book| book.leases = vec![lease(2, &[0, 1], 1000, 1001, &[0, 1, 2])]);
}

/// A name of given flags and lengths.
fn name(flags: u8, tag: usize, text: usize) -> Name {
    Name {
        flags,
        tag: vec![b'e'; tag],
        text: vec![b'A'; text],
    }
}

/// A list is accepted, as the campus list of the scope and as house 2's own.
fn accepted_list(list: &[Name]) {
    accepted(|book| book.names[0].campus = list.to_vec());
    accepted(|book| book.names[0].houses[1] = list.to_vec());
}

/// A list is refused in either place.
fn refused_list(list: &[Name]) {
    refused(|book| book.names[0].campus = list.to_vec());
    refused(|book| book.names[0].houses[1] = list.to_vec());
}

#[test]
fn names_for_each_scope() {
    refused(|book| book.names.clear());
    refused(|book| book.names.push(ScopeNames::none(2)));
    refused(|book| {
        wide(book, 2, 2);
        book.names.pop();
    });
    accepted(|book| wide(book, 2, 2));
}

#[test]
fn a_list_of_names_for_each_house() {
    refused(|book| book.names[0] = ScopeNames::none(0));
    refused(|book| book.names[0] = ScopeNames::none(1));
    accepted(|book| book.names[0] = ScopeNames::none(2));
    refused(|book| book.names[0] = ScopeNames::none(3));
    refused(|book| {
        wide(book, 2, 2);
        book.names[1].houses.pop();
    });
}

#[test]
fn four_names_in_a_list() {
    for count in 0..=4 {
        accepted_list(&vec![name(0, 2, 5); count]);
    }
    refused_list(&vec![name(0, 2, 5); 5]);
    refused_list(&vec![name(0, 2, 5); 256]);
}

#[test]
fn flags_0_or_128() {
    for flags in 0..=255 {
        if flags == 0 || flags == 128 {
            accepted_list(&[name(flags, 2, 5)]);
        } else {
            refused_list(&[name(flags, 2, 5)]);
        }
    }
    refused_list(&[name(0, 1, 1), name(128, 1, 1), name(1, 1, 1)]);
}

#[test]
fn tags_of_1_to_8_octets() {
    refused_list(&[name(0, 0, 5)]);
    accepted_list(&[name(0, 1, 5)]);
    accepted_list(&[name(0, 8, 5)]);
    refused_list(&[name(0, 9, 5)]);
    // 258 octets aren't 2.
    refused_list(&[name(0, 258, 5)]);
}

#[test]
fn texts_of_1_to_32_octets() {
    refused_list(&[name(0, 2, 0)]);
    accepted_list(&[name(0, 2, 1)]);
    accepted_list(&[name(0, 2, 32)]);
    refused_list(&[name(0, 2, 33)]);
    refused_list(&[name(0, 2, 258)]);
}

#[test]
fn releases_name_a_known_house() {
    for house in [1, 2] {
        accepted(|book| book.releases = vec![release(house, &[0, 1], 1, 1000)]);
    }
    for house in [0, 3, 200] {
        refused(|book| book.releases = vec![release(house, &[0, 1], 1, 1000)]);
    }
}

#[test]
fn four_releases_to_a_house() {
    let releases = |house: u8, count: usize| {
        (0..count).map(move |number| release(house, &[number as u8, 7], 1, 1000))
    };
    for house in [1, 2] {
        accepted(|book| book.releases = releases(house, 4).collect());
        refused(|book| book.releases = releases(house, 5).collect());
    }
    accepted(|book| book.releases = releases(1, 4).chain(releases(2, 4)).collect());
    refused(|book| book.releases = releases(1, 3).chain(releases(2, 5)).collect());
    refused(|book| book.releases = releases(1, 256).collect());
}

#[test]
fn released_identifiers_of_2_to_32_octets() {
    let length =
        |length| move |book: &mut Book| book.releases = vec![release(1, &vec![0; length], 1, 1000)];
    for (octets, is_sound) in [
        (0, false),
        (1, false),
        (2, true),
        (32, true),
        (33, false),
        (258, false),
    ] {
        if is_sound {
            accepted(length(octets));
        } else {
            refused(length(octets));
        }
    }
}

#[test]
fn released_identifiers_differ_within_a_house() {
    let two = |first, second| move |book: &mut Book| book.releases = vec![first, second];
    refused(two(
        release(1, &[0, 1], 1, 1000),
        release(1, &[0, 1], 1, 1000),
    ));
    refused(two(
        release(1, &[0, 1], 1, 900),
        release(1, &[0, 1], 2, 1000),
    ));
    accepted(two(
        release(1, &[0, 1], 1, 1000),
        release(1, &[0, 2], 1, 1000),
    ));
    accepted(two(
        release(1, &[0, 1], 1, 1000),
        release(2, &[0, 1], 1, 1000),
    ));
    refused(|book| {
        book.releases = vec![
            release(1, &[0, 1], 1, 1000),
            release(1, &[0, 2], 1, 1000),
            release(1, &[0, 1], 1, 1000),
        ];
    });
}

#[test]
fn no_release_on_a_lease_of_the_house() {
    let leased_by = |house| {
        move |book: &mut Book| {
            book.leases = vec![lease(house, &[0, 1], 1000, 1001, &[0])];
            book.releases = vec![release(1, &[0, 1], 1, 1000), release(2, &[0, 2], 1, 1000)];
        }
    };
    refused(leased_by(1));
    accepted(leased_by(2));
    // A lease of next week counts too.
    refused(|book| {
        book.leases = vec![lease(2, &[0, 2], 500_000, 600_000, &[0])];
        book.releases = vec![release(2, &[0, 2], 1, 1000)];
    });
}

#[test]
fn releases_not_after_the_clock() {
    for time in [0, 999, 1000] {
        accepted(|book| book.releases = vec![release(1, &[0, 1], 1, time)]);
    }
    for time in [1001, u32::MAX] {
        refused(|book| book.releases = vec![release(1, &[0, 1], 1, time)]);
    }
    accepted(|book| {
        book.clock = u32::MAX;
        book.releases = vec![release(1, &[0, 1], 1, u32::MAX)];
    });
}

#[test]
fn releases_stand_by_house_oldest_first() {
    let in_order = |houses_and_times: &'static [(u8, u32)]| {
        move |book: &mut Book| {
            book.releases = (0..)
                .zip(houses_and_times)
                .map(|(number, (house, time))| release(*house, &[number, 0], 1, *time))
                .collect();
        }
    };
    accepted(in_order(&[(1, 900), (1, 900), (1, 1000), (2, 0), (2, 1)]));
    refused(in_order(&[(2, 1000), (1, 1000)]));
    refused(in_order(&[(1, 1000), (2, 1000), (1, 1000)]));
    refused(in_order(&[(1, 1000), (1, 999)]));
    refused(in_order(&[(1, 0), (2, 1), (2, 0)]));
}

/// The specimens' book with one hold of house 1 on .0 from 1000 to 2000 that lapses at 1030, and this change.
fn with_hold(change: impl FnOnce(&mut Hold)) -> impl FnOnce(&mut Book) {
    move |book| {
        let mut hold = hold(1, &[0, 1], (1000, 2000), &[0], 1030);
        change(&mut hold);
        book.holds = vec![hold];
    }
}

#[test]
fn holds_have_type_1() {
    accepted(with_hold(|_| ()));
    for message_type in [0, 2, 3, 4, 255] {
        refused(with_hold(|hold| hold.lease.message_type = message_type));
    }
}

#[test]
fn holds_lapse_after_the_clock_and_at_most_thirty_seconds_after_it() {
    for lapse in [1001, 1029, 1030] {
        accepted(with_hold(|hold| hold.lapse = lapse));
    }
    for lapse in [0, 999, 1000, 1031, u32::MAX] {
        refused(with_hold(|hold| hold.lapse = lapse));
    }
    // No sum wraps at the clock's end.
    for (clock, is_sound) in [(u32::MAX - 1, true), (u32::MAX, false)] {
        let at_the_end = |book: &mut Book| {
            book.clock = clock;
            book.holds = vec![hold(1, &[0, 1], (1000, u32::MAX), &[0], u32::MAX)];
        };
        if is_sound {
            accepted(at_the_end);
        } else {
            refused(at_the_end);
        }
    }
}

#[test]
fn holds_lapse_not_after_their_end() {
    accepted(with_hold(|hold| hold.lease.end = 1030));
    refused(with_hold(|hold| hold.lease.end = 1029));
}

#[test]
fn what_is_asked_of_a_lease_is_asked_of_a_hold() {
    refused(with_hold(|hold| hold.lease.house = 3));
    refused(with_hold(|hold| hold.lease.scope = 0));
    refused(with_hold(|hold| hold.lease.identifier = vec![1]));
    refused(with_hold(|hold| hold.lease.identifier = vec![1; 33]));
    refused(with_hold(|hold| hold.lease.start = 2000));
    refused(with_hold(|hold| hold.lease.offsets = vec![]));
    refused(with_hold(|hold| hold.lease.offsets = vec![4]));
    refused(with_hold(|hold| hold.lease.offsets = vec![1, 0]));
    refused(with_hold(|hold| hold.lease.offsets = vec![1, 1]));
    // Its period may be of the past or of next year.
    accepted(with_hold(|hold| hold.lease.start = 0));
    accepted(with_hold(|hold| hold.lease.end = u32::MAX));
    accepted(with_hold(|hold| {
        (hold.lease.start, hold.lease.end) = (u32::MAX - 1, u32::MAX);
    }));
}

#[test]
fn sixteen_leases_and_holds_together_to_a_house() {
    let records = |leases: u8, holds: u8| {
        move |book: &mut Book| {
            for number in 0..leases + holds {
                let start = 1000 + u32::from(number);
                let period = (start, start + 1);
                if number < leases {
                    let lease = lease(1, &[0, number], period.0, period.1, &[0]);
                    book.leases.push(lease);
                } else {
                    book.holds.push(hold(1, &[0, number], period, &[0], 1001));
                }
            }
        }
    };
    for leases in [0, 1, 15, 16] {
        accepted(records(leases, 16 - leases));
        refused(records(leases, 17 - leases));
    }
}

/// A book with a lease of house 1 from 1000 to 2000 on .0 and .1, and this hold.
fn beside_a_lease(hold: Hold) -> impl FnOnce(&mut Book) {
    move |book| {
        book.leases = vec![lease(1, &[0, 1], 1000, 2000, &[0, 1])];
        book.holds = vec![hold];
    }
}

#[test]
fn identifiers_of_leases_and_holds_differ_within_a_house() {
    refused(beside_a_lease(hold(1, &[0, 1], (1000, 2000), &[2], 1030)));
    accepted(beside_a_lease(hold(1, &[0, 2], (1000, 2000), &[2], 1030)));
    accepted(beside_a_lease(hold(2, &[0, 1], (1000, 2000), &[2], 1030)));
    refused(|book| {
        book.holds = vec![
            hold(1, &[0, 1], (1000, 2000), &[0], 1030),
            hold(1, &[0, 1], (1000, 2000), &[1], 1030),
        ];
    });
}

#[test]
fn holds_stand_in_the_files_order_by_themselves() {
    let two = |first: (u8, &'static [u8]), second: (u8, &'static [u8])| {
        move |book: &mut Book| {
            book.holds = vec![
                hold(first.0, first.1, (1000, 2000), &[0], 1030),
                hold(second.0, second.1, (1000, 2000), &[1], 1030),
            ];
        }
    };
    accepted(two((1, &[0, 1]), (1, &[0, 1, 0])));
    refused(two((1, &[0, 1, 0]), (1, &[0, 1])));
    accepted(two((1, &[0, 2]), (2, &[0, 1])));
    refused(two((2, &[0, 1]), (1, &[0, 2])));
    accepted(beside_a_lease(hold(1, &[0, 0], (1000, 2000), &[2], 1030)));
}

#[test]
fn holds_keep_houses_overlap_limits_and_shares() {
    // On the lease's .1 before it ends, and as it ends; and another house's.
    refused(beside_a_lease(hold(1, &[0, 2], (1999, 3000), &[1], 1030)));
    accepted(beside_a_lease(hold(1, &[0, 2], (2000, 3000), &[1], 1030)));
    refused(beside_a_lease(hold(2, &[0, 2], (2000, 3000), &[1], 1030)));
    // House 1's limit is 3.
    accepted(beside_a_lease(hold(1, &[0, 2], (1000, 3000), &[2], 1030)));
    refused(beside_a_lease(hold(
        1,
        &[0, 2],
        (1000, 3000),
        &[2, 3],
        1030,
    )));
    // Size 4 less house 1's share of 2.
    accepted(with_hold(|held| {
        *held = hold(2, &[0, 1], (1000, 2000), &[0, 1], 1030)
    }));
    refused(with_hold(|held| {
        *held = hold(2, &[0, 1], (1000, 2000), &[0, 1, 2], 1030)
    }));
}

#[test]
fn no_release_on_a_hold_of_the_house() {
    let held_by = |house| {
        move |book: &mut Book| {
            book.holds = vec![hold(house, &[0, 1], (1000, 2000), &[0], 1030)];
            book.releases = vec![release(1, &[0, 1], 1, 1000)];
        }
    };
    refused(held_by(1));
    accepted(held_by(2));
}
