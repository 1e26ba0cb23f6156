//! Campus files with one thing wrong: each part of each rule of a sound book (21), and each rule of form (20). And a few that are nearly wrong,
//! which are accepted.

use crate::campus::{holding, is_fresh, new_lease, sound, HIGHEST_POOL, LOWEST_POOL, RECORDS};
use crate::damage_holds as held;
use crate::holds::{lapse, of_lease, HOLD_TIME};
use crate::names::{self, LONGEST_TAG, LONGEST_TEXT, MOST_NAMES};
use crate::random::Random;
use crate::releases::{new_release, MOST_RELEASES};
use crate::{LAST_TIME, LONGEST_FILE, LONGEST_LEASE};
use builder::{Campus, Hold, Lease, Name, Release, Scope};

/// The longest file that counts, sizes and lengths within their limits allow, of which the names have 6,229 octets and the releases 1,345: all
/// of its records are holds. Four octets less for each that is a lease.
const LONGEST_LAYOUT: usize = 22_715;
/// Places in `Campus::sections`.
pub const NAMES: usize = 1;
pub const RELEASES: usize = 2;
pub const HOLDS: usize = 3;

/// A damage: what it breaks, the refusal that it has to draw (0 where it breaks nothing), and how it is done. `None` where a campus has nothing
/// to break.
pub struct Damage {
    pub name: &'static str,
    pub refusal: u8,
    make: fn(&mut Random, Campus) -> Option<Vec<u8>>,
}

const fn unsound(name: &'static str, make: fn(&mut Random, Campus) -> Option<Vec<u8>>) -> Damage {
    Damage {
        name,
        refusal: 21,
        make,
    }
}

const fn accepted(name: &'static str, make: fn(&mut Random, Campus) -> Option<Vec<u8>>) -> Damage {
    Damage {
        name,
        refusal: 0,
        make,
    }
}

const fn malformed(name: &'static str, make: fn(&mut Random, Campus) -> Option<Vec<u8>>) -> Damage {
    Damage {
        name,
        refusal: 20,
        make,
    }
}

/// Every damage, in the words of documents 01 and 02.
pub const DAMAGES: &[Damage] = &[
    unsound("counts: no house", no_house),
    unsound("counts: more than 8 houses", many_houses),
    unsound("counts: no scope", no_scope),
    unsound("counts: more than 4 scopes", many_scopes),
    unsound("counts: 255 scopes, 40 houses", |_, campus| {
        Some(very_many_lists(campus))
    }),
    unsound("counts: more than 16 leases of a house", many_leases),
    unsound("counts: more than 128 leases", very_many_leases),
    unsound("counts: more than 64 addresses of a lease", many_addresses),
    unsound("sizes: 0", size_0),
    unsound("sizes: above 64", size_65),
    unsound("identifier lengths: 0 or 1", short_identifier),
    unsound("identifier lengths: above 32", long_identifier),
    unsound("offsets below the scope's size", offset_at_size),
    unsound("client ranges not empty", empty_range),
    unsound("client ranges disjoint", ranges_overlap),
    unsound("pools inside 224.0.0.0 to 239.255.255.255", pool_outside),
    unsound("pools disjoint", pools_overlap),
    unsound("TTL not 0", ttl_0),
    unsound("share at most limit", share_above_limit),
    unsound("limit at most size", limit_above_size),
    unsound("shares together at most size", shares_above_size),
    unsound("a lease names a known house", unknown_house),
    unsound("a lease names a known scope", unknown_scope),
    unsound("a lease has type 3 or 4", wrong_type),
    unsound("a lease has start before end", start_at_end),
    unsound("a lease has end after the clock", end_at_clock),
    unsound("a lease has an address", no_address),
    unsound("identifiers differ within a house", equal_identifiers),
    unsound("no address has two houses", two_houses),
    unsound(
        "no address has two houses, 22,203 octets",
        |random, campus| {
            let full = full_layout(random, &campus, false, false).octets();
            (full.len() == LONGEST_LAYOUT - 4 * 128).then_some(full)
        },
    ),
    unsound(
        "no address has two houses, 22,715 octets",
        |random, campus| {
            let full = full_layout(random, &campus, true, false).octets();
            (full.len() == LONGEST_LAYOUT).then_some(full)
        },
    ),
    unsound("identifier lengths, 32,768 octets", |random, campus| {
        grown_layout(random, &campus, LONGEST_FILE)
    }),
    unsound("leases on one address don't overlap", leases_overlap),
    unsound("each holding at most its limit", holding_above_limit),
    unsound(
        "sum of larger-of-holding-and-share at most size",
        sum_above_size,
    ),
    unsound("releases: house 0", |random, campus| {
        of_house(random, campus, 0)
    }),
    unsound("releases: a house past the last", |random, campus| {
        let next = campus.houses.len() as u8 + 1;
        of_house(random, campus, next)
    }),
    unsound("releases: house 9", |random, campus| {
        of_house(random, campus, 9)
    }),
    unsound("releases: house 200", |random, campus| {
        of_house(random, campus, 200)
    }),
    unsound("releases: five of a house", |random, campus| {
        many_releases(random, campus, MOST_RELEASES + 1)
    }),
    unsound("releases: six of a house or more", |random, campus| {
        let count = random.pick(&[MOST_RELEASES + 2, 33]);
        many_releases(random, campus, count)
    }),
    unsound("releases: 255", |random, campus| {
        many_releases(random, campus, 255)
    }),
    unsound("releases: an identifier of 0 octets", |random, campus| {
        with_identifier(random, campus, 0)
    }),
    unsound("releases: an identifier of 1 octet", |random, campus| {
        with_identifier(random, campus, 1)
    }),
    unsound("releases: an identifier of 33 octets", |random, campus| {
        with_identifier(random, campus, 33)
    }),
    unsound("releases: an identifier of 255 octets", |random, campus| {
        with_identifier(random, campus, 255)
    }),
    unsound(
        "releases: an identifier twice, neighbours",
        |random, campus| repeated_release(random, campus, |apart| apart == 1),
    ),
    unsound(
        "releases: an identifier twice, not neighbours",
        |random, campus| repeated_release(random, campus, |apart| apart > 1),
    ),
    unsound(
        "releases: an identifier that the house has a lease on",
        |random, campus| on_a_lease(random, campus, |release, lease| release == lease),
    ),
    unsound("releases: after the clock", after_the_clock),
    accepted(
        "releases: an identifier that another house has a lease on",
        |random, campus| on_a_lease(random, campus, |release, lease| release != lease),
    ),
    accepted(
        "releases: an identifier that another house remembers",
        of_two_houses,
    ),
    accepted("releases: at the clock", |random, campus| {
        let clock = campus.clock;
        with_release(random, campus, |_, release| release.time = clock)
    }),
    accepted("releases: at 0", |random, campus| {
        with_release(random, campus, |_, release| release.time = 0)
    }),
    accepted("releases: equal times", equal_times),
    accepted("releases: times fall from house to house", times_of_houses),
    accepted("releases: none", |_, mut campus| {
        campus.releases.clear();
        Some(campus.octets())
    }),
    accepted("releases: 32", |random, mut campus| {
        (campus.houses.len() == 8).then_some(())?;
        four_each(random, &mut campus);
        ordered(campus)
    }),
    malformed("cut off", cut),
    malformed("cut off before a count", cut_at_count),
    malformed("no octets", |_, _| Some(Vec::new())),
    malformed("excess octets", excess),
    malformed("excess octets up to 32,768 and past it", padded),
    malformed("32,769 octets, layout right", |random, campus| {
        grown_layout(random, &campus, LONGEST_FILE + 1)
    }),
    malformed("more than 32,769 octets, layout right", too_long),
    malformed("server count", server_count),
    malformed("server count, layout right", server_sections),
    malformed("houses not rising", houses_fall),
    malformed("unknown houses not rising", unknown_houses_fall),
    malformed("identifiers not rising", identifiers_fall),
    malformed("a prefix last", prefix_last),
    malformed("equal offsets", equal_offsets),
    malformed("falling offsets", falling_offsets),
    malformed("names: no section", |_, campus| {
        with_section(&campus, NAMES, Vec::clear)
    }),
    malformed("names: no section, and none after it", |_, campus| {
        Some(campus.front())
    }),
    malformed("names: cut inside", names_cut),
    malformed("names: cut off after 255 scopes, 40 houses", deep_cut),
    malformed("names: an octet more", names_excess),
    malformed("names: count one more than the scopes", |_, campus| {
        with_section(&campus, NAMES, |section| section[0] += 1)
    }),
    malformed("names: count one less than the scopes", |_, campus| {
        with_section(&campus, NAMES, |section| section[0] -= 1)
    }),
    malformed("names: a scope more, layout right", a_scope_more),
    malformed("names: a scope fewer, layout right", a_scope_fewer),
    malformed("names: a list more", a_list_more),
    malformed("names: a list fewer", a_list_fewer),
    malformed("names: flags neither 0 nor 128", wrong_flags),
    malformed("names: a tag of 0 octets", |random, campus| {
        with_name(random, campus, |_, name| name.tag.clear())
    }),
    malformed("names: a tag of 9 octets or more", long_tag),
    malformed("names: a text of 0 octets", |random, campus| {
        with_name(random, campus, |_, name| name.text.clear())
    }),
    malformed("names: a text of 33 octets or more", long_text),
    malformed("names: five in a list or more", many_names),
    malformed("releases: no section", |_, campus| {
        with_section(&campus, RELEASES, Vec::clear)
    }),
    malformed("releases: no section, and no holds", |_, campus| {
        Some([campus.front(), campus.names()].concat())
    }),
    malformed("releases: cut inside", releases_cut),
    malformed("releases: count one more", |_, campus| {
        with_section(&campus, RELEASES, |section| section[0] += 1)
    }),
    malformed("releases: count 255", |_, campus| {
        with_section(&campus, RELEASES, |section| section[0] = 255)
    }),
    malformed("releases: count one less", |_, campus| {
        (!campus.releases.is_empty()).then_some(())?;
        with_section(&campus, RELEASES, |section| section[0] -= 1)
    }),
    malformed("releases: octets after them", releases_excess),
    malformed("releases: the section before the names", |_, campus| {
        (!campus.releases.is_empty()).then_some(())?;
        let [front, names, releases, holds] = campus.sections();
        Some([front, releases, names, holds].concat())
    }),
    malformed("releases: houses fall", release_houses_fall),
    malformed("releases: unknown houses fall", unknown_release_houses_fall),
    malformed("releases: times fall in a house", release_times_fall),
    malformed("wrong form and unsound", form_and_unsound),
    malformed("bad names and unsound", names_and_unsound),
    malformed("releases of wrong form and unsound", releases_and_unsound),
    malformed(
        "releases out of order and after the clock",
        |random, mut campus| {
            campus.clock = campus
                .releases
                .iter()
                .map(|release| release.time)
                .max()?
                .checked_sub(1)?;
            campus.leases.clear();
            campus.holds.clear();
            release_times_fall(random, campus)
        },
    ),
    unsound("leases: type 1", held::lease_of_type_1),
    unsound("holds: type 3", |random, campus| {
        held::of_type(random, campus, &[3])
    }),
    unsound("holds: type 4", |random, campus| {
        held::of_type(random, campus, &[4])
    }),
    unsound("holds: another type", |random, campus| {
        held::of_type(random, campus, &[0, 2, 5, 6, 7, 8, 255])
    }),
    unsound("holds: lapses at the clock", |random, campus| {
        held::with_times(random, campus, |clock, hold| {
            hold.lapse = clock;
            Some(())
        })
    }),
    unsound("holds: lapses before the clock", |random, campus| {
        let ago = random.pick(&[1, 1, 30]);
        held::with_times(random, campus, |clock, hold| {
            hold.lapse = clock.checked_sub(ago)?;
            Some(())
        })
    }),
    unsound("holds: lapses at 0", |random, campus| {
        held::with_times(random, campus, |_, hold| {
            hold.lapse = 0;
            Some(())
        })
    }),
    unsound("holds: lapses 31 s after the clock", |random, campus| {
        held::lapses_late(random, campus, 1)
    }),
    unsound("holds: lapses later than that", |random, campus| {
        let seconds = random.pick(&[2, 226, 3_570]);
        held::lapses_late(random, campus, seconds)
    }),
    unsound("holds: lapses after its end", held::lapses_after_its_end),
    unsound(
        "holds: ends at the clock or before",
        held::ends_at_the_clock,
    ),
    unsound("holds: starts at its end or later", |random, campus| {
        let more = random.pick(&[0, 0, 1]);
        held::with_times(random, campus, |_, hold| {
            hold.lease.start = hold.lease.end.checked_add(more)?;
            Some(())
        })
    }),
    unsound("holds: house 0", |random, campus| {
        held::of_house(random, campus, 0)
    }),
    unsound("holds: a house past the last", |random, campus| {
        let next = campus.houses.len() as u8 + 1;
        held::of_house(random, campus, next)
    }),
    unsound("holds: house 200", |random, campus| {
        held::of_house(random, campus, 200)
    }),
    unsound("holds: scope 0", |random, campus| {
        held::of_scope(random, campus, 0)
    }),
    unsound("holds: a scope past the last", |random, campus| {
        let next = campus.scopes.len() as u8 + random.pick(&[1, 1, 200]);
        held::of_scope(random, campus, next)
    }),
    unsound("holds: an identifier of 0 octets", |random, campus| {
        held::with_identifier(random, campus, 0)
    }),
    unsound("holds: an identifier of 1 octet", |random, campus| {
        held::with_identifier(random, campus, 1)
    }),
    unsound("holds: an identifier of 33 octets", |random, campus| {
        held::with_identifier(random, campus, 33)
    }),
    unsound("holds: an identifier of 255 octets", |random, campus| {
        held::with_identifier(random, campus, 255)
    }),
    unsound("holds: no address", |random, campus| {
        held::with_hold(random, campus, |_, _, hold| {
            hold.lease.offsets.clear();
            Some(())
        })
    }),
    unsound("holds: more than 64 addresses", |random, campus| {
        held::with_hold(random, campus, |random, _, hold| {
            hold.lease.offsets = (0..random.pick(&[65, 66, 255])).collect();
            Some(())
        })
    }),
    unsound(
        "holds: offsets below the scope's size",
        held::offset_at_size,
    ),
    unsound("holds: an identifier twice", |random, campus| {
        held::on_a_hold(random, campus, true)
    }),
    unsound(
        "holds: an identifier that the house has a lease on",
        |random, campus| held::on_a_lease(random, campus, true),
    ),
    unsound(
        "holds: an identifier that the house remembers",
        |random, campus| held::on_a_release(random, campus, true),
    ),
    unsound("holds: 17 of a house", |random, campus| {
        held::many(random, campus, 0, RECORDS + 1)
    }),
    unsound("holds: 16 leases and a hold", |random, campus| {
        held::many(random, campus, RECORDS, 1)
    }),
    unsound("holds: a lease and 16 holds", |random, campus| {
        held::many(random, campus, 1, RECORDS)
    }),
    unsound("holds: 17 records or more, of both", |random, campus| {
        let count = RECORDS + random.pick(&[1, 1, 2, 16]);
        held::many_of_both(random, campus, count)
    }),
    unsound("holds: more than 128 records", held::more_than_128),
    unsound("holds: on a lease's address and time", |random, campus| {
        held::overlaps(random, campus, true)
    }),
    unsound("holds: two on one address and time", |random, campus| {
        held::overlaps(random, campus, false)
    }),
    unsound(
        "holds: on an address of another house's lease",
        |random, campus| held::two_houses(random, campus, true),
    ),
    unsound(
        "holds: on an address of another house's hold",
        |random, campus| held::two_houses(random, campus, false),
    ),
    unsound("holds: the holding above its limit", held::above_the_limit),
    unsound(
        "holds: the sum of larger-of-holding-and-share above the size",
        held::above_the_size,
    ),
    unsound(
        "identifier lengths of holds, 32,768 octets",
        |random, campus| {
            let full = full_layout(random, &campus, true, false);
            grown(full, LONGEST_FILE)
        },
    ),
    accepted("holds: lapses 30 s after the clock", |random, campus| {
        held::with_times(random, campus, |clock, hold| {
            hold.lapse = lapse(clock, hold.lease.end);
            (hold.lapse - clock == HOLD_TIME).then_some(())
        })
    }),
    accepted(
        "holds: lapses a second after the clock",
        |random, campus| {
            held::with_times(random, campus, |clock, hold| {
                hold.lapse = clock + 1;
                Some(())
            })
        },
    ),
    accepted("holds: lapses at its end", |random, campus| {
        held::with_times(random, campus, |clock, hold| {
            hold.lapse = lapse(clock, hold.lease.end);
            (hold.lapse == hold.lease.end).then_some(())
        })
    }),
    accepted("holds: longer than the longest lease", |_, campus| {
        let mut holds = campus.holds.iter();
        let is_long = |hold: &Hold| hold.lease.end - hold.lease.start > LONGEST_LEASE;
        holds.any(is_long).then(|| campus.octets())
    }),
    accepted("holds: for a period to come", |_, campus| {
        let mut holds = campus.holds.iter();
        let is_to_come = |hold: &Hold| hold.lease.start > hold.lapse;
        holds.any(is_to_come).then(|| campus.octets())
    }),
    accepted(
        "holds: an identifier that another house holds",
        |random, campus| held::on_a_hold(random, campus, false),
    ),
    accepted(
        "holds: an identifier that another house has a lease on",
        |random, campus| held::on_a_lease(random, campus, false),
    ),
    accepted(
        "holds: an identifier that another house remembers",
        |random, campus| held::on_a_release(random, campus, false),
    ),
    accepted(
        "holds: begins as a lease on its address ends",
        held::touches,
    ),
    accepted("holds: none", |_, mut campus| {
        campus.holds.clear();
        Some(campus.octets())
    }),
    accepted("holds: 16 of a house", |random, campus| {
        held::many(random, campus, 0, RECORDS)
    }),
    accepted("holds: 16 records of a house, of both", |random, campus| {
        held::many_of_both(random, campus, RECORDS)
    }),
    accepted("holds: 128", held::all_128),
    malformed("holds: no section", |_, campus| {
        with_section(&campus, HOLDS, Vec::clear)
    }),
    malformed("holds: cut inside", |random, campus| {
        held::cut(random, campus, usize::MAX)
    }),
    malformed("holds: the last lapse cut or missing", |random, campus| {
        held::cut(random, campus, 4)
    }),
    malformed("holds: laid out as leases", held::laid_out_as_leases),
    malformed("holds: count one more", |_, campus| {
        with_section(&campus, HOLDS, |section| section[0] += 1)
    }),
    malformed("holds: count 255", |_, campus| {
        with_section(&campus, HOLDS, |section| section[0] = 255)
    }),
    malformed("holds: count one less", |_, campus| {
        (!campus.holds.is_empty()).then_some(())?;
        with_section(&campus, HOLDS, |section| section[0] -= 1)
    }),
    malformed("holds: octets after them", held::excess),
    malformed("holds: the section before the releases", |_, campus| {
        held::moved(campus, [0, NAMES, HOLDS, RELEASES])
    }),
    malformed("holds: the section before the names", |_, campus| {
        held::moved(campus, [0, HOLDS, NAMES, RELEASES])
    }),
    malformed("holds: houses fall", |random, campus| {
        held::swapped(random, campus, |one, other| one.house < other.house)
    }),
    malformed("holds: unknown houses fall", held::unknown_houses_fall),
    malformed("holds: identifiers fall", |random, campus| {
        let is_meant = |one: &Lease, other: &Lease| {
            one.house == other.house && one.identifier < other.identifier
        };
        held::swapped(random, campus, is_meant)
    }),
    malformed("holds: a prefix last", held::prefix_last),
    malformed("holds: equal offsets", held::equal_offsets),
    malformed("holds: falling offsets", held::falling_offsets),
    malformed("holds of wrong form and unsound", held::form_and_unsound),
];

impl Damage {
    /// A damaged campus file, if one can be made of some campus.
    pub fn file(&self, random: &mut Random) -> Option<Vec<u8>> {
        (0..200).find_map(|_| {
            let campus = sound(random);
            (self.make)(random, campus)
        })
    }
}

/// A place in a list, if there is one.
pub fn place<T>(random: &mut Random, list: &[T]) -> Option<usize> {
    (!list.is_empty()).then(|| random.below(list.len()))
}

/// The file of a campus whose leases, releases and holds are put in order first; not one that is too long.
pub fn ordered(mut campus: Campus) -> Option<Vec<u8>> {
    campus.sort();
    let file = campus.octets();
    (file.len() <= LONGEST_FILE).then_some(file)
}

/// Whether identifiers differ within each house, once in order.
fn all_differ(leases: &[Lease]) -> bool {
    leases.iter().enumerate().all(|(place, lease)| {
        leases[..place]
            .iter()
            .all(|other| (other.house, &other.identifier) != (lease.house, &lease.identifier))
    })
}

// ---- counts, sizes and identifier lengths

fn no_house(_: &mut Random, mut campus: Campus) -> Option<Vec<u8>> {
    campus.houses.clear();
    campus.leases.clear();
    campus.releases.clear();
    campus.holds.clear();
    campus
        .scopes
        .iter_mut()
        .for_each(|scope| scope.parts.clear());
    ordered(campus)
}

fn many_houses(random: &mut Random, mut campus: Campus) -> Option<Vec<u8>> {
    let count = random.pick(&[9, 9, 10, 16, 255]);
    campus.houses = (0..count).map(|n| (n << 8, (n << 8) + 255)).collect();
    for scope in &mut campus.scopes {
        scope.parts.resize(count as usize, (0, 0));
        if count < 20 {
            scope.names = names::lists(random, count as usize);
        }
    }
    ordered(campus)
}

fn no_scope(_: &mut Random, mut campus: Campus) -> Option<Vec<u8>> {
    campus.scopes.clear();
    campus.leases.clear();
    campus.holds.clear();
    ordered(campus)
}

fn many_scopes(random: &mut Random, mut campus: Campus) -> Option<Vec<u8>> {
    let count = random.pick(&[5, 5, 6, 255]);
    let houses = campus.houses.len();
    for number in campus.scopes.len()..count {
        let mut scope = spare_scope(number as u32, houses);
        if count < 20 {
            scope.names = names::lists(random, houses);
        }
        campus.scopes.push(scope);
    }
    ordered(campus)
}

/// A scope of 64 addresses beside those of other campuses, without names.
fn spare_scope(number: u32, houses: usize) -> Scope {
    Scope {
        lowest: 0xE600_0000 + (number << 8),
        size: 64,
        ttl: 1,
        parts: vec![(0, 64); houses],
        names: Vec::new(),
    }
}

/// As many scopes as a count can say, and houses up to the longest file: a walk over the names is deepest here.
fn very_many_lists(mut campus: Campus) -> Vec<u8> {
    campus.houses = (0..40).map(|n| (n << 8, (n << 8) + 255)).collect();
    campus.scopes = (0..255).map(|n| spare_scope(n, 40)).collect();
    campus.leases.clear();
    campus.releases.clear();
    campus.holds.clear();
    campus.octets()
}

/// Brings a house to so many leases, on an address that it has, each touching the one before.
pub fn lengthen(random: &mut Random, campus: &mut Campus, house: u8, count: usize) -> Option<()> {
    let first = campus
        .leases
        .iter()
        .find(|lease| lease.house == house)?
        .clone();
    let offset = first.offsets[0];
    let on_it = |lease: &&Lease| lease.scope == first.scope && lease.offsets.contains(&offset);
    let ends = campus.records().filter(on_it).map(|lease| lease.end);
    let mut start = ends.max()?;
    let mut have = campus
        .leases
        .iter()
        .filter(|lease| lease.house == house)
        .count();
    while have < count {
        let end = start.checked_add(random.pick(&[1, 10]))?;
        let scope = usize::from(first.scope) - 1;
        let lease = new_lease(
            campus,
            random,
            usize::from(house) - 1,
            scope,
            (start, end),
            vec![offset],
        );
        campus.leases.push(lease);
        start = end;
        have += 1;
    }
    Some(())
}

fn many_leases(random: &mut Random, mut campus: Campus) -> Option<Vec<u8>> {
    let house = campus.leases[place(random, &campus.leases)?].house;
    let count = random.pick(&[RECORDS + 1, RECORDS + 1, RECORDS + 2, 40]);
    lengthen(random, &mut campus, house, count)?;
    ordered(campus)
}

fn very_many_leases(random: &mut Random, mut campus: Campus) -> Option<Vec<u8>> {
    let mut left = random.pick(&[129, 130, 255]);
    for house in 1..=campus.houses.len() as u8 {
        let houses_left = campus.houses.len() + 1 - usize::from(house);
        let count = (left / houses_left).max(RECORDS.min(left));
        if lengthen(random, &mut campus, house, count).is_some() {
            left -= campus
                .leases
                .iter()
                .filter(|lease| lease.house == house)
                .count()
                .min(left);
        }
    }
    (129..=255).contains(&campus.leases.len()).then_some(())?;
    ordered(campus)
}

fn many_addresses(random: &mut Random, mut campus: Campus) -> Option<Vec<u8>> {
    let lease = place(random, &campus.leases)?;
    campus.leases[lease].offsets = (0..random.pick(&[65, 66, 255])).collect();
    ordered(campus)
}

fn size_0(random: &mut Random, mut campus: Campus) -> Option<Vec<u8>> {
    let scope = random.below(campus.scopes.len());
    retain(&mut campus, |lease| usize::from(lease.scope) != scope + 1);
    campus.scopes[scope].size = 0;
    campus.scopes[scope].parts.fill((0, 0));
    ordered(campus)
}

fn size_65(random: &mut Random, mut campus: Campus) -> Option<Vec<u8>> {
    let scope = random.below(campus.scopes.len());
    campus.scopes[scope].lowest = 0xE600_0000;
    campus.scopes[scope].size = random.pick(&[65, 65, 66, 128, 255]);
    ordered(campus)
}

fn short_identifier(random: &mut Random, mut campus: Campus) -> Option<Vec<u8>> {
    let lease = place(random, &campus.leases)?;
    campus.leases[lease].identifier.truncate(random.below(2));
    all_differ(&campus.leases).then_some(())?;
    ordered(campus)
}

fn long_identifier(random: &mut Random, mut campus: Campus) -> Option<Vec<u8>> {
    let lease = place(random, &campus.leases)?;
    campus.leases[lease]
        .identifier
        .resize(random.pick(&[33, 33, 34, 64, 255]), b'x');
    ordered(campus)
}

fn offset_at_size(random: &mut Random, mut campus: Campus) -> Option<Vec<u8>> {
    let lease = place(random, &campus.leases)?;
    let lease = &mut campus.leases[lease];
    let size = campus.scopes[usize::from(lease.scope) - 1].size;
    *lease.offsets.last_mut()? = random.pick(&[size, size, size + 1, 255]);
    ordered(campus)
}

// ---- settings

fn empty_range(random: &mut Random, mut campus: Campus) -> Option<Vec<u8>> {
    let house = random.below(campus.houses.len());
    let (low, high) = campus.houses[house];
    campus.houses[house] = if low < high {
        (high, low)
    } else {
        (low, low.checked_sub(1)?)
    };
    ordered(campus)
}

fn ranges_overlap(random: &mut Random, mut campus: Campus) -> Option<Vec<u8>> {
    let a = random.below(campus.houses.len());
    let b = random.below(campus.houses.len());
    (a != b).then_some(())?;
    let ((low, high), (other_low, other_high)) = (campus.houses[a], campus.houses[b]);
    campus.houses[b] = match random.below(4) {
        0 => (low, high),
        1 => (high, high.max(other_high)),
        2 => (low.min(other_low), low),
        _ => (low.saturating_sub(1), high.saturating_add(1)),
    };
    ordered(campus)
}

fn pool_outside(random: &mut Random, mut campus: Campus) -> Option<Vec<u8>> {
    let place = random.below(campus.scopes.len());
    let scope = &mut campus.scopes[place];
    let size = u32::from(scope.size);
    scope.lowest = random.pick(&[
        LOWEST_POOL - 1,
        LOWEST_POOL - size,
        HIGHEST_POOL - size + 2,
        HIGHEST_POOL + 1,
        u32::MAX,
        u32::MAX - size + 1,
        0,
        0x0A00_0000,
    ]);
    ordered(campus)
}

fn pools_overlap(random: &mut Random, mut campus: Campus) -> Option<Vec<u8>> {
    let a = random.below(campus.scopes.len());
    let b = random.below(campus.scopes.len());
    (a != b).then_some(())?;
    let (lowest, size) = (campus.scopes[a].lowest, u32::from(campus.scopes[a].size));
    let other = u32::from(campus.scopes[b].size);
    campus.scopes[b].lowest = match random.below(3) {
        0 => lowest,
        1 => lowest + size - 1,
        _ => lowest - other + 1,
    };
    let lowest = campus.scopes[b].lowest;
    (lowest >= LOWEST_POOL && lowest <= HIGHEST_POOL - other + 1).then_some(())?;
    ordered(campus)
}

fn ttl_0(random: &mut Random, mut campus: Campus) -> Option<Vec<u8>> {
    let scope = random.below(campus.scopes.len());
    campus.scopes[scope].ttl = 0;
    ordered(campus)
}

fn share_above_limit(random: &mut Random, mut campus: Campus) -> Option<Vec<u8>> {
    let scope = random.below(campus.scopes.len());
    let house = random.below(campus.houses.len());
    let (share, _) = campus.scopes[scope].parts[house];
    let limit = share.checked_sub(1)?;
    campus.scopes[scope].parts[house].1 = random.pick(&[limit, 0]);
    retain(&mut campus, |lease| {
        (usize::from(lease.house), usize::from(lease.scope)) != (house + 1, scope + 1)
    });
    ordered(campus)
}

fn limit_above_size(random: &mut Random, mut campus: Campus) -> Option<Vec<u8>> {
    let scope = random.below(campus.scopes.len());
    let house = random.below(campus.houses.len());
    let size = campus.scopes[scope].size;
    campus.scopes[scope].parts[house].1 = random.pick(&[size + 1, size + 1, 65, 255]);
    ordered(campus)
}

/// The shares are one more than the size together, each at most its limit.
fn shares_above_size(random: &mut Random, mut campus: Campus) -> Option<Vec<u8>> {
    let scope = random.below(campus.scopes.len());
    let house = random.below(campus.houses.len());
    let Scope {
        size,
        ref mut parts,
        ..
    } = campus.scopes[scope];
    let others: usize =
        parts.iter().map(|part| usize::from(part.0)).sum::<usize>() - usize::from(parts[house].0);
    let share = (usize::from(size) + 1).checked_sub(others)?;
    (share <= usize::from(size)).then_some(())?;
    parts[house] = (share as u8, size);
    ordered(campus)
}

// ---- leases

fn unknown_house(random: &mut Random, mut campus: Campus) -> Option<Vec<u8>> {
    let lease = place(random, &campus.leases)?;
    campus.leases[lease].house = random.pick(&[0, campus.houses.len() as u8 + 1, 200, 255]);
    ordered(campus)
}

fn unknown_scope(random: &mut Random, mut campus: Campus) -> Option<Vec<u8>> {
    let lease = place(random, &campus.leases)?;
    campus.leases[lease].scope = random.pick(&[0, campus.scopes.len() as u8 + 1, 200, 255]);
    ordered(campus)
}

fn wrong_type(random: &mut Random, mut campus: Campus) -> Option<Vec<u8>> {
    let lease = place(random, &campus.leases)?;
    campus.leases[lease].kind = random.pick(&[0, 2, 5, 6, 7, 8, 255]);
    ordered(campus)
}

fn start_at_end(random: &mut Random, mut campus: Campus) -> Option<Vec<u8>> {
    let lease = place(random, &campus.leases)?;
    let lease = &mut campus.leases[lease];
    lease.start = random.pick(&[lease.end, lease.end, lease.end.saturating_add(1), LAST_TIME]);
    ordered(campus)
}

fn end_at_clock(random: &mut Random, mut campus: Campus) -> Option<Vec<u8>> {
    let lease = place(random, &campus.leases)?;
    let end = campus.clock.checked_sub(random.pick(&[0, 0, 1]))?;
    let lease = &mut campus.leases[lease];
    lease.start = lease.start.min(end.checked_sub(1)?);
    lease.end = end;
    ordered(campus)
}

fn no_address(random: &mut Random, mut campus: Campus) -> Option<Vec<u8>> {
    let lease = place(random, &campus.leases)?;
    campus.leases[lease].offsets.clear();
    ordered(campus)
}

fn equal_identifiers(random: &mut Random, mut campus: Campus) -> Option<Vec<u8>> {
    let a = place(random, &campus.leases)?;
    let b = random.below(campus.leases.len());
    (a != b && campus.leases[a].house == campus.leases[b].house).then_some(())?;
    campus.leases[b].identifier = campus.leases[a].identifier.clone();
    ordered(campus)
}

/// An address of another house's lease, at another time. Shares and limits are made to allow it.
fn two_houses(random: &mut Random, mut campus: Campus) -> Option<Vec<u8>> {
    let a = place(random, &campus.leases)?;
    let b = random.below(campus.leases.len());
    let (one, other) = (campus.leases[a].clone(), campus.leases[b].clone());
    (one.house != other.house && one.scope == other.scope).then_some(())?;
    (one.end <= other.start || other.end <= one.start).then_some(())?;
    let stays = |lease: &Lease| lease.scope != one.scope || *lease == one || *lease == other;
    retain(&mut campus, stays);
    let place = campus.leases.iter().position(|lease| *lease == one)?;
    let lease = &mut campus.leases[place];
    lease.offsets.push(random.pick(&other.offsets));
    lease.offsets.sort_unstable();
    let scope = &mut campus.scopes[usize::from(one.scope) - 1];
    let size = scope.size;
    scope.parts.fill((0, size));
    (one.offsets.len() + 1 + other.offsets.len() <= usize::from(size)).then_some(())?;
    ordered(campus)
}

/// Keeps only leases and holds like these.
fn retain(campus: &mut Campus, stays: impl Fn(&Lease) -> bool) {
    campus.leases.retain(&stays);
    campus.holds.retain(|hold| stays(&hold.lease));
}

/// A campus of 128 leases or holds. Sixty-four addresses each make it the longest layout that counts, sizes and identifier lengths allow, and
/// unsound: its addresses have two houses. With half of them it is sound.
pub fn full_layout(random: &mut Random, campus: &Campus, is_held: bool, is_sound: bool) -> Campus {
    let mut full = campus.clone();
    full.clock = 1_000;
    full.houses = (0..8).map(|n| (n, n)).collect();
    full.scopes = (0..4).map(|n| spare_scope(n, 8)).collect();
    for scope in &mut full.scopes {
        scope.names = names::full_lists(8);
    }
    full.leases.clear();
    full.holds.clear();
    full.releases.clear();
    for house in 0..8 {
        for number in 0..16_u32 {
            let period = (1_000 + number, 1_001 + number);
            let half = house as u8 % 2 * 32;
            let offsets = if is_sound { half..half + 32 } else { 0..64 };
            let offsets = offsets.collect();
            let mut lease = new_lease(&full, random, house, house / 2, period, offsets);
            lease.identifier.resize(31, 0);
            lease.identifier.push(number as u8);
            if is_held {
                full.holds.push(of_lease(&full, random, lease));
            } else {
                full.leases.push(lease);
            }
        }
    }
    four_each(random, &mut full);
    for (place, release) in full.releases.iter_mut().enumerate() {
        // No lease's identifier ends so.
        release.identifier.resize(31, 0);
        release.identifier.push(64 + place as u8);
    }
    full.sort();
    full
}

/// A file of this length with its layout right: the longest layout of leases, with longer identifiers.
fn grown_layout(random: &mut Random, campus: &Campus, length: usize) -> Option<Vec<u8>> {
    let full = full_layout(random, campus, false, false);
    grown(full, length)
}

/// The file of a campus, brought to this length by longer identifiers.
fn grown(mut full: Campus, length: usize) -> Option<Vec<u8>> {
    let mut left = length.checked_sub(full.octets().len())?;
    let held = full.holds.iter_mut().map(|hold| &mut hold.lease);
    for lease in full.leases.iter_mut().chain(held) {
        let more = left.min(255 - lease.identifier.len());
        lease.identifier.resize(lease.identifier.len() + more, 7);
        left -= more;
    }
    (left == 0).then(|| full.octets())
}

/// A lease of the same house on the same address that begins a second before the other ends.
fn leases_overlap(random: &mut Random, mut campus: Campus) -> Option<Vec<u8>> {
    let lease = place(random, &campus.leases)?;
    let Lease {
        house,
        scope,
        start,
        end,
        ref offsets,
        ..
    } = campus.leases[lease];
    let offset = random.pick(offsets);
    let records = campus.records().filter(|lease| lease.house == house);
    (records.count() < RECORDS).then_some(())?;
    let period = match random.below(4) {
        0 => (start, end),
        1 => (start.checked_sub(1)?, start + 1),
        _ => (end - 1, end.checked_add(random.pick(&[0, 100]))?),
    };
    (period.1 > campus.clock).then_some(())?;
    let place = (usize::from(house) - 1, usize::from(scope) - 1);
    let added = new_lease(&campus, random, place.0, place.1, period, vec![offset]);
    campus.leases.push(added);
    ordered(campus)
}

fn holding_above_limit(random: &mut Random, mut campus: Campus) -> Option<Vec<u8>> {
    let lease = place(random, &campus.leases)?;
    let Lease { house, scope, .. } = campus.leases[lease];
    let limit = holding(&campus, house, scope) as u8 - 1;
    let part = &mut campus.scopes[usize::from(scope) - 1].parts[usize::from(house) - 1];
    *part = (part.0.min(limit), limit);
    ordered(campus)
}

/// One house holds more than its share, so that another's share, raised, is one address too many.
fn sum_above_size(random: &mut Random, mut campus: Campus) -> Option<Vec<u8>> {
    let lease = place(random, &campus.leases)?;
    let Lease { house, scope, .. } = campus.leases[lease];
    let raised = random.below(campus.houses.len());
    (raised + 1 != usize::from(house)).then_some(())?;
    let holdings: Vec<usize> = (1..=campus.houses.len() as u8)
        .map(|house| holding(&campus, house, scope))
        .collect();
    let Scope {
        size,
        ref mut parts,
        ..
    } = campus.scopes[usize::from(scope) - 1];
    parts[usize::from(house) - 1] = (0, size);
    let larger =
        |place: usize, parts: &[(u8, u8)]| holdings[place].max(usize::from(parts[place].0));
    let others: usize = (0..parts.len())
        .filter(|&p| p != raised)
        .map(|p| larger(p, parts))
        .sum();
    let share = (usize::from(size) + 1).checked_sub(others)?;
    (share > holdings[raised] && share <= usize::from(size)).then_some(())?;
    parts[raised] = (share as u8, size);
    ordered(campus)
}

// ---- form

fn cut(random: &mut Random, campus: Campus) -> Option<Vec<u8>> {
    let mut file = campus.octets();
    file.truncate(random.below(file.len()));
    Some(file)
}

/// Cut after the server, the houses, the scopes, the leases, the names or the releases.
fn cut_at_count(random: &mut Random, campus: Campus) -> Option<Vec<u8>> {
    let mut file = campus.octets();
    let houses = 10 + 8 * campus.houses.len();
    let scopes = houses + 1 + campus.scopes.len() * (6 + 2 * campus.houses.len());
    let leases = campus.front().len();
    let names = leases + campus.names().len();
    let releases = names + campus.releases().len();
    file.truncate(random.pick(&[1, 9, houses, scopes, leases, names, releases]));
    Some(file)
}

fn excess(random: &mut Random, campus: Campus) -> Option<Vec<u8>> {
    let mut file = campus.octets();
    let count = random.pick(&[1, 1, 2, 30]);
    file.extend(if random.chance(50) {
        vec![0; count]
    } else {
        random.octets(count)
    });
    Some(file)
}

fn padded(random: &mut Random, campus: Campus) -> Option<Vec<u8>> {
    let mut file = campus.octets();
    file.resize(LONGEST_FILE + random.pick(&[0, 1, 2, 1_000]), 0);
    Some(file)
}

fn too_long(random: &mut Random, campus: Campus) -> Option<Vec<u8>> {
    let more = random.pick(&[2, 3, 500, 16_000]);
    grown_layout(random, &campus, LONGEST_FILE + more)
}

fn server_count(random: &mut Random, campus: Campus) -> Option<Vec<u8>> {
    let mut file = campus.octets();
    file[0] = random.pick(&[0, 2, 255]);
    Some(file)
}

/// No server section, or two, where the count says so.
fn server_sections(random: &mut Random, campus: Campus) -> Option<Vec<u8>> {
    let file = campus.octets();
    let count = random.pick(&[0_u8, 2, 3]);
    let mut sections = vec![count];
    (0..count).for_each(|_| sections.extend(&file[1..9]));
    sections.extend(&file[9..]);
    Some(sections)
}

fn houses_fall(random: &mut Random, mut campus: Campus) -> Option<Vec<u8>> {
    let last = campus.leases.len().checked_sub(1)?;
    let place = random.below(last.max(1));
    (last > 0 && campus.leases[place].house < campus.leases[last].house).then_some(())?;
    campus.leases.swap(place, last);
    Some(campus.octets())
}

fn unknown_houses_fall(random: &mut Random, mut campus: Campus) -> Option<Vec<u8>> {
    (campus.leases.len() > 1).then_some(())?;
    if random.chance(50) {
        campus.leases[0].house = random.pick(&[200, 255]);
    } else {
        campus.leases.last_mut()?.house = 0;
    }
    Some(campus.octets())
}

fn identifiers_fall(random: &mut Random, mut campus: Campus) -> Option<Vec<u8>> {
    let place = random.below(campus.leases.len().checked_sub(1)?.max(1));
    let next = campus.leases.get(place + 1)?;
    (campus.leases[place].house == next.house).then_some(())?;
    campus.leases.swap(place, place + 1);
    Some(campus.octets())
}

fn prefix_last(random: &mut Random, mut campus: Campus) -> Option<Vec<u8>> {
    let place = random.below(campus.leases.len().checked_sub(1)?.max(1));
    let next = campus.leases.get(place + 1)?;
    let longer = campus.leases[place].identifier.len() > 2;
    (campus.leases[place].house == next.house && longer).then_some(())?;
    let length = random.between(2, campus.leases[place].identifier.len() - 1);
    campus.leases[place + 1].identifier = campus.leases[place].identifier[..length].to_vec();
    Some(campus.octets())
}

fn equal_offsets(random: &mut Random, mut campus: Campus) -> Option<Vec<u8>> {
    let lease = place(random, &campus.leases)?;
    let offsets = &mut campus.leases[lease].offsets;
    let place = random.below(offsets.len());
    offsets.insert(place, offsets[place]);
    Some(campus.octets())
}

fn falling_offsets(random: &mut Random, mut campus: Campus) -> Option<Vec<u8>> {
    let lease = place(random, &campus.leases)?;
    let offsets = &mut campus.leases[lease].offsets;
    (offsets.len() > 1).then_some(())?;
    let place = random.below(offsets.len() - 1);
    offsets.swap(place, place + 1);
    Some(campus.octets())
}

// ---- names

/// The file with its section at this place changed.
pub fn with_section(
    campus: &Campus,
    place: usize,
    change: impl FnOnce(&mut Vec<u8>),
) -> Option<Vec<u8>> {
    let mut sections = campus.sections();
    change(&mut sections[place]);
    Some(sections.concat())
}

/// The file with a name changed.
fn with_name(
    random: &mut Random,
    mut campus: Campus,
    change: impl FnOnce(&mut Random, &mut Name),
) -> Option<Vec<u8>> {
    let scope = random.below(campus.scopes.len());
    let list = random.below(campus.houses.len() + 1);
    let name = place(random, campus.scopes[scope].names_of(list))?;
    change(random, &mut campus.scopes[scope].names[list][name]);
    Some(campus.octets())
}

/// The file ends inside of the names.
fn names_cut(random: &mut Random, campus: Campus) -> Option<Vec<u8>> {
    let mut names = campus.names();
    names.truncate(random.between(1, names.len() - 1));
    Some([campus.front(), names].concat())
}

fn deep_cut(random: &mut Random, campus: Campus) -> Option<Vec<u8>> {
    let mut file = very_many_lists(campus);
    // The counts of no holds and no releases, and before them the last list of names.
    file.truncate(file.len() - 2);
    if random.chance(50) {
        file.pop();
    } else {
        *file.last_mut()? = 1;
    }
    Some(file)
}

fn names_excess(random: &mut Random, campus: Campus) -> Option<Vec<u8>> {
    with_section(&campus, NAMES, |section| {
        section.push(random.pick(&[0, 0, 128, 255]))
    })
}

fn a_scope_more(random: &mut Random, campus: Campus) -> Option<Vec<u8>> {
    let mut other = campus.clone();
    other.scopes.push(random.pick(&campus.scopes));
    with_section(&campus, NAMES, |section| *section = other.names())
}

fn a_scope_fewer(random: &mut Random, campus: Campus) -> Option<Vec<u8>> {
    let mut other = campus.clone();
    other.scopes.remove(random.below(campus.scopes.len()));
    with_section(&campus, NAMES, |section| *section = other.names())
}

/// One list more than the houses and the campus have: in the first scope or in the last.
fn a_list_more(random: &mut Random, campus: Campus) -> Option<Vec<u8>> {
    with_section(&campus, NAMES, |section| {
        let place = random.pick(&[1, section.len()]);
        section.insert(place, 0);
    })
}

/// A scope whose campus list isn't there.
fn a_list_fewer(_: &mut Random, campus: Campus) -> Option<Vec<u8>> {
    campus.scopes[0].names_of(0).is_empty().then_some(())?;
    with_section(&campus, NAMES, |section| section.drain(1..2).for_each(drop))
}

fn wrong_flags(random: &mut Random, campus: Campus) -> Option<Vec<u8>> {
    with_name(random, campus, |random, name| {
        name.flags = random.pick(&[1, 1, 2, 64, 127, 129, 192, 255])
    })
}

fn long_tag(random: &mut Random, campus: Campus) -> Option<Vec<u8>> {
    with_name(random, campus, |random, name| {
        let length = random.pick(&[1, 1, 1, 2, 24, 247]);
        name.tag.resize(LONGEST_TAG + length, b'-');
    })
}

fn long_text(random: &mut Random, campus: Campus) -> Option<Vec<u8>> {
    with_name(random, campus, |random, name| {
        let length = random.pick(&[1, 1, 1, 2, 96, 223]);
        name.text.resize(LONGEST_TEXT + length, b'-');
    })
}

fn many_names(random: &mut Random, mut campus: Campus) -> Option<Vec<u8>> {
    let scope = random.below(campus.scopes.len());
    let list = random.below(campus.houses.len() + 1);
    let count = MOST_NAMES + random.pick(&[1, 1, 1, 2, 251]);
    let names = &mut campus.scopes[scope].names[list];
    names.resize_with(count, || Name::new(0, b"x", b"y"));
    Some(campus.octets())
}

// ---- releases

/// The file with a release changed, and the releases put in order again.
fn with_release(
    random: &mut Random,
    mut campus: Campus,
    change: impl FnOnce(&mut Random, &mut Release),
) -> Option<Vec<u8>> {
    let release = place(random, &campus.releases)?;
    change(random, &mut campus.releases[release]);
    ordered(campus)
}

fn of_house(random: &mut Random, campus: Campus, house: u8) -> Option<Vec<u8>> {
    with_release(random, campus, |_, release| release.house = house)
}

fn with_identifier(random: &mut Random, campus: Campus, length: usize) -> Option<Vec<u8>> {
    with_release(random, campus, |_, release| {
        release.identifier.resize(length, b'x')
    })
}

/// Brings a house to so many releases.
fn lengthen_releases(random: &mut Random, campus: &mut Campus, house: u8, count: usize) {
    let of_house = |release: &&Release| release.house == house;
    for _ in campus.releases.iter().filter(of_house).count()..count {
        let release = new_release(campus, random, house);
        campus.releases.push(release);
    }
}

fn many_releases(random: &mut Random, mut campus: Campus, count: usize) -> Option<Vec<u8>> {
    let house = random.between(1, campus.houses.len()) as u8;
    if count == 255 {
        campus.releases.retain(|release| release.house == house);
    }
    lengthen_releases(random, &mut campus, house, count);
    ordered(campus)
}

/// Four of each house.
fn four_each(random: &mut Random, campus: &mut Campus) {
    campus.releases.clear();
    for house in 1..=campus.houses.len() as u8 {
        lengthen_releases(random, campus, house, MOST_RELEASES);
    }
}

/// Two of a house with one identifier, so many places apart.
fn repeated_release(
    random: &mut Random,
    mut campus: Campus,
    is_meant: fn(usize) -> bool,
) -> Option<Vec<u8>> {
    let a = place(random, &campus.releases)?;
    let b = random.between(a, campus.releases.len() - 1);
    (is_meant(b - a) && campus.releases[a].house == campus.releases[b].house).then_some(())?;
    campus.releases[b].identifier = campus.releases[a].identifier.clone();
    if random.chance(50) {
        campus.releases[b].transaction = campus.releases[a].transaction;
    }
    Some(campus.octets())
}

/// A release on the identifier of a lease, of these two houses.
fn on_a_lease(
    random: &mut Random,
    mut campus: Campus,
    is_meant: fn(u8, u8) -> bool,
) -> Option<Vec<u8>> {
    let lease = place(random, &campus.leases)?;
    let release = place(random, &campus.releases)?;
    let (lease, house) = (campus.leases[lease].clone(), campus.releases[release].house);
    let identifier = lease.identifier;
    is_meant(house, lease.house).then_some(())?;
    // Another house's identifier is neither on a lease or hold nor on a release of this one.
    (house == lease.house || is_fresh(&campus, house, &identifier)).then_some(())?;
    campus.releases[release].identifier = identifier;
    Some(campus.octets())
}

fn of_two_houses(random: &mut Random, mut campus: Campus) -> Option<Vec<u8>> {
    let a = place(random, &campus.releases)?;
    let b = random.below(campus.releases.len());
    let (house, identifier) = (
        campus.releases[b].house,
        campus.releases[a].identifier.clone(),
    );
    let is_free = is_fresh(&campus, house, &identifier);
    (campus.releases[a].house != house && is_free).then_some(())?;
    campus.releases[b].identifier = identifier;
    Some(campus.octets())
}

fn after_the_clock(random: &mut Random, campus: Campus) -> Option<Vec<u8>> {
    let next = campus.clock.checked_add(1)?;
    with_release(random, campus, |random, release| {
        release.time = random.pick(&[next, next, next.saturating_add(300), LAST_TIME])
    })
}

fn equal_times(random: &mut Random, mut campus: Campus) -> Option<Vec<u8>> {
    let a = place(random, &campus.releases)?;
    let next = campus.releases.get(a + 1)?.clone();
    (campus.releases[a].house == next.house).then_some(())?;
    // Those of the house before it are no later.
    campus.releases[a].time = next.time;
    Some(campus.octets())
}

fn times_of_houses(_: &mut Random, campus: Campus) -> Option<Vec<u8>> {
    let mut pairs = campus.releases.windows(2);
    let falls = |pair: &[Release]| pair[0].house < pair[1].house && pair[0].time > pair[1].time;
    pairs.any(falls).then(|| campus.octets())
}

/// The file ends inside of the releases.
fn releases_cut(random: &mut Random, mut campus: Campus) -> Option<Vec<u8>> {
    (!campus.releases.is_empty()).then_some(())?;
    campus.holds.clear();
    let mut file = campus.octets();
    let more = campus.releases().len();
    // The count of no holds, and up to all of the releases but their count.
    file.truncate(file.len() - 1 - random.between(1, more - 1));
    Some(file)
}

fn releases_excess(random: &mut Random, campus: Campus) -> Option<Vec<u8>> {
    let more = match campus.releases.last() {
        Some(last) if random.chance(30) => last.octets(),
        _ => vec![random.pick(&[0, 0, 1, 255]); random.pick(&[1, 1, 2, 12])],
    };
    with_section(&campus, RELEASES, |section| section.extend(more))
}

fn release_houses_fall(random: &mut Random, mut campus: Campus) -> Option<Vec<u8>> {
    let a = place(random, &campus.releases)?;
    let b = random.between(a, campus.releases.len() - 1);
    (campus.releases[a].house < campus.releases[b].house).then_some(())?;
    campus.releases.swap(a, b);
    Some(campus.octets())
}

fn unknown_release_houses_fall(random: &mut Random, mut campus: Campus) -> Option<Vec<u8>> {
    (campus.releases.len() > 1).then_some(())?;
    if random.chance(50) {
        campus.releases[0].house = random.pick(&[9, 200, 255]);
    } else {
        campus.releases.last_mut()?.house = 0;
    }
    Some(campus.octets())
}

fn release_times_fall(random: &mut Random, mut campus: Campus) -> Option<Vec<u8>> {
    let a = place(random, &campus.releases)?;
    let next = campus.releases.get(a + 1)?;
    let (one, house) = (&campus.releases[a], next.house);
    (one.house == house && one.time < next.time).then_some(())?;
    campus.releases.swap(a, a + 1);
    Some(campus.octets())
}

// ---- form and soundness

/// Breaks a rule of soundness, but none of form.
pub fn unsettle(random: &mut Random, campus: &mut Campus) {
    match random.below(3) {
        0 => campus.scopes[0].ttl = 0,
        1 => campus.houses[0] = (1, 0),
        _ => campus.scopes[0].lowest = 0,
    }
}

fn form_and_unsound(random: &mut Random, mut campus: Campus) -> Option<Vec<u8>> {
    unsettle(random, &mut campus);
    let form = random.pick(&[cut, excess, equal_offsets, identifiers_fall, houses_fall]);
    form(random, campus)
}

fn names_and_unsound(random: &mut Random, mut campus: Campus) -> Option<Vec<u8>> {
    unsettle(random, &mut campus);
    let bad = random.pick(&[names_cut, wrong_flags, long_tag, long_text, many_names]);
    bad(random, campus)
}

fn releases_and_unsound(random: &mut Random, mut campus: Campus) -> Option<Vec<u8>> {
    unsettle(random, &mut campus);
    let bad = random.pick(&[
        releases_cut,
        releases_excess,
        release_houses_fall,
        release_times_fall,
    ]);
    bad(random, campus)
}

/// A file with a few octets changed, or a count. What it draws isn't foretold.
pub fn scrambled(random: &mut Random, campus: &Campus) -> Vec<u8> {
    let mut file = campus.octets();
    let before_names = campus.front().len();
    let before_holds = file.len() - campus.holds().len();
    let before_releases = before_holds - campus.releases().len();
    for _ in 0..random.pick(&[1, 1, 1, 2, 5]) {
        let parts = [
            0..before_names,
            0..file.len(),
            before_releases..before_holds,
            before_holds..file.len(),
        ];
        let part = random.pick(&parts);
        let place = random.between(part.start, part.end - 1);
        file[place] = match random.below(4) {
            0 => file[place] ^ (1 << random.below(8)),
            1 => file[place].wrapping_add(1),
            2 => file[place].wrapping_sub(1),
            _ => random.octet(),
        };
    }
    file
}

/// Damages octets in one to four places: octets changed, put in, taken out; the end cut off or grown.
pub fn battered(random: &mut Random, octets: &mut Vec<u8>) {
    for _ in 0..random.between(1, 4) {
        let place = random.below(octets.len() + 1);
        let inside = place < octets.len();
        match random.below(8) {
            0 => octets.truncate(place),
            1 => {
                for _ in 0..random.pick(&[1, 2, 4, 12, 300]) {
                    let octet = random.octet();
                    octets.push(random.pick(&[0, octet]));
                }
            }
            2 => octets.insert(place, random.octet()),
            3 if inside => drop(octets.remove(place)),
            4 if inside => {
                octets[place] =
                    random.pick(&[0, 1, 2, 16, 17, 32, 33, 64, 65, 127, 128, 129, 254, 255])
            }
            5..=7 if inside => octets[place] ^= 1 << random.below(8),
            _ => {}
        }
    }
}
