//! Campus files to salvage: those of sound campuses with one or more of their leases, holds and releases spoiled, each in its own way, some in two.

use crate::campus::{fresh_identifier, new_lease, sound, RECORDS};
use crate::damage::{lengthen, ordered, place};
use crate::holds::{of_lease, HOLD_TIME};
use crate::random::Random;
use crate::releases::{new_release, MOST_RELEASES};
use builder::{Campus, Hold, Lease, Release, DISCOVER};

/// Spoils something of a campus; `None` where there is nothing of the kind.
type Spoil = fn(&mut Random, &mut Campus) -> Option<()>;

/// More leases, holds or releases than there may be. They go by what is there, so that they come before all changes.
const MORE: [Spoil; 7] = [
    |random, campus| {
        // One more than the house has records for, or some more.
        let house = any_record(random, campus)?.house;
        let count = RECORDS + random.pick(&[1, 2, 5]);
        lengthen(random, campus, house, count)
    },
    |random, campus| {
        // An address of another house, at another time or at the same.
        let other = any_record(random, campus)?.clone();
        let mut like = copy_of(random, campus, &other)?;
        like.house = 1 + random.below(campus.houses.len()) as u8;
        later(random, &mut like);
        add(random, campus, like);
        Some(())
    },
    |random, campus| {
        // The same addresses and time again.
        let other = any_record(random, campus)?.clone();
        let like = copy_of(random, campus, &other)?;
        add(random, campus, like);
        Some(())
    },
    |random, campus| {
        // More addresses than the house has had so far, in a period of their own.
        let (house, scope) = any_part(random, campus);
        let size = campus.scopes[scope].size;
        let end = campus.clock.checked_add(5)?;
        let taken: Vec<u8> = of_others(campus, house, scope);
        let offsets: Vec<u8> = (0..size).filter(|o| !taken.contains(o)).collect();
        let offsets = match random.chance(50) {
            true => offsets,
            false => offsets.into_iter().filter(|_| random.chance(70)).collect(),
        };
        (!offsets.is_empty()).then_some(())?;
        let start = campus.clock.checked_add(random.pick(&[0, 4]))?;
        let lease = new_lease(campus, random, house, scope, (start, end), offsets);
        add(random, campus, lease);
        Some(())
    },
    |random, campus| {
        // A house that has a share and nothing else meets one that has too much of the scope.
        let scope = random.below(campus.scopes.len());
        let parts = &campus.scopes[scope].parts;
        let house = (0..parts.len()).max_by_key(|house| parts[*house].1 - parts[*house].0)?;
        let most = usize::from(parts[house].1);
        let taken = of_others(campus, house, scope);
        let free = (0..campus.scopes[scope].size).filter(|o| !taken.contains(o));
        let offsets: Vec<u8> = free.take(most).collect();
        (!offsets.is_empty()).then_some(())?;
        let end = campus.clock.checked_add(1)?;
        let lease = new_lease(campus, random, house, scope, (campus.clock, end), offsets);
        add(random, campus, lease);
        Some(())
    },
    |random, campus| {
        // One that takes the addresses and the time of another, and has lapsed, is of another type, or lapses too late.
        let other = any_record(random, campus)?.clone();
        let like = copy_of(random, campus, &other)?;
        let late = campus.clock.saturating_add(HOLD_TIME + 1);
        let kind = random.pick(&[DISCOVER, DISCOVER, 3]);
        let lapse = random.pick(&[campus.clock, campus.clock.saturating_sub(9), late]);
        campus.holds.push(Hold {
            lapse,
            lease: Lease { kind, ..like },
        });
        Some(())
    },
    |random, campus| {
        let (house, _) = any_part(random, campus);
        for _ in 0..MOST_RELEASES + random.below(3) {
            let release = new_release(campus, random, house as u8 + 1);
            campus.releases.push(release);
        }
        Some(())
    },
];

/// Changes of a lease or hold.
const OF_RECORDS: [Spoil; 11] = [
    |random, campus| {
        let length = random.pick(&[0, 1, 33, 255]);
        any_record(random, campus)?.identifier.resize(length, b'x');
        Some(())
    },
    |random, campus| {
        let past = random.pick(&[0, 0, 1, 191]);
        let scopes = campus.scopes.clone();
        let record = any_record(random, campus)?;
        let size = scopes.get(usize::from(record.scope).wrapping_sub(1))?.size;
        *record.offsets.last_mut()? = size.saturating_add(past).max(record.offsets.len() as u8);
        record.offsets.dedup();
        Some(())
    },
    |random, campus| {
        let count = random.pick(&[65, 66, 255]);
        let record = any_record(random, campus)?;
        record.offsets = (0..count).collect();
        Some(())
    },
    |random, campus| {
        let next = campus.houses.len() as u8 + 1;
        let house = random.pick(&[0, next, 9, 200]);
        any_record(random, campus)?.house = house;
        Some(())
    },
    |random, campus| {
        let next = campus.scopes.len() as u8 + 1;
        let scope = random.pick(&[0, next, 5, 200]);
        any_record(random, campus)?.scope = scope;
        Some(())
    },
    |random, campus| {
        let lease = place(random, &campus.leases)?;
        campus.leases[lease].kind = random.pick(&[0, 1, 2, 5, 255]);
        Some(())
    },
    |random, campus| {
        let more = random.pick(&[0, 0, 1]);
        let record = any_record(random, campus)?;
        record.start = record.end.saturating_add(more);
        Some(())
    },
    |random, campus| {
        let end = campus.clock.saturating_sub(random.pick(&[0, 0, 1]));
        let record = any_record(random, campus)?;
        (record.start, record.end) = (record.start.min(end.saturating_sub(1)), end);
        Some(())
    },
    |random, campus| {
        any_record(random, campus)?.offsets.clear();
        Some(())
    },
    |random, campus| {
        // What a rule that comes later is broken by as well.
        let record = any_record(random, campus)?;
        record.offsets = (0..random.pick(&[2, 4, 64])).collect();
        Some(())
    },
    |random, campus| {
        // An identifier of the house again.
        let like = any_record(random, campus)?.clone();
        let record = any_record(random, campus)?;
        (record.house, record.identifier) = (like.house, like.identifier);
        Some(())
    },
];

/// Changes of a hold's type and lapse.
const OF_HOLDS: [Spoil; 4] = [
    |random, campus| {
        let kind = random.pick(&[0, 2, 3, 3, 4, 255]);
        any_hold(random, campus)?.lease.kind = kind;
        Some(())
    },
    |random, campus| {
        let lapse = campus.clock.saturating_sub(random.pick(&[0, 0, 1, 30]));
        any_hold(random, campus)?.lapse = lapse;
        Some(())
    },
    |random, campus| {
        let late = campus
            .clock
            .checked_add(HOLD_TIME + random.pick(&[1, 1, 500]))?;
        any_hold(random, campus)?.lapse = late;
        Some(())
    },
    |random, campus| {
        let clock = campus.clock;
        let hold = any_hold(random, campus)?;
        hold.lease.end = clock.checked_add(3)?;
        hold.lease.start = hold.lease.start.min(clock);
        hold.lapse = clock.checked_add(random.pick(&[4, 20]))?;
        Some(())
    },
];

/// Changes of a release.
const OF_RELEASES: [Spoil; 5] = [
    |random, campus| {
        let next = campus.houses.len() as u8 + 1;
        any_release(random, campus)?.house = random.pick(&[0, next, 9, 200]);
        Some(())
    },
    |random, campus| {
        let length = random.pick(&[0, 1, 33, 255]);
        any_release(random, campus)?.identifier.resize(length, b'x');
        Some(())
    },
    |random, campus| {
        let like = any_release(random, campus)?.clone();
        let release = any_release(random, campus)?;
        (release.house, release.identifier) = (like.house, like.identifier);
        Some(())
    },
    |random, campus| {
        let like = any_record(random, campus)?.clone();
        let release = any_release(random, campus)?;
        (release.house, release.identifier) = (like.house, like.identifier);
        Some(())
    },
    |random, campus| {
        let time = campus.clock.checked_add(random.pick(&[1, 1, 1_000]))?;
        any_release(random, campus)?.time = time;
        Some(())
    },
];

fn any_record<'a>(random: &mut Random, campus: &'a mut Campus) -> Option<&'a mut Lease> {
    let leases = campus.leases.len();
    let place = random.below((leases + campus.holds.len()).max(1));
    match place.checked_sub(leases) {
        None => campus.leases.get_mut(place),
        Some(place) => campus.holds.get_mut(place).map(|hold| &mut hold.lease),
    }
}

fn any_hold<'a>(random: &mut Random, campus: &'a mut Campus) -> Option<&'a mut Hold> {
    let hold = place(random, &campus.holds)?;
    campus.holds.get_mut(hold)
}

fn any_release<'a>(random: &mut Random, campus: &'a mut Campus) -> Option<&'a mut Release> {
    let release = place(random, &campus.releases)?;
    campus.releases.get_mut(release)
}

/// A house and a scope, from 0.
fn any_part(random: &mut Random, campus: &Campus) -> (usize, usize) {
    let house = random.below(campus.houses.len());
    (house, random.below(campus.scopes.len()))
}

/// The addresses of a scope that other houses have; house and scope from 0.
fn of_others(campus: &Campus, house: usize, scope: usize) -> Vec<u8> {
    let of_scope = |lease: &&Lease| usize::from(lease.scope) == scope + 1;
    let records = campus.records().filter(of_scope);
    let others = records.filter(|lease| usize::from(lease.house) != house + 1);
    others.flat_map(|lease| lease.offsets.clone()).collect()
}

/// The same with an identifier of its own, if its house is known.
fn copy_of(random: &mut Random, campus: &Campus, lease: &Lease) -> Option<Lease> {
    let is_known = (1..=campus.houses.len()).contains(&lease.house.into());
    let kind = random.pick(&[3, 4]);
    is_known.then(|| Lease {
        identifier: fresh_identifier(campus, random, lease.house),
        kind,
        ..lease.clone()
    })
}

/// At times in a period that only touches.
fn later(random: &mut Random, lease: &mut Lease) {
    if let (Some(end), true) = (lease.end.checked_add(10), random.chance(50)) {
        (lease.start, lease.end) = (lease.end, end);
    }
}

/// As a lease or as a hold.
fn add(random: &mut Random, campus: &mut Campus, lease: Lease) {
    if lease.end > campus.clock && random.chance(50) {
        let hold = of_lease(campus, random, lease);
        campus.holds.push(hold);
    } else {
        campus.leases.push(lease);
    }
}

/// The file of a campus that is spoiled in some ways, or in none. It has its form, and sound settings.
pub fn wreck(random: &mut Random) -> Option<Vec<u8>> {
    let mut campus = sound(random);
    for _ in 0..random.pick(&[0, 1, 1, 3, 6]) {
        random.pick(&MORE)(random, &mut campus);
    }
    if random.chance(30) {
        // One of each is left, so that changes meet on it.
        campus.leases.truncate(1);
        campus.holds.truncate(1);
        campus.releases.truncate(1);
    }
    let parts: [&[Spoil]; 3] = [&OF_RECORDS, &OF_HOLDS, &OF_RELEASES];
    for _ in 0..random.pick(&[0, 1, 1, 2, 4, 10]) {
        // What is changed already may be changed again.
        let part = random.pick(&parts);
        random.pick(part)(random, &mut campus);
    }
    let counts = [
        campus.leases.len(),
        campus.releases.len(),
        campus.holds.len(),
    ];
    let fit = counts.iter().all(|&count| count <= 255);
    ordered(campus).filter(|_| fit)
}
