//! What is wrong with the holds of a damaged campus file: their own rules, those that they share with leases, and the form of their section.

use crate::campus::{holding, is_fresh, new_lease, RECORDS};
use crate::damage::{full_layout, lengthen, ordered, place, unsettle, with_section, HOLDS};
use crate::holds::{lapse, of_lease, HOLD_TIME};
use crate::random::Random;
use builder::{Campus, Hold, Lease, Release, Scope, DISCOVER};

/// The file with a hold changed, and the holds put in order again. `None` where it has none, or the change says so.
pub fn with_hold(
    random: &mut Random,
    mut campus: Campus,
    change: impl FnOnce(&mut Random, &Campus, &mut Hold) -> Option<()>,
) -> Option<Vec<u8>> {
    let hold = place(random, &campus.holds)?;
    let mut changed = campus.holds[hold].clone();
    change(random, &campus, &mut changed)?;
    campus.holds[hold] = changed;
    ordered(campus)
}

/// The same for a change that goes by the clock.
pub fn with_times(
    random: &mut Random,
    campus: Campus,
    change: impl FnOnce(u32, &mut Hold) -> Option<()>,
) -> Option<Vec<u8>> {
    with_hold(random, campus, |_, campus, hold| change(campus.clock, hold))
}

pub fn of_type(random: &mut Random, campus: Campus, kinds: &[u8]) -> Option<Vec<u8>> {
    let kind = random.pick(kinds);
    with_hold(random, campus, |_, _, hold| {
        hold.lease.kind = kind;
        Some(())
    })
}

pub fn lease_of_type_1(random: &mut Random, mut campus: Campus) -> Option<Vec<u8>> {
    let lease = place(random, &campus.leases)?;
    campus.leases[lease].kind = DISCOVER;
    ordered(campus)
}

/// A second or more after what is allowed, where its end allows it.
pub fn lapses_late(random: &mut Random, campus: Campus, seconds: u32) -> Option<Vec<u8>> {
    with_times(random, campus, |clock, hold| {
        hold.lapse = clock.checked_add(HOLD_TIME + seconds)?;
        (hold.lapse <= hold.lease.end).then_some(())
    })
}

/// After its end, but not too long after the clock.
pub fn lapses_after_its_end(random: &mut Random, campus: Campus) -> Option<Vec<u8>> {
    let more = random.pick(&[1, 1, 2, 10]);
    with_times(random, campus, |clock, hold| {
        hold.lapse = hold.lease.end.checked_add(more)?;
        (hold.lapse - clock <= HOLD_TIME).then_some(())
    })
}

pub fn ends_at_the_clock(random: &mut Random, campus: Campus) -> Option<Vec<u8>> {
    let before = random.pick(&[0, 0, 1]);
    with_times(random, campus, |clock, hold| {
        hold.lease.end = clock.checked_sub(before)?;
        hold.lease.start = hold.lease.end.checked_sub(1)?.min(hold.lease.start);
        Some(())
    })
}

pub fn with_identifier(random: &mut Random, campus: Campus, length: usize) -> Option<Vec<u8>> {
    with_hold(random, campus, |_, _, hold| {
        hold.lease.identifier.resize(length, b'x');
        Some(())
    })
}

pub fn of_house(random: &mut Random, campus: Campus, house: u8) -> Option<Vec<u8>> {
    with_hold(random, campus, |_, _, hold| {
        hold.lease.house = house;
        Some(())
    })
}

pub fn of_scope(random: &mut Random, campus: Campus, scope: u8) -> Option<Vec<u8>> {
    with_hold(random, campus, |_, _, hold| {
        hold.lease.scope = scope;
        Some(())
    })
}

pub fn offset_at_size(random: &mut Random, campus: Campus) -> Option<Vec<u8>> {
    with_hold(random, campus, |random, campus, hold| {
        let size = campus.scopes[usize::from(hold.lease.scope) - 1].size;
        *hold.lease.offsets.last_mut()? = random.pick(&[size, size, size + 1, 255]);
        Some(())
    })
}

/// A hold takes the identifier of another entry, of the same house or of another, as is meant.
fn with_identifier_of(
    random: &mut Random,
    mut campus: Campus,
    entries: Vec<(u8, Vec<u8>)>,
    is_same_house: bool,
) -> Option<Vec<u8>> {
    let (entry, hold) = (place(random, &entries)?, place(random, &campus.holds)?);
    let (house, identifier) = entries[entry].clone();
    let own = campus.holds[hold].lease.house;
    let differs = identifier != campus.holds[hold].lease.identifier;
    let is_free = is_same_house || is_fresh(&campus, own, &identifier);
    ((own == house) == is_same_house && differs && is_free).then_some(())?;
    campus.holds[hold].lease.identifier = identifier;
    ordered(campus)
}

pub fn on_a_lease(random: &mut Random, campus: Campus, is_same_house: bool) -> Option<Vec<u8>> {
    let named = |lease: &Lease| (lease.house, lease.identifier.clone());
    let entries = campus.leases.iter().map(named).collect();
    with_identifier_of(random, campus, entries, is_same_house)
}

pub fn on_a_hold(random: &mut Random, campus: Campus, is_same_house: bool) -> Option<Vec<u8>> {
    let named = |hold: &Hold| (hold.lease.house, hold.lease.identifier.clone());
    let entries = campus.holds.iter().map(named).collect();
    with_identifier_of(random, campus, entries, is_same_house)
}

pub fn on_a_release(random: &mut Random, campus: Campus, is_same_house: bool) -> Option<Vec<u8>> {
    let named = |release: &Release| (release.house, release.identifier.clone());
    let entries = campus.releases.iter().map(named).collect();
    with_identifier_of(random, campus, entries, is_same_house)
}

/// Leases and holds of a house.
fn records_of(campus: &Campus, house: u8) -> (usize, usize) {
    let leases = campus.leases.iter().filter(|lease| lease.house == house);
    let holds = campus.holds.iter();
    let holds = holds.filter(|hold| hold.lease.house == house);
    (leases.count(), holds.count())
}

/// Gives a house without holds more leases, and turns some into holds, so that it has this many of both.
fn bring_to(
    random: &mut Random,
    campus: &mut Campus,
    house: u8,
    leases: usize,
    holds: usize,
) -> Option<()> {
    lengthen(random, campus, house, leases + holds)?;
    let (mut kept, mut held) = (Vec::new(), Vec::new());
    let mut have = 0;
    for lease in std::mem::take(&mut campus.leases) {
        if lease.house == house {
            have += 1;
        }
        match lease.house == house && have > leases {
            true => held.push(of_lease(campus, random, lease)),
            false => kept.push(lease),
        }
    }
    campus.leases = kept;
    campus.holds.extend(held);
    (records_of(campus, house) == (leases, holds)).then_some(())
}

/// A house with this many leases and holds, where one has a lease and no hold.
pub fn many(
    random: &mut Random,
    mut campus: Campus,
    leases: usize,
    holds: usize,
) -> Option<Vec<u8>> {
    let house = campus.leases[place(random, &campus.leases)?].house;
    campus.holds.retain(|hold| hold.lease.house != house);
    (records_of(&campus, house).0 <= leases + holds).then_some(())?;
    bring_to(random, &mut campus, house, leases, holds)?;
    ordered(campus)
}

/// So many records of a house, leases and holds among them.
pub fn many_of_both(random: &mut Random, campus: Campus, count: usize) -> Option<Vec<u8>> {
    let leases = random.between(1, (count - 1).min(RECORDS));
    many(random, campus, leases, count - leases)
}

/// More than 128 records, neither 128 leases nor 128 holds.
pub fn more_than_128(random: &mut Random, campus: Campus) -> Option<Vec<u8>> {
    let mut full = full_layout(random, &campus, false, true);
    let half = full.leases.split_off(64);
    let held = half.into_iter().map(|lease| of_lease(&full, random, lease));
    full.holds = held.collect();
    let last = full.holds.last()?.lease.clone();
    let end = full.holds.iter().map(|hold| hold.lease.end).max()?;
    add(random, &mut full, &last, (end, end + 1));
    ordered(full)
}

pub fn all_128(random: &mut Random, campus: Campus) -> Option<Vec<u8>> {
    ordered(full_layout(random, &campus, true, true))
}

/// A hold on an address of a record like this, a second of which is in both periods.
pub fn overlaps(random: &mut Random, mut campus: Campus, is_lease: bool) -> Option<Vec<u8>> {
    let other = match is_lease {
        true => campus.leases[place(random, &campus.leases)?].clone(),
        false => campus.holds[place(random, &campus.holds)?].lease.clone(),
    };
    let (leases, holds) = records_of(&campus, other.house);
    (leases + holds < RECORDS).then_some(())?;
    let period = match random.below(4) {
        0 => (other.start, other.end),
        1 => (other.start.checked_sub(1)?, other.start + 1),
        _ => (
            other.end - 1,
            other.end.checked_add(random.pick(&[0, 100]))?,
        ),
    };
    (period.1 > campus.clock).then_some(())?;
    add(random, &mut campus, &other, period);
    ordered(campus)
}

/// A hold that begins where the last lease on its address ends.
pub fn touches(random: &mut Random, mut campus: Campus) -> Option<Vec<u8>> {
    let lease = campus.leases[place(random, &campus.leases)?].clone();
    let (leases, holds) = records_of(&campus, lease.house);
    (leases + holds < RECORDS).then_some(())?;
    let on_it = |other: &&Lease| {
        let mut offsets = other.offsets.iter();
        other.scope == lease.scope && offsets.any(|o| lease.offsets.contains(o))
    };
    let last = campus.records().filter(on_it).map(|other| other.end).max();
    (last == Some(lease.end)).then_some(())?;
    let end = lease.end.checked_add(random.pick(&[1, 3_600]))?;
    add(random, &mut campus, &lease, (lease.end, end));
    ordered(campus)
}

/// A hold of the same house on one of the addresses.
fn add(random: &mut Random, campus: &mut Campus, of: &Lease, period: (u32, u32)) {
    let (house, scope) = (usize::from(of.house) - 1, usize::from(of.scope) - 1);
    let offset = random.pick(&of.offsets);
    let lease = new_lease(campus, random, house, scope, period, vec![offset]);
    let hold = of_lease(campus, random, lease);
    campus.holds.push(hold);
}

/// An address of another house's lease or hold, at another time. Shares and limits are made to allow it.
pub fn two_houses(random: &mut Random, mut campus: Campus, is_lease: bool) -> Option<Vec<u8>> {
    let hold = campus.holds[place(random, &campus.holds)?].clone();
    let other = match is_lease {
        true => campus.leases[place(random, &campus.leases)?].clone(),
        false => campus.holds[place(random, &campus.holds)?].lease.clone(),
    };
    let one = &hold.lease;
    (one.house != other.house && one.scope == other.scope).then_some(())?;
    (one.end <= other.start || other.end <= one.start).then_some(())?;
    let stays = |lease: &Lease| lease.scope != one.scope || *lease == other;
    campus.leases.retain(stays);
    campus
        .holds
        .retain(|held| stays(&held.lease) || *held == hold);
    let held = campus.holds.iter_mut().find(|held| **held == hold)?;
    held.lease.offsets.push(random.pick(&other.offsets));
    held.lease.offsets.sort_unstable();
    let scope = &mut campus.scopes[usize::from(one.scope) - 1];
    let size = scope.size;
    scope.parts.fill((0, size));
    (one.offsets.len() + 1 + other.offsets.len() <= usize::from(size)).then_some(())?;
    ordered(campus)
}

/// The leases alone are within the house's limit.
pub fn above_the_limit(random: &mut Random, mut campus: Campus) -> Option<Vec<u8>> {
    let Lease { house, scope, .. } = campus.holds[place(random, &campus.holds)?].lease;
    let limit = holding(&campus, house, scope) - 1;
    (holding(&without_holds(&campus), house, scope) <= limit).then_some(())?;
    let part = &mut campus.scopes[usize::from(scope) - 1].parts[usize::from(house) - 1];
    *part = (part.0.min(limit as u8), limit as u8);
    ordered(campus)
}

/// Shares fill the size but for what the leases have above them, so that a hold is too much.
pub fn above_the_size(random: &mut Random, mut campus: Campus) -> Option<Vec<u8>> {
    let Lease { house, scope, .. } = campus.holds[place(random, &campus.holds)?].lease;
    let unheld = without_holds(&campus);
    let holdings = |campus: &Campus| -> Vec<usize> {
        let houses = 1..=campus.houses.len() as u8;
        houses.map(|house| holding(campus, house, scope)).collect()
    };
    let (with, without) = (holdings(&campus), holdings(&unheld));
    let raised = random.below(campus.houses.len());
    (raised + 1 != usize::from(house)).then_some(())?;
    let Scope { size, parts, .. } = &mut campus.scopes[usize::from(scope) - 1];
    parts[usize::from(house) - 1] = (0, *size);
    let sum = |holdings: &[usize], parts: &[(u8, u8)]| -> usize {
        let larger = |(place, part): (usize, &(u8, u8))| holdings[place].max(part.0.into());
        parts.iter().enumerate().map(larger).sum()
    };
    let share =
        (usize::from(*size) + usize::from(parts[raised].0)).checked_sub(sum(&without, parts))?;
    (share > with[raised] && share <= usize::from(*size)).then_some(())?;
    parts[raised] = (share as u8, *size);
    let size = usize::from(*size);
    (sum(&without, parts) <= size && sum(&with, parts) > size).then_some(())?;
    ordered(campus)
}

fn without_holds(campus: &Campus) -> Campus {
    Campus {
        holds: Vec::new(),
        ..campus.clone()
    }
}

// ---- form

/// The file ends inside of the holds.
pub fn cut(random: &mut Random, campus: Campus, last: usize) -> Option<Vec<u8>> {
    (!campus.holds.is_empty()).then_some(())?;
    with_section(&campus, HOLDS, |section| {
        let most = last.min(section.len() - 1);
        section.truncate(section.len() - random.between(1, most));
    })
}

pub fn laid_out_as_leases(_: &mut Random, campus: Campus) -> Option<Vec<u8>> {
    (!campus.holds.is_empty()).then_some(())?;
    with_section(&campus, HOLDS, |section| {
        section.truncate(1);
        let leases = campus.holds.iter().map(|hold| hold.lease.octets());
        section.extend(leases.flatten());
    })
}

pub fn excess(random: &mut Random, campus: Campus) -> Option<Vec<u8>> {
    let more = match campus.holds.last() {
        Some(last) if random.chance(30) => last.octets(),
        _ => vec![random.pick(&[0, 0, 1, 255]); random.pick(&[1, 1, 2, 12])],
    };
    with_section(&campus, HOLDS, |section| section.extend(more))
}

/// The sections in another order, where that shows.
pub fn moved(campus: Campus, order: [usize; 4]) -> Option<Vec<u8>> {
    (!campus.holds.is_empty()).then_some(())?;
    let sections = campus.sections();
    Some(order.map(|place| sections[place].clone()).concat())
}

/// Two holds like these change places.
pub fn swapped(
    random: &mut Random,
    mut campus: Campus,
    is_meant: fn(&Lease, &Lease) -> bool,
) -> Option<Vec<u8>> {
    let a = place(random, &campus.holds)?;
    let b = random.between(a, campus.holds.len() - 1);
    is_meant(&campus.holds[a].lease, &campus.holds[b].lease).then_some(())?;
    campus.holds.swap(a, b);
    Some(campus.octets())
}

pub fn unknown_houses_fall(random: &mut Random, mut campus: Campus) -> Option<Vec<u8>> {
    (campus.holds.len() > 1).then_some(())?;
    if random.chance(50) {
        campus.holds[0].lease.house = random.pick(&[200, 255]);
    } else {
        campus.holds.last_mut()?.lease.house = 0;
    }
    Some(campus.octets())
}

pub fn prefix_last(random: &mut Random, mut campus: Campus) -> Option<Vec<u8>> {
    let place = place(random, &campus.holds)?;
    let one = campus.holds[place].lease.clone();
    let next = &mut campus.holds.get_mut(place + 1)?.lease;
    (one.house == next.house && one.identifier.len() > 2).then_some(())?;
    let length = random.between(2, one.identifier.len() - 1);
    next.identifier = one.identifier[..length].to_vec();
    Some(campus.octets())
}

pub fn equal_offsets(random: &mut Random, mut campus: Campus) -> Option<Vec<u8>> {
    let hold = place(random, &campus.holds)?;
    let offsets = &mut campus.holds[hold].lease.offsets;
    let place = random.below(offsets.len());
    offsets.insert(place, offsets[place]);
    Some(campus.octets())
}

pub fn falling_offsets(random: &mut Random, mut campus: Campus) -> Option<Vec<u8>> {
    let hold = place(random, &campus.holds)?;
    let offsets = &mut campus.holds[hold].lease.offsets;
    (offsets.len() > 1).then_some(())?;
    let place = random.below(offsets.len() - 1);
    offsets.swap(place, place + 1);
    Some(campus.octets())
}

/// A wrong form of the holds, and a rule of soundness broken elsewhere or by a hold.
pub fn form_and_unsound(random: &mut Random, mut campus: Campus) -> Option<Vec<u8>> {
    if let (Some(hold), true) = (campus.holds.first_mut(), random.chance(50)) {
        hold.lapse = lapse(campus.clock, hold.lease.end).saturating_add(1);
    } else {
        unsettle(random, &mut campus);
    }
    let falls = |one: &Lease, other: &Lease| one.key() < other.key();
    match random.below(4) {
        0 => cut(random, campus, usize::MAX),
        1 => excess(random, campus),
        2 => equal_offsets(random, campus),
        _ => swapped(random, campus, falls),
    }
}
