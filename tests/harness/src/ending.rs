//! Records in order of ending, which no octet of a file or reply shows: how a house's records stand before a call, what the clock takes from their front, and where
//! what enters goes, counted so that each of these is known to have occurred where both programs did the same.

use builder::*;

const OTHERWISE: &str = "by ending otherwise than by identifier";
const TIE: &str = "two that end together";
const TIE_OF_KINDS: &str = "a hold that lapses as a lease ends";
const LAPSE: &str = "a hold before a lease that its period's end would put behind it";
const PREFIX: &str = "two that end together, one identifier the other's beginning";
const OF_HOUSES: [&str; 5] = [OTHERWISE, TIE, TIE_OF_KINDS, LAPSE, PREFIX];
const FRONT: &str = "the first end, others live";
const BOTH_KINDS: &str = "a lease and a hold end";
const ALL: &str = "all of a house's end";
const TWO_HOUSES: &str = "of two houses at once";
const OF_CLOCKS: [&str; 4] = [FRONT, BOTH_KINDS, ALL, TWO_HOUSES];
/// Where what enters goes among the others.
const PLACES: [&str; 4] = ["alone", "before all", "between", "behind all"];
const ENTERS: [&str; 2] = ["a lease", "a hold"];
const MOVED: &str = "a renewed lease passes another";
const STAYED: &str = "a renewed lease passes none";
const TURNED: &str = "a hold taken up passes another";

pub fn counted() -> Vec<String> {
    let mut names: Vec<String> = OF_HOUSES.map(String::from).to_vec();
    names.extend(OF_CLOCKS.map(|name| format!("ended: {name}")));
    for what in ENTERS {
        names.extend(PLACES.map(|place| format!("entered: {what}, {place}")));
    }
    names.extend([MOVED, STAYED, TURNED].map(String::from));
    names
}

/// A record of a house: ending, identifier, whether it is a hold, its period's end.
type Record<'a> = (u32, &'a [u8], bool, u32);

/// A house's records, the first to end first, ties by identifier.
fn records(campus: &Campus, house: u8) -> Vec<Record<'_>> {
    let leases = campus.leases.iter().map(|lease| (lease, lease.end, false));
    let holds = campus
        .holds
        .iter()
        .map(|hold| (&hold.lease, hold.lapse, true));
    let mut records: Vec<Record> = leases
        .chain(holds)
        .filter(|(lease, _, _)| lease.house == house)
        .map(|(lease, ending, is_hold)| (ending, &lease.identifier[..], is_hold, lease.end))
        .collect();
    records.sort();
    records
}

fn of_house(records: &[Record]) -> Vec<&'static str> {
    let pairs = || {
        records.iter().enumerate().flat_map(|(place, first)| {
            records[place + 1..]
                .iter()
                .map(move |second| (first, second))
        })
    };
    let has =
        |test: fn(&Record, &Record) -> bool| pairs().any(|(first, second)| test(first, second));
    let tests: [(&str, fn(&Record, &Record) -> bool); 5] = [
        (OTHERWISE, |a, b| a.1 > b.1),
        (TIE, |a, b| a.0 == b.0),
        (TIE_OF_KINDS, |a, b| a.0 == b.0 && a.2 != b.2),
        (LAPSE, |a, b| a.2 && !b.2 && a.3 > b.3),
        (PREFIX, |a, b| a.0 == b.0 && b.1.starts_with(a.1)),
    ];
    tests
        .into_iter()
        .filter(|row| has(row.1))
        .map(|row| row.0)
        .collect()
}

/// Where a record stands among the others of its house.
fn place(records: &[Record], identifier: &[u8]) -> &'static str {
    let at = records.iter().position(|record| record.1 == identifier);
    match at {
        _ if records.len() == 1 => PLACES[0],
        Some(0) => PLACES[1],
        Some(at) if at + 1 == records.len() => PLACES[3],
        _ => PLACES[2],
    }
}

/// Those of the others that stand before it.
fn before_it<'a>(records: &[Record<'a>], identifier: &[u8]) -> Vec<&'a [u8]> {
    let others = records.iter().take_while(|record| record.1 != identifier);
    others.map(|record| record.1).collect()
}

/// What is to be counted of a call by the campus before and after it. Discards 1 and 2 leave the clock as it is, and are not asked for.
pub fn why(before: &Campus, after: &Campus) -> Vec<String> {
    let (mut why, mut houses) = (Vec::new(), 0);
    for house in 1..=before.houses.len() as u8 {
        let (stood, stand) = (records(before, house), records(after, house));
        why.extend(of_house(&stood).into_iter().map(String::from));
        let (ended, lived): (Vec<Record>, Vec<Record>) =
            stood.iter().partition(|record| record.0 <= after.clock);
        houses += usize::from(!ended.is_empty());
        let rows = [
            (FRONT, !ended.is_empty() && !lived.is_empty()),
            (
                BOTH_KINDS,
                ended.iter().any(|r| r.2) && ended.iter().any(|r| !r.2),
            ),
            (ALL, ended.len() > 1 && lived.is_empty()),
        ];
        why.extend(
            rows.iter()
                .filter(|row| row.1)
                .map(|row| format!("ended: {}", row.0)),
        );
        why.extend(
            stand
                .iter()
                .flat_map(|record| moved(&lived, &stand, record)),
        );
    }
    if houses > 1 {
        why.push(format!("ended: {TWO_HOUSES}"));
    }
    why
}

/// What became of a record that wasn't there, or not so.
fn moved(lived: &[Record], stand: &[Record], record: &Record) -> Option<String> {
    if lived.contains(record) {
        return None;
    }
    let Some(old) = lived.iter().find(|old| old.1 == record.1) else {
        let what = ENTERS[usize::from(record.2)];
        return Some(format!("entered: {what}, {}", place(stand, record.1)));
    };
    let passes = before_it(lived, record.1) != before_it(stand, record.1);
    let name = match (old.2, passes) {
        (true, true) => TURNED,
        (true, false) => return None,
        (false, true) => MOVED,
        (false, false) => STAYED,
    };
    Some(name.into())
}
