//! Names of the scopes: lists of every kind, languages to ask for, and the name that is due, with why it is. What is due is read off the
//! campus that a case was made of, so that every branch of the choice is counted where the reply alone wouldn't show it.

use crate::random::Random;
use builder::{scope_list, value_of, Call, Campus, Coded, Name, Scope};

/// The most names of a list, and the longest tag and text.
pub const MOST_NAMES: usize = 4;
pub const LONGEST_TAG: usize = 8;
pub const LONGEST_TEXT: usize = 32;
/// The flags of a default.
const DEFAULT: u8 = 128;

/// Few tags, so that lists share them; some are the beginning of another, and some differ in case only.
const TAGS: [&[u8]; 10] = [
    b"e",
    b"en",
    b"en",
    b"EN",
    b"en-GB",
    b"en-GB-ox",
    b"fr",
    b"fr-CA-qc",
    b"\0",
    b"\xFF\0",
];

/// A scope's lists: the campus list, then each house's own. All empty, all full, or of any length.
pub fn lists(random: &mut Random, houses: usize) -> Vec<Vec<Name>> {
    let style = random.below(25);
    let mut list = |_| {
        let count = match style {
            0 => MOST_NAMES,
            1..=4 => 0,
            _ => random.pick(&[0, 0, 0, 1, 1, 2, 3, MOST_NAMES]),
        };
        (0..count).map(|_| name(random)).collect()
    };
    (0..=houses).map(&mut list).collect()
}

pub fn name(random: &mut Random) -> Name {
    let length = random.pick(&[1, 1, 2, 3, 12, LONGEST_TEXT]);
    Name {
        flags: random.pick(&[0, 0, 0, DEFAULT]),
        tag: random.pick(&TAGS).to_vec(),
        text: random.octets(length),
    }
}

/// The longest lists: four names each, with tags of 8 octets and texts of 32.
pub fn full_lists(houses: usize) -> Vec<Vec<Name>> {
    let name = |list: usize, place: usize| Name {
        flags: DEFAULT,
        tag: format!("lang-{list:02}{place}").into_bytes(),
        text: format!("{:-<32}", format!("name {place} of list {list}")).into_bytes(),
    };
    (0..=houses)
        .map(|list| (0..MOST_NAMES).map(|place| name(list, place)).collect())
        .collect()
}

/// A language that a client of a house asks for: that of a name in its list, in the campus list or in another's; one that is longer or
/// shorter; or any octets.
pub fn language(random: &mut Random, campus: &Campus, house: usize) -> Vec<u8> {
    let list = match random.below(6) {
        0..=2 => house + 1,
        3 | 4 => 0,
        _ => random.below(campus.houses.len() + 1),
    };
    let scope = random.pick(&campus.scopes);
    let names = scope.names_of(list);
    let mut tag = match names.is_empty() || random.chance(20) {
        true => random.pick(&TAGS).to_vec(),
        false => random.pick(names).tag,
    };
    match random.below(14) {
        0 => tag.truncate((tag.len() - 1).max(1)),
        1 => tag.push(random.pick(&[0, b'-', b'n'])),
        2 => tag.resize(random.pick(&[8, 9, 9, 10, 40, 300]), b'-'),
        3 => {
            let length = random.pick(&[1, 2, 8, 9]);
            tag = random.octets(length);
        }
        _ => {}
    }
    tag
}

/// What has to occur in a default run: each way to a name or to none, and each way of nearly matching.
pub const COUNTED: [&str; 18] = [
    OWN,
    OWN_BEFORE_CAMPUS,
    CAMPUS,
    CAMPUS_BESIDE_OWN,
    FLAGGED,
    FIRST,
    NONE,
    NONE_BESIDE_OWN,
    UNASKED_FLAGGED,
    UNASKED_FIRST,
    UNASKED_NONE,
    LATER_FLAGGED,
    SECOND_MATCH,
    ANOTHERS,
    SHORTER,
    LONGER,
    NINE,
    NOT_NAMED,
];
const OWN: &str = "the house's own";
const OWN_BEFORE_CAMPUS: &str = "the house's own, the campus list has the language too";
const CAMPUS: &str = "the campus list's, the house has no names";
const CAMPUS_BESIDE_OWN: &str = "the campus list's, the house has names in other languages";
const FLAGGED: &str = "no match: the first flagged 128";
const FIRST: &str = "no match: the first, none is flagged";
const NONE: &str = "no match: none, there are no names";
const NONE_BESIDE_OWN: &str = "no match: none, the house alone has names";
const UNASKED_FLAGGED: &str = "no option 8: the first flagged 128";
const UNASKED_FIRST: &str = "no option 8: the first, none is flagged";
const UNASKED_NONE: &str = "no option 8: none, the campus list is empty";
const LATER_FLAGGED: &str = "the default isn't the first of its list";
const SECOND_MATCH: &str = "a list has the language twice";
const ANOTHERS: &str = "another house alone has the language";
const SHORTER: &str = "option 8 is the beginning of a tag";
const LONGER: &str = "a tag is the beginning of option 8";
const NINE: &str = "a tag is the first eight of nine octets or more";
const NOT_NAMED: &str = "option 8, but option 5 doesn't name 9";

fn first<'a>(names: &'a [Name], language: &[u8]) -> Option<&'a Name> {
    names.iter().find(|name| name.tag == language)
}

/// The name of a scope for a house (from 0), and why it is due.
fn due<'a>(
    scope: &'a Scope,
    house: usize,
    language: Option<&[u8]>,
) -> (Option<&'a Name>, &'static str) {
    let (campus, own) = (scope.names_of(0), scope.names_of(house + 1));
    let flagged = campus.iter().find(|name| name.flags == DEFAULT);
    let default = flagged.or(campus.first());
    let [by_flag, by_place, by_none] = match (language, own) {
        (None, _) => [UNASKED_FLAGGED, UNASKED_FIRST, UNASKED_NONE],
        (Some(_), []) => [FLAGGED, FIRST, NONE],
        (Some(_), _) => [FLAGGED, FIRST, NONE_BESIDE_OWN],
    };
    let of_own = language.and_then(|language| first(own, language));
    let of_campus = language.and_then(|language| first(campus, language));
    match (of_own, of_campus) {
        (Some(_), None) => (of_own, OWN),
        (Some(_), Some(_)) => (of_own, OWN_BEFORE_CAMPUS),
        (None, Some(_)) if own.is_empty() => (of_campus, CAMPUS),
        (None, Some(_)) => (of_campus, CAMPUS_BESIDE_OWN),
        (None, None) if flagged.is_some() => (flagged, by_flag),
        (None, None) if default.is_some() => (default, by_place),
        (None, None) => (None, by_none),
    }
}

/// What else is worth counting of a scope: nearly matching tags, and matches that don't count.
fn beside(scope: &Scope, house: usize, language: Option<&[u8]>) -> Vec<&'static str> {
    let (campus, own) = (scope.names_of(0), scope.names_of(house + 1));
    let mut found = Vec::new();
    let mut see = |what: &'static str, holds: bool| found.extend(holds.then_some(what));
    let flagged = campus.iter().position(|name| name.flags == DEFAULT);
    see(LATER_FLAGGED, flagged.is_some_and(|place| place > 0));
    let Some(language) = language else {
        return found;
    };
    let twice = |names: &[Name]| names.iter().filter(|n| n.tag == language).count() > 1;
    see(SECOND_MATCH, twice(own) || twice(campus));
    let shown = || own.iter().chain(campus);
    let match_of = |names: &[Name]| first(names, language).is_some();
    let matches = match_of(own) || match_of(campus);
    let any = scope.names.iter().any(|names| match_of(names));
    see(ANOTHERS, any && !matches);
    let begins = |long: &[u8], short: &[u8]| !matches && long.starts_with(short);
    see(SHORTER, shown().any(|name| begins(&name.tag, language)));
    see(LONGER, shown().any(|name| begins(language, &name.tag)));
    let eight = shown().filter(|name| name.tag.len() == LONGEST_TAG);
    let mut eight = eight.map(|name| &name.tag[..]);
    see(NINE, eight.any(|tag| begins(language, tag)));
    found
}

/// Option 9 of the ACK to a GETINFO, if one is due, and what is to be counted of it.
pub fn scope_list_due(campus: &Campus, call: &Call) -> (Option<Coded>, Vec<&'static str>) {
    let inside = |range: &(u32, u32)| range.0 <= call.client && call.client <= range.1;
    let language = value_of(&call.datagram, 8);
    let codes = value_of(&call.datagram, 5).unwrap_or(&[]);
    let names_9 = codes.chunks(2).any(|code| code == [0, 9]);
    let (Some(house), true) = (campus.houses.iter().position(inside), names_9) else {
        return (None, language.map(|_| NOT_NAMED).into_iter().collect());
    };
    let mut why = Vec::new();
    let mut shown = Vec::new();
    for scope in &campus.scopes {
        let (name, because) = due(scope, house, language);
        shown.push((scope, name));
        why.push(because);
        why.extend(beside(scope, house, language));
    }
    (Some(scope_list(shown)), why)
}
