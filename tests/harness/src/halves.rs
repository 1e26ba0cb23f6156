//! A call in two halves: what a verdict has to say by the octets of the call and of its reply, the second program's verdict beside it, and verdicts
//! that the first half never gave. And what a default run has to meet of them.

use crate::asked::{offsets_of, Asked};
use crate::lent::{Octets, Served};
use crate::random::Random;
use banshorra_host::VERDICT_SIZE;
use builder::*;
use second::verdict::{Answer, Given};
use second::Verdict;

/// What a verdict says that its reply is.
const OFFERED: u8 = 1;
const LEASED: u8 = 2;
const RELEASED: u8 = 3;
const INFORMED: u8 = 4;
const REFUSED: u8 = 5;

/// Where a verdict says how many records were read.
const COUNT: usize = 74;

/// Fields of a verdict: where each begins, and its octets. What isn't among them is of no account.
pub type Fields = Vec<(usize, Vec<u8>)>;

/// What a verdict has to say by the campus before the call and what the call draws in a room that is large enough.
pub fn due(campus: &Campus, call: &Call, told: &Served) -> Fields {
    let (outcome, offset, count, reply) = (told.0, told.1, told.2, &told.3);
    let mut fields = vec![
        (0, vec![outcome]),
        (4, (offset as u16).to_be_bytes().into()),
        (COUNT, vec![count as u8]),
    ];
    match Asked::new(campus, call) {
        Some(asked) if outcome == 0 => {
            fields.push((6, vec![asked.house - 1]));
            fields.extend(said(&asked));
            fields.extend(ruled(&asked, reply));
            fields
        }
        Some(asked) if outcome == 8 => {
            fields.push((1, vec![0]));
            fields.extend(said(&asked));
            fields
        }
        _ => {
            let mut all = vec![0; VERDICT_SIZE];
            fields
                .iter()
                .for_each(|(at, octets)| all[*at..][..octets.len()].copy_from_slice(octets));
            vec![(0, all)]
        }
    }
}

/// What every reply repeats of the message: transaction id, whether there is option 12, identifier.
fn said(asked: &Asked) -> Fields {
    vec![
        (7, asked.transaction.to_be_bytes().into()),
        (27, vec![asked.has(12).into()]),
        identified(asked.identifier),
    ]
}

/// Length(1) and 32 octets.
fn identified(identifier: &[u8]) -> (usize, Vec<u8>) {
    let mut octets = [&[identifier.len() as u8], identifier].concat();
    octets.resize(33, 0);
    (41, octets)
}

/// Whether there is a language(1), its length(2), and its first 8 octets.
fn language(tag: Option<&[u8]>) -> (usize, Vec<u8>) {
    let mut octets = vec![tag.is_some().into()];
    let tag = tag.unwrap_or(&[]);
    octets.extend((tag.len() as u16).to_be_bytes());
    octets.extend(&tag[..tag.len().min(8)]);
    octets.resize(11, 0);
    (30, octets)
}

/// Scope(1); start(4), end(4) and addresses(8).
fn given(scope: u8, start: u32, end: u32, offsets: &[u8]) -> Fields {
    let addresses = offsets.iter().fold(0_u64, |set, offset| set | 1 << offset);
    let [start, end] = [start, end].map(u32::to_be_bytes);
    let rest = [&start[..], &end, &addresses.to_be_bytes()].concat();
    vec![(3, vec![scope]), (11, rest)]
}

/// What the reply is, and what it says besides.
fn ruled(asked: &Asked, reply: &[u8]) -> Fields {
    let number = |code| crate::asked::number_of(reply, code).unwrap_or(0);
    let kind = match (reply.get(1), asked.kind) {
        (Some(&OFFER), _) => OFFERED,
        (Some(&NAK), _) => REFUSED,
        (_, RELEASE) => RELEASED,
        (_, GETINFO) => INFORMED,
        _ => LEASED,
    };
    let mut fields = vec![(1, vec![kind])];
    match kind {
        OFFERED | LEASED => {
            let (lowest, start) = (number(4), number(6));
            let scopes = &asked.campus.scopes;
            let place = scopes.iter().position(|scope| scope.lowest == lowest);
            let scope = place.map_or(0, |place| place as u8 + 1);
            let end = start.wrapping_add(number(1));
            fields.extend(given(scope, start, end, &offsets_of(reply, lowest)));
        }
        INFORMED => {
            let has = |code| vec![value_of(reply, code).is_some().into()];
            fields.extend([(28, has(9)), (29, has(11))]);
            fields.push(language(value_of(asked.datagram, 8)));
        }
        // Option 16 has two octets, of which the first is 0.
        REFUSED => fields.push((2, value_of(reply, 16).unwrap_or(&[])[1..].to_vec())),
        _ => {}
    }
    fields
}

/// The fields of the second program's verdict, as far as it has them.
pub fn of_second(verdict: &Verdict) -> Fields {
    let ruling = match verdict {
        Verdict::Discard(discard) => {
            let offset = (discard.offset as u16).to_be_bytes();
            return vec![
                (0, vec![discard.outcome]),
                (4, offset.into()),
                (COUNT, vec![discard.count as u8]),
            ];
        }
        Verdict::Reply(ruling) => ruling,
    };
    let lease = |g: &Given| given(g.scope, g.start, g.end, &g.offsets);
    let (kind, rest) = match &ruling.answer {
        Answer::Offer(given) => (OFFERED, lease(given)),
        Answer::Lease(given) => (LEASED, lease(given)),
        Answer::Released => (RELEASED, vec![]),
        Answer::Info(asked) => (
            INFORMED,
            vec![
                (28, vec![asked.scope_list.into()]),
                (29, vec![asked.current_time.into()]),
                language(asked.language.as_deref()),
            ],
        ),
        Answer::Error(error) => (REFUSED, vec![(2, vec![*error as u8])]),
    };
    let mut fields = vec![
        (0, vec![0]),
        (4, vec![0, 0]),
        (6, vec![ruling.house.wrapping_sub(1)]),
        (7, ruling.transaction.to_be_bytes().into()),
        (27, vec![ruling.has_features.into()]),
        identified(&ruling.identifier),
        (COUNT, vec![ruling.count as u8]),
        (1, vec![kind]),
    ];
    fields.extend(rest);
    fields
}

/// The first field that octets don't have.
pub fn missed<'a>(fields: &'a Fields, verdict: &Octets) -> Option<&'a (usize, Vec<u8>)> {
    let has = |(at, octets): &&(usize, Vec<u8>)| verdict[*at..].starts_with(octets);
    fields.iter().find(|field| !has(field))
}

/// What a default run has to meet of verdicts.
pub const SHORT_REPLY: &str = "2 for a reply in a short room";
pub const SHORT_DISCARD: &str = "2 for a discard in a short room";
pub const SHORT_REFUSED: &str = "2 for a refused file in a short room";
pub const FIRST_20: &str = "the first half refuses a file as 20";
pub const FIRST_21: &str = "the first half refuses a file as 21";
pub const FIRST_23: &str = "the first half refuses a short room as 23";
pub const FIRST_28: &str = "the first half refuses a length as 28";
pub const SECOND_20: &str = "the second half refuses a file as 20";
pub const SECOND_21: &str = "the second half refuses a file as 21";
pub const IN_A_LIST: &str = "a list, verdict by verdict";
const NAMED: &str = "ACK to a GETINFO, with names";
const UNNAMED: &str = "ACK to a GETINFO, a scope list without names";
const UNLISTED: &str = "ACK to a GETINFO, without a scope list";
const LONG_TAG: &str = "ACK to a GETINFO, a language of more than 8 octets";
const RESENT: &str = "ACK with a lease, sent again";
const LONGEST: &str = "an identifier of 32 octets";
const LAST_ADDRESS: &str = "the 64th address";
const READ: &str = "a reply for which records were read";
const MOST_READ: &str = "a reply for which 32 records were read";
const SILENT_READ: &str = "discard 8 for which records were read";
const OF_REPLIES: [&str; 3] = ["OFFER", "ACK with a lease", "ACK to a RELEASE"];
const DISCARDS: [u8; 6] = [3, 4, 5, 6, 7, 8];

pub fn counted() -> Vec<String> {
    let mut names: Vec<String> = OF_REPLIES.map(String::from).into();
    names.extend(
        [
            NAMED,
            UNNAMED,
            UNLISTED,
            LONG_TAG,
            RESENT,
            LONGEST,
            LAST_ADDRESS,
            READ,
            MOST_READ,
            SILENT_READ,
        ]
        .map(String::from),
    );
    names.extend((0..4).map(|error| format!("NAK error {error}")));
    names.extend(DISCARDS.map(|number| format!("discard {number}")));
    let others = [
        SHORT_REPLY,
        SHORT_DISCARD,
        SHORT_REFUSED,
        FIRST_20,
        FIRST_21,
        FIRST_23,
        FIRST_28,
        SECOND_20,
        SECOND_21,
        IN_A_LIST,
    ];
    names.extend(others.map(String::from));
    for made in MADE_UP {
        names.extend([8, 0].map(|number| drew(made, number)));
    }
    names
}

/// What is to be counted of a verdict, by the call and the reply to it in a room that is large enough.
pub fn why(campus: &Campus, call: &Call, verdict: &Octets, reply: &[u8]) -> Vec<String> {
    let count = verdict[COUNT];
    if verdict[0] != 0 {
        let mut why = vec![format!("discard {}", verdict[0])];
        why.extend((count > 0).then(|| SILENT_READ.to_owned()));
        return why;
    }
    let list = value_of(reply, 9);
    let longest = verdict[41] == 32;
    let mut why = vec![match verdict[1] {
        OFFERED => OF_REPLIES[0].to_owned(),
        LEASED => OF_REPLIES[1].to_owned(),
        RELEASED => OF_REPLIES[2].to_owned(),
        REFUSED => format!("NAK error {}", verdict[2]),
        _ => match list {
            None => UNLISTED.to_owned(),
            // A count, and ten octets of a scope without a name.
            Some(list) if list.len() == 1 + 10 * usize::from(list[0]) => UNNAMED.to_owned(),
            Some(_) => NAMED.to_owned(),
        },
    }];
    let resent = Asked::new(campus, call).is_some_and(|asked| asked.is_resend());
    let given = [OFFERED, LEASED].contains(&verdict[1]);
    let tag = u16::from_be_bytes([verdict[31], verdict[32]]);
    let others = [
        (RESENT, resent && verdict[1] == LEASED),
        (LONGEST, longest),
        (LAST_ADDRESS, given && verdict[19] >= 0x80),
        (READ, count > 0),
        (MOST_READ, count == 32),
        (
            LONG_TAG,
            verdict[1] == INFORMED && list.is_some() && tag > 8,
        ),
    ];
    why.extend(
        others
            .iter()
            .filter(|(_, is_so)| *is_so)
            .map(|(why, _)| String::from(*why)),
    );
    why
}

/// Verdicts that the first half didn't give, or not with the file that they are used with.
pub const RANDOM: &str = "any octets";
pub const CHANGED: &str = "one field changed";
pub const ANOTHERS: &str = "another campus's";
const MADE_UP: [&str; 3] = [RANDOM, CHANGED, ANOTHERS];

/// What a verdict that the first half didn't give drew: any outcome is right, if it is one.
pub fn drew(made: &str, number: u8) -> String {
    assert!(number <= 8, "{number} for {made}");
    let drawn = if number == 0 { "a reply" } else { "a discard" };
    format!("made up, {made}: {drawn}")
}

/// Where fields begin, and their octets.
const PLACES: [(usize, usize); 19] = [
    (0, 1),
    (1, 1),
    (2, 1),
    (3, 1),
    (4, 2),
    (6, 1),
    (7, 4),
    (11, 4),
    (15, 4),
    (19, 8),
    (27, 1),
    (28, 1),
    (29, 1),
    (30, 1),
    (31, 2),
    (33, 8),
    (41, 1),
    (42, 32),
    (COUNT, 1),
];

/// Any octets, mostly with an outcome and a reply that there are.
pub fn any_octets(random: &mut Random) -> Octets {
    let mut verdict: Octets = random
        .low_octets(VERDICT_SIZE, 30, 5)
        .try_into()
        .expect("so many");
    if random.chance(70) {
        verdict[0] = 0;
    }
    if random.chance(70) {
        verdict[1] = random.between(0, 6) as u8;
    }
    verdict
}

/// A verdict with one field changed: to an edge, to any octets, or by a little.
pub fn changed(random: &mut Random, verdict: &Octets) -> Octets {
    let mut other = *verdict;
    let (at, length) = random.pick(&PLACES);
    let field = &mut other[at..at + length];
    match random.below(4) {
        0 => field.fill(0),
        1 => field.fill(0xFF),
        2 => field.copy_from_slice(&random.octets(length)),
        _ => field[length - 1] = field[length - 1].wrapping_add(random.pick(&[1, 255, 7, 64, 128])),
    }
    other
}
