//! Days of the van: its settings and datagrams, given to the program `van` and to the second program's. And what a default run has to meet
//! of them.

use crate::asked::offsets_of;
use crate::calls;
use crate::campus::{HIGHEST_POOL, LOWEST_POOL};
use crate::compare::{caught, hex, Difference};
use crate::programs::Program;
use crate::random::Random;
use crate::{HORIZON, LAST_TIME};
use builder::{value_of, Campus, Scope, ACK, NAK, OFFER, REQUEST};

/// Octets of the settings, and of what stands before a datagram.
const SETTINGS: usize = 18;
const HEAD: usize = 10;
const MOST_ADDRESSES: u8 = 64;

/// A day: the program's input, and what it was made of.
pub struct Day {
    pub input: Vec<u8>,
    campus: Campus,
    /// The records that are whole.
    datagrams: Vec<Vec<u8>>,
    /// What was meant to be refused, if anything.
    refused: Option<&'static str>,
}

/// Settings that are unsound, and how they are made so.
type Unsound = (&'static str, fn(&mut Random, &mut Campus));
const UNSOUND: [Unsound; 8] = [
    ("settings of size 0", |_, c| c.scopes[0].size = 0),
    ("settings of size 65", |_, c| c.scopes[0].size = 65),
    ("settings of a size above", |random, c| {
        c.scopes[0].size = random.pick(&[66, 128, 255]);
        c.scopes[0].lowest = LOWEST_POOL;
    }),
    ("settings of TTL 0", |_, c| c.scopes[0].ttl = 0),
    ("settings of a pool before 224.0.0.0", |_, c| {
        c.scopes[0].lowest = LOWEST_POOL - 1;
    }),
    ("settings of a pool past 239.255.255.255", |_, c| {
        c.scopes[0].lowest = HIGHEST_POOL - u32::from(c.scopes[0].size) + 2;
    }),
    ("settings of a pool past all addresses", |_, c| {
        c.scopes[0].lowest = u32::MAX;
    }),
    ("settings of an empty client range", |random, c| {
        let low = random.u32().max(1);
        c.houses[0] = (low, low - 1);
    }),
];
const SETTINGS_CUT: &str = "settings that are cut off";
const NO_OCTETS: &str = "no octets at all";
const UNSOUND_AND_CUT: &str = "unsound settings before a record that is cut off: 21";
const HEAD_CUT: &str = "a record cut off in its head";
const DATAGRAM_CUT: &str = "a record cut off in its datagram";

/// Of what isn't refused.
const NO_RECORDS: &str = "no records";
const ONE_ADDRESS: &str = "a pool of one address";
const ALL_ADDRESSES: &str = "a pool of 64 addresses";
const ONE_CLIENT: &str = "one client";
const ALL_CLIENTS: &str = "every address is a client's";
/// A REQUEST that desires the size or more.
const WHOLE: &str = "a REQUEST for the size or more gets all";
const PART: &str = "a REQUEST for the size or more gets what nothing overlaps";
const NONE: &str = "a REQUEST for the size or more is refused";

fn outcome_name(outcome: u8) -> String {
    format!("outcome {outcome}")
}

fn reply_name(kind: u8) -> &'static str {
    match kind {
        OFFER => "an OFFER",
        ACK => "an ACK",
        NAK => "a NAK",
        _ => "another reply",
    }
}

/// What has to occur in a default run in which the program is there. Its room is always long enough, so discard 2 can't.
pub fn counted() -> Vec<String> {
    let mut names: Vec<String> = [0, 3, 4, 5, 6, 7, 8].map(outcome_name).to_vec();
    names.extend([OFFER, ACK, NAK].map(|kind| reply_name(kind).into()));
    let refused = [
        SETTINGS_CUT,
        NO_OCTETS,
        UNSOUND_AND_CUT,
        HEAD_CUT,
        DATAGRAM_CUT,
    ];
    let others = [
        NO_RECORDS,
        ONE_ADDRESS,
        ALL_ADDRESSES,
        ONE_CLIENT,
        ALL_CLIENTS,
    ];
    let unsound = UNSOUND.iter().map(|row| row.0);
    let of_requests = [WHOLE, PART, NONE];
    let plain = refused.into_iter().chain(unsound).chain(others);
    names.extend(plain.chain(of_requests).map(String::from));
    names
}

/// One house, one scope, all of it the house's, and no lease. The clock is where its datagrams begin; the van's own is 0.
fn campus(random: &mut Random) -> Campus {
    let size = random.pick(&[1, 1, 2, 3, 4, 5, 8, 16, 63, 64, 64]);
    let any = random.u32();
    Campus {
        server: random.pick(&[0x0A01_0101, 0, u32::MAX, any]),
        clock: random.pick(&[
            0,
            1,
            1_000,
            1_700_000_000,
            1_700_000_000,
            LAST_TIME - HORIZON,
        ]),
        houses: vec![random.pick(&[
            (0x0A00_0000, 0x0A00_00FF),
            (any, any),
            (0, 0),
            (0, u32::MAX),
            (any, u32::MAX),
        ])],
        scopes: vec![Scope {
            lowest: random.pick(&[LOWEST_POOL, 0xEFC0_0000, HIGHEST_POOL - u32::from(size) + 1]),
            size,
            ttl: random.pick(&[1, 15, 255]),
            parts: vec![(size, size)],
            names: Vec::new(),
        }],
        leases: Vec::new(),
        releases: Vec::new(),
        holds: Vec::new(),
    }
}

/// Server address(4), lowest and highest client address(4, 4), lowest pool address(4), size(1), TTL(1).
fn settings(campus: &Campus) -> Vec<u8> {
    let (scope, (low, high)) = (&campus.scopes[0], campus.houses[0]);
    let addresses = [campus.server, low, high, scope.lowest];
    let mut octets: Vec<u8> = addresses.iter().flat_map(|a| a.to_be_bytes()).collect();
    octets.extend([scope.size, scope.ttl]);
    octets
}

impl Day {
    /// The day of a number. One of three is refused, each refusal in its turn.
    pub fn new(seed: &str, number: u64) -> Day {
        let mut random = Random::new(&format!("{seed} day"), number);
        let campus = campus(&mut random);
        let count = random.pick(&[0, 1, 5, 20, 40, 40, 80]);
        let list = calls::list(&mut random, &campus, count, number as usize * 7);
        let mut day = Day {
            input: settings(&campus),
            campus,
            datagrams: Vec::new(),
            refused: None,
        };
        for call in list.calls {
            let length = call.datagram.len() as u16;
            day.input.extend(call.time.to_be_bytes());
            day.input.extend(call.client.to_be_bytes());
            day.input.extend(length.to_be_bytes());
            day.input.extend(&*call.datagram);
            day.datagrams.push(call.datagram.into_owned());
        }
        if number % 3 == 2 {
            day.spoil(&mut random, number as usize / 3);
        }
        day
    }

    /// Cuts it off, or makes its settings unsound.
    fn spoil(&mut self, random: &mut Random, turn: usize) {
        let turn = turn % (UNSOUND.len() + 4);
        if let Some((name, damage)) = UNSOUND.get(turn) {
            damage(random, &mut self.campus);
            self.input.splice(..SETTINGS, settings(&self.campus));
            self.refused = Some(name);
            if self.datagrams.len() > 1 && random.chance(40) {
                self.input.pop();
                self.refused = Some(UNSOUND_AND_CUT);
            }
            self.datagrams.clear();
            return;
        }
        let last = self.datagrams.last().map_or(0, Vec::len);
        let head = self.input.len() - last;
        let (name, length) = match turn - UNSOUND.len() {
            0 => (NO_OCTETS, 0),
            1 if last > 0 => (DATAGRAM_CUT, head + random.below(last)),
            2 if head > SETTINGS => (HEAD_CUT, head - HEAD + random.between(1, HEAD - 1)),
            _ => (SETTINGS_CUT, random.between(1, SETTINGS - 1)),
        };
        self.input.truncate(length);
        self.refused = Some(name);
        if length < SETTINGS {
            self.datagrams.clear();
        } else {
            self.datagrams.pop();
        }
    }

    /// Compares what both print, and gives what is to be counted.
    pub fn compare(&self, van: &Program) -> Result<Vec<String>, Difference> {
        let due = caught(|| second::van::van(&self.input))?;
        let no_arguments: &[&str] = &[];
        let printed = van.run(no_arguments, &self.input)?;
        if printed != due.as_bytes() {
            let printed = String::from_utf8_lossy(&printed);
            return Err(differing(&printed, &due));
        }
        self.why(&due)
    }

    /// The lines by what the day was made of: one for each whole record, and the refusal that is due.
    fn why(&self, text: &str) -> Result<Vec<String>, Difference> {
        let mut lines: Vec<&str> = text.lines().collect();
        let refusal = match self.refused {
            None => None,
            Some(NO_OCTETS | SETTINGS_CUT | HEAD_CUT | DATAGRAM_CUT) => Some("refused 24"),
            Some(_) => Some("refused 21"),
        };
        let last = refusal.and_then(|_| lines.pop());
        if last != refusal || lines.len() != self.datagrams.len() {
            let count = self.datagrams.len();
            return Err(format!("{count} lines and {refusal:?} are due, not {text}"));
        }
        let mut why: Vec<String> = self.refused.iter().map(|name| name.to_string()).collect();
        why.extend(self.settings_why().into_iter().map(String::from));
        for (line, datagram) in lines.iter().zip(&self.datagrams) {
            why.extend(self.line_why(line, datagram)?);
        }
        Ok(why)
    }

    fn settings_why(&self) -> Vec<&'static str> {
        let (scope, range) = (&self.campus.scopes[0], self.campus.houses[0]);
        let seen = [
            (NO_RECORDS, self.input.len() == SETTINGS),
            (ONE_ADDRESS, scope.size == 1),
            (ALL_ADDRESSES, scope.size == MOST_ADDRESSES),
            (ONE_CLIENT, range.0 == range.1),
            (ALL_CLIENTS, range == (0, u32::MAX)),
        ];
        let seen = seen
            .into_iter()
            .filter(|row| row.1 && self.refused.is_none());
        seen.map(|row| row.0).collect()
    }

    fn line_why(&self, line: &str, datagram: &[u8]) -> Result<Vec<String>, Difference> {
        let (outcome, reply) = line.split_once(' ').unwrap_or((line, ""));
        let outcome: u8 = outcome.parse().map_err(|_| format!("a line {line}"))?;
        let octets = octets_of(reply).filter(|octets| octets.is_empty() == (outcome != 0));
        let reply = octets.ok_or_else(|| format!("a line {line}"))?;
        let mut why = vec![outcome_name(outcome)];
        why.extend(reply.get(1).map(|kind| reply_name(*kind).to_string()));
        let size = usize::from(self.campus.scopes[0].size);
        let desired = match value_of(datagram, 7) {
            Some(&[_, _, high, low]) => usize::from(u16::from_be_bytes([high, low])),
            _ => 1,
        };
        if datagram.get(1) == Some(&REQUEST) && outcome == 0 && desired >= size {
            let given = offsets_of(&reply, self.campus.scopes[0].lowest).len();
            let of_request = match given {
                0 => NONE,
                _ if given < size => PART,
                _ => WHOLE,
            };
            why.push(of_request.into());
        }
        Ok(why)
    }
}

/// The octets of lower-case hex.
fn octets_of(text: &str) -> Option<Vec<u8>> {
    let octet = |place: usize| u8::from_str_radix(text.get(place..place + 2)?, 16).ok();
    let octets: Option<Vec<u8>> = (0..text.len()).step_by(2).map(octet).collect();
    octets.filter(|octets| hex(octets) == text)
}

/// The first line in which what is printed differs.
pub fn differing(library: &str, second: &str) -> Difference {
    let equal = library
        .lines()
        .zip(second.lines())
        .take_while(|(a, b)| a == b);
    let number = equal.count();
    let line = |text: &str| text.lines().nth(number).unwrap_or("nothing").to_string();
    let (library, second) = (line(library), line(second));
    format!(
        "line {}: the program prints {library}, the second program {second}",
        number + 1
    )
}
