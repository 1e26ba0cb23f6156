//! The reader of campus texts.

use crate::campus::{Campus, Hold, Lease, Name, Release, Scope, NAME, NAMES, TAG};
use crate::quoted::from_hex;
use crate::{utc, FILE_ROOM};
use std::fmt;
use std::net::Ipv4Addr;

/// Where a text is wrong, and what was expected there.
#[derive(Clone, Debug, PartialEq, Eq)]
pub struct TextFault {
    /// From 1.
    pub line: usize,
    /// From 1, in characters.
    pub column: usize,
    /// What was expected.
    pub expected: String,
    /// What stands there.
    pub found: String,
}

impl fmt::Display for TextFault {
    fn fmt(&self, f: &mut fmt::Formatter<'_>) -> fmt::Result {
        let TextFault { line, column, .. } = self;
        let (expected, found) = (&self.expected, &self.found);
        write!(
            f,
            "line {line}, column {column}: expected {expected}, found {found}"
        )
    }
}

impl std::error::Error for TextFault {}

/// The most entries of a section, whose count is one octet.
const ENTRIES: usize = 255;

/// Reads a campus text. Leases, holds and releases may stand in any order; the campus has them in the file's.
pub fn read(text: &str) -> Result<Campus, TextFault> {
    let mut reader = Reader::default();
    let mut last = 0;
    for (line, number) in text.lines().zip(1..) {
        last = number;
        let mut words = Words::of(line, number)?;
        if !words.is_over() {
            reader.line(&mut words)?;
        }
    }
    reader.finish(last + 1)
}

/// A word of a line.
#[derive(Clone, Debug)]
enum Word {
    Bare(String),
    Quoted(Vec<u8>),
}

/// A line's words, each with its column.
struct Words {
    line: usize,
    words: Vec<(usize, Word)>,
    next: usize,
    /// The column behind the last word.
    end: usize,
}

impl Words {
    fn of(text: &str, line: usize) -> Result<Words, TextFault> {
        let characters: Vec<char> = text.chars().collect();
        let (mut words, mut at, mut end) = (vec![], 0, 1);
        while at < characters.len() && characters[at] != '#' {
            let column = at + 1;
            match characters[at] {
                blank if blank.is_whitespace() => {
                    at += 1;
                    continue;
                }
                '"' => {
                    let octets = quoted(&characters, &mut at, line)?;
                    words.push((column, Word::Quoted(octets)));
                }
                _ => {
                    let rest = characters[at..].iter();
                    let word: String = rest
                        .take_while(|c| !c.is_whitespace() && **c != '#' && **c != '"')
                        .collect();
                    at += word.chars().count();
                    words.push((column, Word::Bare(word)));
                }
            }
            end = at + 1;
        }
        let next = 0;
        Ok(Words {
            line,
            words,
            next,
            end,
        })
    }

    fn is_over(&self) -> bool {
        self.next == self.words.len()
    }

    /// That something else was expected where the next word stands, or the one `back` words before it.
    fn fault<T>(&self, back: usize, expected: impl Into<String>) -> Result<T, TextFault> {
        let word = self.words.get(self.next - back);
        let found = match word {
            Some((_, Word::Bare(word))) => format!("`{word}`"),
            Some((_, Word::Quoted(octets))) => crate::quoted::quoted(octets),
            None => "the line's end".to_owned(),
        };
        Err(TextFault {
            line: self.line,
            column: word.map_or(self.end, |word| word.0),
            expected: expected.into(),
            found,
        })
    }

    fn bare(&self) -> Option<&str> {
        match self.words.get(self.next) {
            Some((_, Word::Bare(word))) => Some(word),
            _ => None,
        }
    }

    /// Whether the next word is this one, which is then passed.
    fn passes(&mut self, word: &str) -> bool {
        let passes = self.bare() == Some(word);
        self.next += usize::from(passes);
        passes
    }

    fn word(&mut self, word: &str) -> Result<(), TextFault> {
        match self.passes(word) {
            true => Ok(()),
            false => self.fault(0, format!("`{word}`")),
        }
    }

    /// What the next word is read as.
    fn read<T>(
        &mut self,
        expected: &str,
        read: impl Fn(&str) -> Option<T>,
    ) -> Result<T, TextFault> {
        match self.bare().and_then(read) {
            Some(value) => {
                self.next += 1;
                Ok(value)
            }
            None => self.fault(0, expected),
        }
    }

    fn u8(&mut self, what: &str) -> Result<u8, TextFault> {
        self.read(&format!("{what}, 0 to 255"), number)
    }

    fn address(&mut self, what: &str) -> Result<u32, TextFault> {
        self.read(&format!("{what}, such as 10.1.1.1"), address)
    }

    fn time(&mut self) -> Result<u32, TextFault> {
        self.read("a time in UTC, such as 2026-11-17T09:30:00Z", utc::read)
    }

    fn transaction(&mut self) -> Result<u32, TextFault> {
        self.read(
            "a transaction id of eight hex digits, such as 0x00c0ffee",
            |word| {
                let digits = word.strip_prefix("0x").filter(|digits| digits.len() == 8)?;
                Some(
                    from_hex(digits)?
                        .iter()
                        .fold(0, |n, octet| n << 8 | u32::from(*octet)),
                )
            },
        )
    }

    /// Octets, quoted or in hex, `0x004c31`.
    fn octets(
        &mut self,
        what: &str,
        lengths: std::ops::RangeInclusive<usize>,
    ) -> Result<Vec<u8>, TextFault> {
        let octets = match self.words.get(self.next) {
            Some((_, Word::Quoted(octets))) => Some(octets.clone()),
            Some((_, Word::Bare(word))) => word.strip_prefix("0x").and_then(from_hex),
            None => None,
        };
        match octets {
            Some(octets) if lengths.contains(&octets.len()) => {
                self.next += 1;
                Ok(octets)
            }
            Some(_) => self.fault(
                0,
                format!("{what} of {} to {} octets", lengths.start(), lengths.end()),
            ),
            None => self.fault(0, format!("{what}, quoted or in hex as 0x004c31")),
        }
    }

    fn end(&self) -> Result<(), TextFault> {
        match self.is_over() {
            true => Ok(()),
            false => self.fault(0, "the line's end"),
        }
    }
}

/// The octets of a quoted text; goes past its closing quote.
fn quoted(characters: &[char], at: &mut usize, line: usize) -> Result<Vec<u8>, TextFault> {
    let mut octets = vec![];
    *at += 1;
    loop {
        let here = *at;
        let fault = |expected: &str| {
            let found = characters
                .get(here)
                .map_or("the line's end".to_owned(), |c| format!("`{c}`"));
            let (column, expected) = (here + 1, expected.to_owned());
            Err(TextFault {
                line,
                column,
                expected,
                found,
            })
        };
        match characters.get(here) {
            None => return fault("a closing `\"`"),
            Some('"') => {
                *at += 1;
                return Ok(octets);
            }
            Some('\\') => match escaped(&characters[here + 1..]) {
                Some((octet, length)) => {
                    octets.push(octet);
                    *at += 1 + length;
                }
                None => return fault("`\\\"`, `\\\\` or `\\x` with two hex digits"),
            },
            Some(character) => {
                octets.extend(character.encode_utf8(&mut [0; 4]).as_bytes());
                *at += 1;
            }
        }
    }
}

/// The octet that stands behind a `\`, and how many characters it takes.
fn escaped(characters: &[char]) -> Option<(u8, usize)> {
    match characters {
        [quote @ ('"' | '\\'), ..] => Some((*quote as u8, 1)),
        ['x', high, low, ..] => {
            let octet = 16 * high.to_digit(16)? + low.to_digit(16)?;
            Some((u8::try_from(octet).ok()?, 3))
        }
        _ => None,
    }
}

/// Digits without a sign.
fn number<T: std::str::FromStr>(word: &str) -> Option<T> {
    let is_number = word.bytes().all(|octet| octet.is_ascii_digit());
    is_number.then(|| word.parse().ok()).flatten()
}

fn address(word: &str) -> Option<u32> {
    word.parse::<Ipv4Addr>().ok().map(u32::from)
}

/// `239.192.1.0-3`, `239.192.1.0-239.192.2.3`, or one address.
fn range(word: &str) -> Option<(u32, u32)> {
    let Some((first, last)) = word.split_once('-') else {
        return address(word).map(|one| (one, one));
    };
    let first = address(first)?;
    let short = || number::<u8>(last).map(|last| first & !255 | u32::from(last));
    Some((first, address(last).or_else(short)?))
}

/// `+3` or `+0-3`.
fn offsets(word: &str) -> Option<(u8, u8)> {
    let word = word.strip_prefix('+')?;
    match word.split_once('-') {
        Some((first, last)) => Some((number(first)?, number(last)?)),
        None => number(word).map(|one| (one, one)),
    }
}

/// What has been read so far.
#[derive(Default)]
struct Reader {
    server: Option<u32>,
    clock: Option<u32>,
    houses: Vec<(u32, u32)>,
    scopes: Vec<Scope>,
    leases: Vec<Lease>,
    releases: Vec<Release>,
    holds: Vec<Hold>,
    /// The line of the last scope, for a part that it lacks.
    scope_line: usize,
}

impl Reader {
    fn line(&mut self, words: &mut Words) -> Result<(), TextFault> {
        let starts = [
            "server", "clock", "house", "scope", "name", "lease", "hold", "release",
        ];
        let Some(start) = starts.into_iter().find(|start| words.passes(start)) else {
            let (last, before) = starts.split_last().expect("some");
            return words.fault(0, format!("{} or {last}", before.join(", ")));
        };
        match start {
            "server" => self.server(words),
            "clock" => self.clock(words),
            "house" => self.house(words),
            "scope" => self.scope(words),
            "name" => self.name(words, 0),
            "lease" => self.lease(words),
            "hold" => self.hold(words),
            _ => self.release(words),
        }?;
        words.end()
    }

    fn server(&mut self, words: &mut Words) -> Result<(), TextFault> {
        if self.server.is_some() {
            return words.fault(1, "one server only");
        }
        self.server = Some(words.address("the server's address")?);
        Ok(())
    }

    fn clock(&mut self, words: &mut Words) -> Result<(), TextFault> {
        if self.clock.is_some() {
            return words.fault(1, "one clock only");
        }
        self.clock = Some(words.time()?);
        Ok(())
    }

    /// `house 1 clients ..`, or within a scope `house 1 share ..` and `house 1 name ..`.
    fn house(&mut self, words: &mut Words) -> Result<(), TextFault> {
        let number = usize::from(words.u8("a house's number")?);
        if words.passes("clients") {
            return self.clients(words, number);
        }
        if self.scopes.is_empty() {
            return words.fault(0, "`clients`");
        }
        if words.passes("share") {
            return self.part(words, number);
        }
        if words.passes("name") {
            if !(1..=self.houses.len()).contains(&number) {
                return words.fault(2, format!("a house from 1 to {}", self.houses.len()));
            }
            return self.name(words, number);
        }
        words.fault(0, "`clients`, `share` or `name`")
    }

    fn clients(&mut self, words: &mut Words, number: usize) -> Result<(), TextFault> {
        if !self.scopes.is_empty() {
            return words.fault(3, "every `house .. clients ..` before the first scope");
        }
        if number != self.houses.len() + 1 {
            return words.fault(2, format!("house {}", self.houses.len() + 1));
        }
        if self.houses.len() == ENTRIES {
            return words.fault(3, format!("at most {ENTRIES} houses"));
        }
        let clients = words.read("a range of addresses, such as 10.0.1.0-255", range)?;
        self.houses.push(clients);
        Ok(())
    }

    fn part(&mut self, words: &mut Words, number: usize) -> Result<(), TextFault> {
        let houses = self.houses.len();
        let scope = self.scopes.last_mut().expect("in a scope");
        let next = scope.parts.len() + 1;
        if next > houses {
            return words.fault(3, format!("no share after that of house {houses}"));
        }
        if number != next {
            return words.fault(2, format!("house {next}"));
        }
        let share = words.u8("a share")?;
        words.word("limit")?;
        scope.parts.push((share, words.u8("a limit")?));
        Ok(())
    }

    fn scope(&mut self, words: &mut Words) -> Result<(), TextFault> {
        self.whole_scope()?;
        let next = self.scopes.len() + 1;
        if next > ENTRIES {
            return words.fault(1, format!("at most {ENTRIES} scopes"));
        }
        words.read(&format!("scope {next}"), |word| {
            (number(word) == Some(next)).then_some(())
        })?;
        words.word("at")?;
        let lowest = words.address("the scope's lowest address")?;
        words.word("size")?;
        let size = words.u8("a size")?;
        words.word("ttl")?;
        let ttl = words.u8("a TTL")?;
        let names = vec![vec![]; 1 + self.houses.len()];
        let parts = vec![];
        self.scope_line = words.line;
        self.scopes.push(Scope {
            lowest,
            size,
            ttl,
            parts,
            names,
        });
        Ok(())
    }

    /// Whether the last scope has its share and limit for each house.
    fn whole_scope(&self) -> Result<(), TextFault> {
        let Some(scope) = self.scopes.last() else {
            return Ok(());
        };
        let (number, has) = (self.scopes.len(), scope.parts.len());
        if has == self.houses.len() {
            return Ok(());
        }
        Err(TextFault {
            line: self.scope_line,
            column: 1,
            expected: format!(
                "`house {} share .. limit ..` within scope {number}",
                has + 1
            ),
            found: match has {
                0 => "no share".to_owned(),
                1 => "only the share of house 1".to_owned(),
                _ => format!("only the shares of houses 1 to {has}"),
            },
        })
    }

    fn name(&mut self, words: &mut Words, list: usize) -> Result<(), TextFault> {
        let Some(scope) = self.scopes.last_mut() else {
            return words.fault(1, "a scope before its names");
        };
        if scope.names[list].len() == NAMES {
            return words.fault(1, format!("at most {NAMES} names in a list"));
        }
        let tag = match words.bare().filter(|word| !word.starts_with("0x")) {
            Some(word) if word.len() <= TAG => {
                let tag = word.as_bytes().to_vec();
                words.next += 1;
                tag
            }
            Some(_) => return words.fault(0, format!("a language's tag of at most {TAG} octets")),
            None => words.octets("a language's tag", 1..=TAG)?,
        };
        let text = words.octets("a name", 1..=NAME)?;
        let default = words.passes("default");
        if !default && !words.is_over() {
            return words.fault(0, "`default` or the line's end");
        }
        scope.names[list].push(Name { default, tag, text });
        Ok(())
    }

    fn lease(&mut self, words: &mut Words) -> Result<(), TextFault> {
        if self.leases.len() == ENTRIES {
            return words.fault(1, format!("at most {ENTRIES} leases"));
        }
        let mut lease = self.record(words)?;
        lease.offsets = self.on(words, lease.scope)?;
        self.leases.push(lease);
        Ok(())
    }

    fn hold(&mut self, words: &mut Words) -> Result<(), TextFault> {
        if self.holds.len() == ENTRIES {
            return words.fault(1, format!("at most {ENTRIES} holds"));
        }
        let mut lease = self.record(words)?;
        words.word("lapses")?;
        let lapse = words.time()?;
        lease.offsets = self.on(words, lease.scope)?;
        self.holds.push(Hold { lease, lapse });
        Ok(())
    }

    /// What leases and holds have alike, but for the addresses.
    fn record(&mut self, words: &mut Words) -> Result<Lease, TextFault> {
        words.word("house")?;
        let house = words.u8("a house's number")?;
        words.word("scope")?;
        let scope = words.u8("a scope's number")?;
        words.word("id")?;
        let identifier = words.octets("an identifier", 0..=ENTRIES)?;
        let kind = kind(words)?;
        let transaction = words.transaction()?;
        words.word("from")?;
        let start = words.time()?;
        words.word("to")?;
        let (end, offsets) = (words.time()?, vec![]);
        Ok(Lease {
            house,
            scope,
            identifier,
            kind,
            transaction,
            start,
            end,
            offsets,
        })
    }

    /// `on` and addresses of the scope, or offsets in it.
    fn on(&mut self, words: &mut Words, scope: u8) -> Result<Vec<u8>, TextFault> {
        words.word("on")?;
        if words.passes("none") {
            return Ok(vec![]);
        }
        let mut has = [false; 256];
        loop {
            let (first, last) = self.run(words, scope)?;
            let run = &mut has[first.into()..=last.into()];
            if run.contains(&true) {
                return words.fault(1, "an address once only");
            }
            run.fill(true);
            if words.is_over() {
                break;
            }
        }
        Ok((0..=u8::MAX)
            .filter(|offset| has[usize::from(*offset)])
            .collect())
    }

    fn run(&self, words: &mut Words, number: u8) -> Result<(u8, u8), TextFault> {
        let scope = usize::from(number)
            .checked_sub(1)
            .and_then(|place| self.scopes.get(place));
        let Some(scope) = scope else {
            let expected =
                format!("offsets such as +0-3, as there is no scope {number} before it,");
            return words
                .read(&expected, offsets)
                .and_then(|run| rising(words, run));
        };
        let expected = format!(
            "addresses from {} on, such as {}, or offsets such as +0-3",
            Ipv4Addr::from(scope.lowest),
            super::range(scope.lowest, scope.lowest.saturating_add(3))
        );
        let offset = |address: u32| u8::try_from(address.checked_sub(scope.lowest)?).ok();
        let dotted = |word: &str| {
            range(word).and_then(|(first, last)| Some((offset(first)?, offset(last)?)))
        };
        let run = words.read(&expected, |word| offsets(word).or_else(|| dotted(word)))?;
        rising(words, run)
    }

    fn release(&mut self, words: &mut Words) -> Result<(), TextFault> {
        if self.releases.len() == ENTRIES {
            return words.fault(1, format!("at most {ENTRIES} releases"));
        }
        words.word("house")?;
        let house = words.u8("a house's number")?;
        words.word("id")?;
        let identifier = words.octets("an identifier", 0..=ENTRIES)?;
        words.word("xid")?;
        let transaction = words.transaction()?;
        words.word("at")?;
        let time = words.time()?;
        self.releases.push(Release {
            house,
            identifier,
            transaction,
            time,
        });
        Ok(())
    }

    fn finish(mut self, line: usize) -> Result<Campus, TextFault> {
        self.whole_scope()?;
        let fault = |expected: &str| TextFault {
            line,
            column: 1,
            expected: expected.to_owned(),
            found: "the text's end".to_owned(),
        };
        self.leases.sort_by(|a, b| a.order().cmp(&b.order()));
        self.holds
            .sort_by(|a, b| a.lease.order().cmp(&b.lease.order()));
        self.releases
            .sort_by_key(|release| (release.house, release.time));
        let campus = Campus {
            server: self.server.ok_or_else(|| fault("`server ADDRESS`"))?,
            clock: self.clock.ok_or_else(|| fault("`clock TIME`"))?,
            houses: self.houses,
            scopes: self.scopes,
            leases: self.leases,
            releases: self.releases,
            holds: self.holds,
        };
        match campus.to_octets().len() <= FILE_ROOM {
            true => Ok(campus),
            false => Err(fault("a campus of at most 32,768 octets")),
        }
    }
}

/// A first that isn't above its last, in the word before.
fn rising(words: &Words, (first, last): (u8, u8)) -> Result<(u8, u8), TextFault> {
    match first <= last {
        true => Ok((first, last)),
        false => words.fault(1, "a range that rises"),
    }
}

/// The message that a lease comes from.
fn kind(words: &mut Words) -> Result<u8, TextFault> {
    for (word, number) in [("discover", 1), ("request", 3), ("renew", 4)] {
        if words.passes(word) {
            return Ok(number);
        }
    }
    if words.passes("type") {
        return words.u8("a message type");
    }
    words.fault(0, "`request`, `renew`, `discover` or `type`")
}
