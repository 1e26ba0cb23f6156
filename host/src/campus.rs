//! A campus file as a value: what stands in its seven sections, for those who show a file or make one. Its form alone is judged here; whether a
//! campus is sound the library says.

use crate::{count, FILE_ROOM};
use std::fmt;

/// What a campus file says.
#[derive(Clone, Debug, PartialEq, Eq)]
pub struct Campus {
    /// The server's address.
    pub server: u32,
    /// The time of the last call.
    pub clock: u32,
    /// Lowest and highest client address of each house.
    pub houses: Vec<(u32, u32)>,
    /// The scopes.
    pub scopes: Vec<Scope>,
    /// By house, then identifier.
    pub leases: Vec<Lease>,
    /// The releases that are remembered, by house, oldest first.
    pub releases: Vec<Release>,
    /// The offers that are held, by house, then identifier.
    pub holds: Vec<Hold>,
}

/// A pool of addresses.
#[derive(Clone, Debug, PartialEq, Eq)]
pub struct Scope {
    /// The lowest address.
    pub lowest: u32,
    /// How many addresses.
    pub size: u8,
    /// How far they reach.
    pub ttl: u8,
    /// Share and limit of each house.
    pub parts: Vec<(u8, u8)>,
    /// The campus list of names, then that of each house.
    pub names: Vec<Vec<Name>>,
}

/// A scope's name in a language.
#[derive(Clone, Debug, PartialEq, Eq)]
pub struct Name {
    /// Whether it is flagged as the default, 128.
    pub default: bool,
    /// The language's tag.
    pub tag: Vec<u8>,
    /// The name.
    pub text: Vec<u8>,
}

/// Addresses for a period.
#[derive(Clone, Debug, PartialEq, Eq)]
pub struct Lease {
    /// From 1.
    pub house: u8,
    /// From 1.
    pub scope: u8,
    /// The lease identifier.
    pub identifier: Vec<u8>,
    /// The type of the message that it comes from: 3 REQUEST, 4 RENEW; of a hold 1 DISCOVER.
    pub kind: u8,
    /// That message's transaction id.
    pub transaction: u32,
    /// The first second.
    pub start: u32,
    /// The second after the last.
    pub end: u32,
    /// The addresses, counted from the scope's lowest; rising.
    pub offsets: Vec<u8>,
}

/// An offer that is held.
#[derive(Clone, Debug, PartialEq, Eq)]
pub struct Hold {
    /// Addresses and period as a lease has them.
    pub lease: Lease,
    /// When it lapses.
    pub lapse: u32,
}

/// A release that is remembered.
#[derive(Clone, Debug, PartialEq, Eq)]
pub struct Release {
    /// From 1.
    pub house: u8,
    /// The lease identifier.
    pub identifier: Vec<u8>,
    /// The RELEASE's transaction id.
    pub transaction: u32,
    /// The clock then.
    pub time: u32,
}

/// The most names in a list, octets in a tag and octets in a name; more are of wrong form.
pub const NAMES: usize = 4;
/// See [`NAMES`].
pub const TAG: usize = 8;
/// See [`NAMES`].
pub const NAME: usize = 32;

/// Where a campus file's form is wrong (refusal 20), and how.
#[derive(Clone, Debug, PartialEq, Eq)]
pub struct FormFault {
    /// The octet, counted from 0.
    pub offset: usize,
    /// In words.
    pub what: String,
}

impl fmt::Display for FormFault {
    fn fmt(&self, f: &mut fmt::Formatter<'_>) -> fmt::Result {
        write!(f, "octet {}: {}", self.offset, self.what)
    }
}

impl std::error::Error for FormFault {}

impl Campus {
    /// Reads a campus file of right form, sound or not.
    pub fn from_octets(file: &[u8]) -> Result<Campus, FormFault> {
        let mut file = Octets { file, at: 0 };
        if file.file.len() > FILE_ROOM {
            return file.fault(FILE_ROOM, "a campus file has at most 32,768 octets");
        }
        if file.u8("the server's count")? != 1 {
            return file.fault(0, "the server's count isn't 1");
        }
        let (server, clock) = (file.u32("the server's address")?, file.u32("the clock")?);
        let houses = file.section("houses", Octets::house)?;
        let mut scopes = file.section("scopes", |file| file.scope(houses.len()))?;
        let leases = file.section("leases", Octets::lease)?;
        file.rises(&leases, "lease", |lease| lease.order())?;
        file.names(&mut scopes, houses.len())?;
        let releases = file.section("releases", Octets::release)?;
        file.rises(&releases, "release", |release| {
            (release.house, release.time)
        })?;
        let holds = file.section("holds", Octets::hold)?;
        file.rises(&holds, "hold", |hold| hold.lease.order())?;
        if file.at < file.file.len() {
            let more = file.file.len() - file.at;
            return file.fault(
                file.at,
                &format!("{} after the last section", count(more, "octet")),
            );
        }
        Ok(Campus {
            server,
            clock,
            houses,
            scopes,
            leases: leases.into_iter().map(|(_, lease)| lease).collect(),
            releases: releases.into_iter().map(|(_, release)| release).collect(),
            holds: holds.into_iter().map(|(_, hold)| hold).collect(),
        })
    }

    /// The campus file. Lists have at most 255 entries.
    pub fn to_octets(&self) -> Vec<u8> {
        let mut file = vec![1];
        file.extend(self.server.to_be_bytes());
        file.extend(self.clock.to_be_bytes());
        put_section(&mut file, &self.houses, |file, (lowest, highest)| {
            file.extend(lowest.to_be_bytes());
            file.extend(highest.to_be_bytes());
        });
        put_section(&mut file, &self.scopes, |file, scope| {
            file.extend(scope.lowest.to_be_bytes());
            file.extend([scope.size, scope.ttl]);
            file.extend(scope.parts.iter().flat_map(|part| [part.0, part.1]));
        });
        put_section(&mut file, &self.leases, put_lease);
        put_section(&mut file, &self.scopes, |file, scope| {
            for list in &scope.names {
                put_section(file, list, put_name);
            }
        });
        put_section(&mut file, &self.releases, |file, release| {
            file.push(release.house);
            put_text(file, &release.identifier);
            file.extend(release.transaction.to_be_bytes());
            file.extend(release.time.to_be_bytes());
        });
        put_section(&mut file, &self.holds, |file, hold| {
            put_lease(file, &hold.lease);
            file.extend(hold.lapse.to_be_bytes());
        });
        file
    }

    /// The house, from 1, that a client's address belongs to.
    pub fn house_of(&self, client: u32) -> Option<u8> {
        let has = |(lowest, highest): &(u32, u32)| (*lowest..=*highest).contains(&client);
        let place = self.houses.iter().position(has)?;
        u8::try_from(place + 1).ok()
    }

    /// A scope by its number, from 1.
    pub fn scope(&self, number: u8) -> Option<&Scope> {
        self.scopes.get(usize::from(number).checked_sub(1)?)
    }

    /// The leases, and what the holds have as leases do.
    pub fn records(&self) -> impl Iterator<Item = &Lease> {
        let held = self.holds.iter().map(|hold| &hold.lease);
        self.leases.iter().chain(held)
    }
}

impl Scope {
    /// What the campus calls it: its first name flagged as default, else its first.
    pub fn name(&self) -> Option<&Name> {
        let campus = self.names.first()?;
        campus.iter().find(|name| name.default).or(campus.first())
    }
}

impl Lease {
    /// What leases are ordered by, and holds by themselves.
    pub fn order(&self) -> (u8, &[u8]) {
        (self.house, &self.identifier)
    }
}

fn put_section<T>(file: &mut Vec<u8>, entries: &[T], put: impl Fn(&mut Vec<u8>, &T)) {
    file.push(u8::try_from(entries.len()).expect("at most 255 entries"));
    for entry in entries {
        put(file, entry);
    }
}

fn put_text(file: &mut Vec<u8>, text: &[u8]) {
    file.push(u8::try_from(text.len()).expect("at most 255 octets"));
    file.extend(text);
}

fn put_name(file: &mut Vec<u8>, name: &Name) {
    file.push(if name.default { 128 } else { 0 });
    put_text(file, &name.tag);
    put_text(file, &name.text);
}

fn put_lease(file: &mut Vec<u8>, lease: &Lease) {
    file.extend([lease.house, lease.scope]);
    put_text(file, &lease.identifier);
    file.push(lease.kind);
    for number in [lease.transaction, lease.start, lease.end] {
        file.extend(number.to_be_bytes());
    }
    put_text(file, &lease.offsets);
}

/// A walk over a file's octets.
struct Octets<'a> {
    file: &'a [u8],
    at: usize,
}

impl<'a> Octets<'a> {
    fn fault<T>(&self, offset: usize, what: &str) -> Result<T, FormFault> {
        let what = what.to_owned();
        Err(FormFault { offset, what })
    }

    fn take(&mut self, count: usize, what: &str) -> Result<&'a [u8], FormFault> {
        match self.file.get(self.at..self.at + count) {
            Some(octets) => {
                self.at += count;
                Ok(octets)
            }
            None => self.fault(self.file.len(), &format!("the file ends within {what}")),
        }
    }

    fn u8(&mut self, what: &str) -> Result<u8, FormFault> {
        Ok(self.take(1, what)?[0])
    }

    fn u32(&mut self, what: &str) -> Result<u32, FormFault> {
        let octets = self.take(4, what)?;
        Ok(octets.iter().fold(0, |n, octet| n << 8 | u32::from(*octet)))
    }

    /// Octets after their count.
    fn text(&mut self, what: &str) -> Result<Vec<u8>, FormFault> {
        let length = self.u8(what)?;
        Ok(self.take(length.into(), what)?.to_vec())
    }

    /// Entries after their count.
    fn section<T>(
        &mut self,
        what: &str,
        entry: impl Fn(&mut Self) -> Result<T, FormFault>,
    ) -> Result<Vec<T>, FormFault> {
        let count = self.u8(&format!("the count of {what}"))?;
        (0..count).map(|_| entry(self)).collect()
    }

    fn house(&mut self) -> Result<(u32, u32), FormFault> {
        Ok((self.u32("a house")?, self.u32("a house")?))
    }

    fn scope(&mut self, houses: usize) -> Result<Scope, FormFault> {
        let lowest = self.u32("a scope")?;
        let (size, ttl) = (self.u8("a scope")?, self.u8("a scope")?);
        let parts = self.take(2 * houses, "a scope's shares and limits")?;
        Ok(Scope {
            lowest,
            size,
            ttl,
            parts: parts.chunks(2).map(|part| (part[0], part[1])).collect(),
            names: vec![],
        })
    }

    fn lease(&mut self) -> Result<(usize, Lease), FormFault> {
        let begin = self.at;
        let lease = Lease {
            house: self.u8("a lease")?,
            scope: self.u8("a lease")?,
            identifier: self.text("a lease's identifier")?,
            kind: self.u8("a lease")?,
            transaction: self.u32("a lease")?,
            start: self.u32("a lease")?,
            end: self.u32("a lease")?,
            offsets: self.text("a lease's addresses")?,
        };
        let first = self.at - lease.offsets.len();
        match lease.offsets.windows(2).position(|two| two[0] >= two[1]) {
            Some(place) => self.fault(first + place + 1, "a lease's addresses don't rise"),
            None => Ok((begin, lease)),
        }
    }

    fn hold(&mut self) -> Result<(usize, Hold), FormFault> {
        let (begin, lease) = self.lease()?;
        let lapse = self.u32("a hold's lapse")?;
        Ok((begin, Hold { lease, lapse }))
    }

    fn release(&mut self) -> Result<(usize, Release), FormFault> {
        let begin = self.at;
        let release = Release {
            house: self.u8("a release")?,
            identifier: self.text("a release's identifier")?,
            transaction: self.u32("a release")?,
            time: self.u32("a release")?,
        };
        Ok((begin, release))
    }

    fn names(&mut self, scopes: &mut [Scope], houses: usize) -> Result<(), FormFault> {
        let begin = self.at;
        let named = usize::from(self.u8("the count of the scopes' names")?);
        if named != scopes.len() {
            let scopes = scopes.len();
            return self.fault(
                begin,
                &format!("names for {}, of {scopes}", count(named, "scope")),
            );
        }
        for scope in scopes {
            for _ in 0..=houses {
                scope.names.push(self.name_list()?);
            }
        }
        Ok(())
    }

    fn name_list(&mut self) -> Result<Vec<Name>, FormFault> {
        let begin = self.at;
        let names = self.section("names", Octets::name)?;
        if names.len() > NAMES {
            return self.fault(begin, "a list has more than four names");
        }
        Ok(names)
    }

    fn name(&mut self) -> Result<Name, FormFault> {
        let begin = self.at;
        let flags = self.u8("a name")?;
        let (tag, text) = (self.text("a name's tag")?, self.text("a name")?);
        if !matches!(flags, 0 | 128) {
            return self.fault(begin, &format!("a name's flags are {flags}, not 0 or 128"));
        }
        if !(1..=TAG).contains(&tag.len()) {
            let length = tag.len();
            return self.fault(begin + 1, &format!("a tag of {length} octets, not 1 to 8"));
        }
        if !(1..=NAME).contains(&text.len()) {
            let (length, at) = (text.len(), begin + 2 + tag.len());
            return self.fault(at, &format!("a name of {length} octets, not 1 to 32"));
        }
        let default = flags == 128;
        Ok(Name { default, tag, text })
    }

    /// Whether entries, each with the octet that it begins at, are in order. Equal neighbours are: they are no matter of form.
    fn rises<'e, T, K: Ord>(
        &self,
        entries: &'e [(usize, T)],
        what: &str,
        order: impl Fn(&'e T) -> K,
    ) -> Result<(), FormFault> {
        let falls = |two: &'e [(usize, T)]| order(&two[0].1) > order(&two[1].1);
        match entries.windows(2).position(falls) {
            Some(place) => {
                let number = place + 2;
                let what = format!(
                    "{what} {number} comes before {what} {} in order",
                    number - 1
                );
                self.fault(entries[place + 1].0, &what)
            }
            None => Ok(()),
        }
    }
}
