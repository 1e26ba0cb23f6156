//! Campus files.

#[derive(Clone, Debug, PartialEq, Eq)]
pub struct Name {
    /// 128 for a default, else 0.
    pub flags: u8,
    /// The language's.
    pub tag: Vec<u8>,
    pub text: Vec<u8>,
}

impl Name {
    pub fn new(flags: u8, tag: &[u8], text: &[u8]) -> Name {
        Name {
            flags,
            tag: tag.to_vec(),
            text: text.to_vec(),
        }
    }

    /// Flags(1), tag length(1), tag, text length(1), text.
    pub fn octets(&self) -> Vec<u8> {
        let (tag, text) = (self.tag.len() as u8, self.text.len() as u8);
        [&[self.flags, tag], &self.tag[..], &[text], &self.text].concat()
    }
}

#[derive(Clone, Debug)]
pub struct Scope {
    pub lowest: u32,
    pub size: u8,
    pub ttl: u8,
    /// Share and limit of each house.
    pub parts: Vec<(u8, u8)>,
    /// The campus list of names, then each house's own. Lists that aren't there are empty ones.
    pub names: Vec<Vec<Name>>,
}

impl Scope {
    /// The campus list (0) or a house's own (from 1).
    pub fn names_of(&self, list: usize) -> &[Name] {
        self.names.get(list).map_or(&[], |names| &names[..])
    }
}

#[derive(Clone, Debug, PartialEq, Eq)]
pub struct Lease {
    pub house: u8,
    pub scope: u8,
    pub identifier: Vec<u8>,
    pub kind: u8,
    pub transaction: u32,
    pub start: u32,
    pub end: u32,
    pub offsets: Vec<u8>,
}

impl Lease {
    /// House(1), scope(1), identifier length(1), the identifier, type(1), transaction id(4), start(4), end(4), address count(1), offsets.
    pub fn octets(&self) -> Vec<u8> {
        let mut octets = vec![self.house, self.scope, self.identifier.len() as u8];
        octets.extend(&self.identifier);
        octets.push(self.kind);
        for number in [self.transaction, self.start, self.end] {
            octets.extend(number.to_be_bytes());
        }
        octets.push(self.offsets.len() as u8);
        octets.extend(&self.offsets);
        octets
    }

    /// What leases are ordered by, and holds by themselves.
    pub fn key(&self) -> (u8, &[u8]) {
        (self.house, &self.identifier)
    }
}

/// An offer that is held: addresses and period as a lease has them, and the time at which it lapses.
#[derive(Clone, Debug, PartialEq, Eq)]
pub struct Hold {
    pub lease: Lease,
    pub lapse: u32,
}

impl Hold {
    /// As a lease, and the lapse(4).
    pub fn octets(&self) -> Vec<u8> {
        [&self.lease.octets()[..], &self.lapse.to_be_bytes()].concat()
    }
}

/// A release that is remembered.
#[derive(Clone, Debug, PartialEq, Eq)]
pub struct Release {
    pub house: u8,
    pub identifier: Vec<u8>,
    pub transaction: u32,
    /// The clock at release.
    pub time: u32,
}

impl Release {
    /// House(1), identifier length(1), the identifier, transaction id(4), time(4).
    pub fn octets(&self) -> Vec<u8> {
        let mut octets = vec![self.house, self.identifier.len() as u8];
        octets.extend(&self.identifier);
        octets.extend(self.transaction.to_be_bytes());
        octets.extend(self.time.to_be_bytes());
        octets
    }
}

#[derive(Clone, Debug)]
pub struct Campus {
    pub server: u32,
    pub clock: u32,
    /// Lowest and highest client address of each house.
    pub houses: Vec<(u32, u32)>,
    pub scopes: Vec<Scope>,
    pub leases: Vec<Lease>,
    pub releases: Vec<Release>,
    pub holds: Vec<Hold>,
}

impl Campus {
    /// The leases, and what the holds have as leases do: each takes one of its house's records.
    pub fn records(&self) -> impl Iterator<Item = &Lease> {
        let held = self.holds.iter().map(|hold| &hold.lease);
        self.leases.iter().chain(held)
    }

    /// Puts leases, releases and holds in the file's order. Releases of a house at one time stay in theirs.
    pub fn sort(&mut self) {
        self.leases.sort_by(|a, b| a.key().cmp(&b.key()));
        self.releases
            .sort_by_key(|release| (release.house, release.time));
        self.holds.sort_by(|a, b| a.lease.key().cmp(&b.lease.key()));
    }

    /// The campus file: seven sections, each after its count.
    pub fn octets(&self) -> Vec<u8> {
        self.sections().concat()
    }

    /// The sections up to the leases as one, then the names, the releases, the holds.
    pub fn sections(&self) -> [Vec<u8>; 4] {
        [self.front(), self.names(), self.releases(), self.holds()]
    }

    /// The last section: the offers that are held.
    pub fn holds(&self) -> Vec<u8> {
        let mut section = vec![self.holds.len() as u8];
        section.extend(self.holds.iter().flat_map(Hold::octets));
        section
    }

    /// The section before it: the releases that are remembered.
    pub fn releases(&self) -> Vec<u8> {
        let mut section = vec![self.releases.len() as u8];
        section.extend(self.releases.iter().flat_map(Release::octets));
        section
    }

    /// The section before that: for each scope 1 + houses lists of names, each after its count.
    pub fn names(&self) -> Vec<u8> {
        let mut section = vec![self.scopes.len() as u8];
        for scope in &self.scopes {
            for list in 0..=self.houses.len() {
                let names = scope.names_of(list);
                section.push(names.len() as u8);
                section.extend(names.iter().flat_map(Name::octets));
            }
        }
        section
    }

    /// The sections before the names.
    pub fn front(&self) -> Vec<u8> {
        let mut file = vec![1];
        file.extend(self.server.to_be_bytes());
        file.extend(self.clock.to_be_bytes());
        file.push(self.houses.len() as u8);
        for (lowest, highest) in &self.houses {
            file.extend(lowest.to_be_bytes());
            file.extend(highest.to_be_bytes());
        }
        file.push(self.scopes.len() as u8);
        for scope in &self.scopes {
            file.extend(scope.lowest.to_be_bytes());
            file.extend([scope.size, scope.ttl]);
            file.extend(scope.parts.iter().flat_map(|part| [part.0, part.1]));
        }
        file.push(self.leases.len() as u8);
        file.extend(self.leases.iter().flat_map(Lease::octets));
        file
    }
}
