//! What is dropped of a campus file that is salvaged.

use crate::campus::{Campus, Lease};
use crate::quoted::identifier;
use crate::rules::says;
use std::fmt;

/// What can be kept of a campus file, and what can't.
#[derive(Clone, Debug, PartialEq, Eq)]
pub struct Salvaged<'r> {
    /// The new file. It is accepted, and never longer than the old one.
    pub file: &'r [u8],
    /// Those that were dropped: leases, holds, releases, each kind in the old file's order. None of a sound file.
    pub dropped: Vec<Dropped>,
}

/// A lease, hold or release that was dropped.
#[derive(Clone, Copy, Debug, PartialEq, Eq, Hash)]
pub struct Dropped {
    /// Which of the three.
    pub kind: Kind,
    /// Its place in its section of the old file, from 1.
    pub place: u8,
    /// The first rule that it breaks together with those kept before it: 1, 2 or 7 to 18.
    pub rule: u8,
}

/// What there is to keep or to drop.
#[derive(Clone, Copy, Debug, PartialEq, Eq, Hash)]
#[repr(u8)]
pub enum Kind {
    /// A lease.
    Lease = 1,
    /// An offer that is held.
    Hold = 2,
    /// A release that is remembered.
    Release = 3,
}

impl Kind {
    const ALL: [Kind; 3] = [Kind::Lease, Kind::Hold, Kind::Release];

    /// The number, as the list has it.
    pub fn number(self) -> u8 {
        self as u8
    }
}

impl fmt::Display for Kind {
    fn fmt(&self, f: &mut fmt::Formatter<'_>) -> fmt::Result {
        f.write_str(match self {
            Kind::Lease => "lease",
            Kind::Hold => "hold",
            Kind::Release => "release",
        })
    }
}

impl Dropped {
    /// Those of a list as the library writes it, after its count.
    pub(crate) fn of_list(list: &[u8]) -> Vec<Dropped> {
        list[2..].chunks(3).map(Dropped::of_octets).collect()
    }

    fn of_octets(octets: &[u8]) -> Dropped {
        let kind = Kind::ALL
            .into_iter()
            .find(|kind| kind.number() == octets[0]);
        Dropped {
            kind: kind.expect("a list has kinds 1 to 3"),
            place: octets[1],
            rule: octets[2],
        }
    }

    /// In words, with whose it is by the old file: `lease 3 (house 2, "truck"): rule 9: no address may have two houses`.
    pub fn in_words(&self, old: &Campus) -> String {
        let (kind, place, rule) = (self.kind, self.place, self.rule);
        let whose = match self.of(old) {
            Some((house, name)) => format!(" (house {house}, {})", identifier(name)),
            None => String::new(),
        };
        format!("{kind} {place}{whose}: rule {rule}: {}", says(rule))
    }

    /// Its house and identifier.
    fn of<'c>(&self, old: &'c Campus) -> Option<(u8, &'c [u8])> {
        let at = usize::from(self.place).checked_sub(1)?;
        match self.kind {
            Kind::Lease => old.leases.get(at).map(Lease::order),
            Kind::Hold => old.holds.get(at).map(|hold| hold.lease.order()),
            Kind::Release => {
                let release = old.releases.get(at)?;
                Some((release.house, &release.identifier))
            }
        }
    }
}
