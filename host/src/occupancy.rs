//! The occupancy board.

use crate::OCCUPANCY_ROOM;

/// Octets of a scope: owner and count of each of its addresses, then what each house holds.
const SCOPE: usize = OCCUPANCY_ROOM / 4;
const HOUSES: usize = 8;
const ENTRIES: usize = SCOPE - HOUSES;

/// Who has which address, as of a campus file's clock: for each scope and address the owning house and the number of leases and holds on it,
/// whatever their periods, and for each house in the scope its holding. Scopes and houses count from 1, as in the file; an offset is counted from
/// the scope's lowest address.
#[derive(Clone, Debug, PartialEq, Eq)]
pub struct Occupancy {
    octets: [u8; OCCUPANCY_ROOM],
}

impl Occupancy {
    pub(crate) fn of_octets(octets: [u8; OCCUPANCY_ROOM]) -> Self {
        Self { octets }
    }

    /// The house that has an address, and how many leases and holds are on it. `(None, 0)` for an address that is nobody's or that the campus
    /// hasn't.
    pub fn entry(&self, scope: u8, offset: u8) -> (Option<u8>, u8) {
        let at = 2 * usize::from(offset);
        match self
            .scope(scope)
            .and_then(|scope| scope[..ENTRIES].get(at..at + 2))
        {
            Some(&[owner, count]) => ((owner > 0).then_some(owner), count),
            _ => (None, 0),
        }
    }

    /// How many addresses of a scope a house has; 0 for a scope or house that the campus hasn't.
    pub fn holding(&self, scope: u8, house: u8) -> u8 {
        let place = usize::from(house).checked_sub(1);
        let holdings = self.scope(scope).map(|scope| &scope[ENTRIES..]);
        let holding = holdings.zip(place).and_then(|(all, at)| all.get(at));
        holding.copied().unwrap_or(0)
    }

    /// The octets, as `include/banshorra.h` lays them out.
    pub fn as_bytes(&self) -> &[u8; OCCUPANCY_ROOM] {
        &self.octets
    }

    /// The octets of a scope.
    fn scope(&self, scope: u8) -> Option<&[u8]> {
        self.octets
            .chunks(SCOPE)
            .nth(usize::from(scope).checked_sub(1)?)
    }
}
