//! The remembered releases: which there are, how long one counts, and when it is forgotten.

/// Released identifiers that are remembered for a house, at most.
pub const RELEASES_OF_A_HOUSE: usize = 4;
/// From so many seconds after the release on, the RELEASE sent again is no longer known.
pub const RESEND_TIME: u64 = 300;

/// A remembered release: the house, the identifier it released, the transaction id of its RELEASE and
/// the clock at release. Houses count from 1.
#[derive(Clone, Debug, PartialEq, Eq)]
pub struct Release {
    pub house: u8,
    pub identifier: Vec<u8>,
    pub transaction: u32,
    pub time: u32,
}

impl Release {
    /// Whether it is of this house and identifier.
    pub fn is_of(&self, house: u8, identifier: &[u8]) -> bool {
        self.house == house && self.identifier == identifier
    }

    /// Whether the clock is less than 300 seconds after the release.
    pub fn counts_at(&self, clock: u32) -> bool {
        u64::from(clock) < u64::from(self.time) + RESEND_TIME
    }
}

/// By house, oldest first: neither the houses fall, nor the times within a house.
/// Equal times are fine; they stand in the order of release.
pub fn releases_in_file_order(releases: &[Release]) -> bool {
    let key = |release: &Release| (release.house, release.time);
    releases
        .windows(2)
        .all(|pair| key(&pair[0]) <= key(&pair[1]))
}

/// Remembers a release as the youngest of its house. A fifth one forgets the oldest of the house.
pub fn remember(releases: &mut Vec<Release>, release: Release) {
    let house = release.house;
    let place = releases
        .iter()
        .position(|other| other.house > house)
        .unwrap_or(releases.len());
    releases.insert(place, release);
    let of_the_house = |other: &Release| other.house == house;
    if releases.iter().filter(|other| of_the_house(other)).count() > RELEASES_OF_A_HOUSE {
        if let Some(oldest) = releases.iter().position(of_the_house) {
            releases.remove(oldest);
        }
    }
}

/// Forgets the release of an identifier of a house, if there is one.
pub fn forget(releases: &mut Vec<Release>, house: u8, identifier: &[u8]) {
    releases.retain(|release| !release.is_of(house, identifier));
}
