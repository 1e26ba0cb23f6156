//! Holds: what an OFFER leaves behind, and how long it stays.

use crate::book::{file_key, Lease};
use crate::message::Kind;

/// A hold lapses so many seconds after its OFFER, at the latest.
pub const HOLD_TIME: u64 = 30;

/// A hold: addresses and period as a lease has them, of type 1 and with its DISCOVER's transaction id,
/// and the time at which it lapses.
#[derive(Clone, Debug, PartialEq, Eq)]
pub struct Hold {
    pub lease: Lease,
    pub lapse: u32,
}

impl Hold {
    /// The hold that an OFFER of this lease leaves: "lapsing when the clock reaches thirty seconds after it,
    /// or the period's end if that is sooner".
    pub fn of_offer(lease: Lease, clock: u32) -> Hold {
        let latest = u64::from(clock) + HOLD_TIME;
        let lapse = u32::try_from(latest).map_or(lease.end, |latest| latest.min(lease.end));
        Hold { lease, lapse }
    }

    /// A hold "is live until it lapses".
    pub fn is_live_at(&self, clock: u32) -> bool {
        self.lapse > clock
    }

    /// "A hold is unsound unless it has type 1 and lapses after the clock, at most thirty seconds after it,
    /// and not after its period's end."
    pub fn has_sound_type_and_lapse(&self, clock: u32) -> bool {
        self.lease.message_type == Kind::Discover.number()
            && self.lapse > clock
            && u64::from(self.lapse) <= u64::from(clock) + HOLD_TIME
            && self.lapse <= self.lease.end
    }
}

/// Holds are ordered as leases are, by themselves.
pub fn holds_in_file_order(holds: &[Hold]) -> bool {
    holds
        .windows(2)
        .all(|pair| file_key(&pair[0].lease) <= file_key(&pair[1].lease))
}
