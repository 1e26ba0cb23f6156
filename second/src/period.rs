//! Periods: from start, included, to end, excluded. Wide numbers, so that no sum wraps.

/// Seconds.
pub const DEFAULT_LEASE: u32 = 3_600;
pub const LONGEST_LEASE: u32 = 604_800;
pub const HORIZON: u64 = 2_592_000;
/// The last second that 32 bits name.
pub const LAST_TIME: u64 = 4_294_967_295;

#[derive(Clone, Copy, Debug, PartialEq, Eq)]
pub struct Period {
    pub start: u64,
    pub end: u64,
}

impl Period {
    /// The wanted period: the start is raised to the clock if earlier, the length is cut to the longest lease.
    pub fn wanted(start: u32, length: u32, clock: u32) -> Self {
        let start = u64::from(start.max(clock));
        let length = u64::from(length.min(LONGEST_LEASE));
        Period {
            start,
            end: start + length,
        }
    }

    /// Its length, in seconds.
    pub fn length(&self) -> u64 {
        self.end.saturating_sub(self.start)
    }

    /// Periods that only touch don't overlap.
    pub fn overlaps(&self, other: &Period) -> bool {
        self.start < other.end && other.start < self.end
    }

    /// Start at most clock plus horizon, end at most 4,294,967,295.
    pub fn is_inside(&self, clock: u32) -> bool {
        self.start <= u64::from(clock) + HORIZON && self.end <= LAST_TIME
    }
}
