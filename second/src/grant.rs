//! The grant rule, tried out number by number.

use crate::book::{Book, Standing};
use crate::period::Period;

/// The addresses (offsets, rising) that a house gets in a scope for a period,
/// or `None` if the grant is below the least number.
pub fn grant(
    book: &Book,
    house: u8,
    scope: u8,
    period: &Period,
    least: u16,
    desired: u16,
) -> Option<Vec<u8>> {
    let size = book.offsets(scope).count() as u64;
    let standings = book.standings(scope);
    let free = free_addresses(book, house, scope, period);
    let f = free.len() as u64;
    // The grant is the largest allowed k up to desired. Giving k takes m = k - f new addresses, or 0.
    let k = (0..=u64::from(desired))
        .rev()
        .find(|k| is_allowed(&standings, size, house, k.saturating_sub(f)))?;
    if k < u64::from(least) {
        return None;
    }
    // The lowest of the f, then the lowest that are nobody's.
    let addresses = free.into_iter().chain(book.nobodys_addresses(scope));
    let mut given: Vec<u8> = addresses.take(k as usize).collect();
    given.sort_unstable();
    Some(given)
}

/// The f: those of the house's addresses that have no lease or hold overlapping the wanted period, lowest first.
fn free_addresses(book: &Book, house: u8, scope: u8, period: &Period) -> Vec<u8> {
    let mut free = book.addresses_of(house, scope);
    free.retain(|&offset| {
        book.leases_on(scope, offset)
            .iter()
            .all(|lease| !lease.period().overlaps(period))
    });
    free
}

/// Whether a house may take m new addresses: D + m is at most its limit, and the sum over all houses of
/// the larger of holding and share, with D + m for this house, is at most the scope's size.
fn is_allowed(standings: &[Standing], size: u64, house: u8, m: u64) -> bool {
    let mut sum = 0;
    for standing in standings {
        let mut holding = standing.holding;
        if standing.house == house {
            holding += m;
            if holding > standing.limit {
                return false;
            }
        }
        sum += holding.max(standing.share);
    }
    sum <= size
}
