//! A campus file as a text that people read, edit and keep under version control, and back. Every file of right form has a text, sound or not, and
//! gives the same octets again.
//!
//! A line says one thing, in words with blanks between them; what stands behind a `#` is a comment. Times are UTC, texts quoted with `\xNN` for octets
//! that can't be read, ranges short: `239.192.1.0-3`.
//!
//! ```text
//! server 10.1.1.1
//! clock 2023-11-14T22:13:20Z
//! house 1 clients 10.0.1.0-255
//! scope 1 at 239.192.0.0 size 4 ttl 15
//!   house 1 share 2 limit 3
//!   name en "Small stage" default
//!   house 1 name de "Probe"
//! lease house 1 scope 1 id "\x00L1" request 0x00c0ffee from 2023-11-14T22:03:20Z to 2023-11-14T23:03:20Z on 239.192.0.0-1 239.192.0.3
//! hold house 1 scope 1 id "\x00L2" discover 0x00c0ffef from .. to .. lapses 2023-11-14T22:13:40Z on 239.192.0.2
//! release house 1 id "\x00L0" xid 0x00c0ffed at 2023-11-14T22:11:20Z
//! ```

mod read;

pub use read::{read, TextFault};

use crate::campus::{Campus, Lease, Name, Scope};
use crate::quoted::{identifier, quoted, tag};
use crate::utc;
use std::fmt::Write;
use std::net::Ipv4Addr;

/// The text of a campus.
pub fn write(campus: &Campus) -> String {
    let mut text = String::from(
        "# A campus file as text. `banshorra file` makes the campus file of it again.\n",
    );
    let (server, clock) = (Ipv4Addr::from(campus.server), utc::in_words(campus.clock));
    line(&mut text, format_args!("server {server}"));
    line(&mut text, format_args!("clock {clock}"));
    text.push('\n');
    for (&(lowest, highest), house) in campus.houses.iter().zip(1..) {
        let clients = range(lowest, highest);
        line(&mut text, format_args!("house {house} clients {clients}"));
    }
    for (scope, number) in campus.scopes.iter().zip(1..) {
        text.push('\n');
        write_scope(&mut text, number, scope);
    }
    let before = [
        campus.leases.len(),
        campus.holds.len(),
        campus.releases.len(),
    ];
    if before.iter().any(|count| *count > 0) {
        text.push('\n');
    }
    for lease in &campus.leases {
        let (front, on) = lease_words(campus, lease);
        line(&mut text, format_args!("lease {front} on {on}"));
    }
    for hold in &campus.holds {
        let ((front, on), lapse) = (lease_words(campus, &hold.lease), utc::in_words(hold.lapse));
        line(
            &mut text,
            format_args!("hold {front} lapses {lapse} on {on}"),
        );
    }
    for release in &campus.releases {
        let (house, id) = (release.house, identifier(&release.identifier));
        let (xid, time) = (release.transaction, utc::in_words(release.time));
        line(
            &mut text,
            format_args!("release house {house} id {id} xid 0x{xid:08x} at {time}"),
        );
    }
    text
}

fn line(text: &mut String, words: std::fmt::Arguments) {
    writeln!(text, "{words}").expect("a text has room");
}

fn write_scope(text: &mut String, number: usize, scope: &Scope) {
    let (lowest, size, ttl) = (Ipv4Addr::from(scope.lowest), scope.size, scope.ttl);
    line(
        text,
        format_args!("scope {number} at {lowest} size {size} ttl {ttl}"),
    );
    for (&(share, limit), house) in scope.parts.iter().zip(1..) {
        line(
            text,
            format_args!("  house {house} share {share} limit {limit}"),
        );
    }
    for (list, house) in scope.names.iter().zip(0..) {
        for name in list {
            let words = name_words(name);
            match house {
                0 => line(text, format_args!("  {words}")),
                _ => line(text, format_args!("  house {house} {words}")),
            }
        }
    }
}

fn name_words(name: &Name) -> String {
    let default = if name.default { " default" } else { "" };
    format!("name {} {}{default}", tag(&name.tag), quoted(&name.text))
}

/// What a lease says up to its period, and its addresses.
fn lease_words(campus: &Campus, lease: &Lease) -> (String, String) {
    let (house, scope, xid) = (lease.house, lease.scope, lease.transaction);
    let (start, end) = (utc::in_words(lease.start), utc::in_words(lease.end));
    let (id, kind) = (identifier(&lease.identifier), kind(lease.kind));
    let front =
        format!("house {house} scope {scope} id {id} {kind} 0x{xid:08x} from {start} to {end}");
    (front, on(campus, lease))
}

fn kind(number: u8) -> String {
    match number {
        1 => "discover".to_owned(),
        3 => "request".to_owned(),
        4 => "renew".to_owned(),
        _ => format!("type {number}"),
    }
}

/// A lease's addresses: dotted where the scope is known and has them, else as offsets, `+0-3`.
fn on(campus: &Campus, lease: &Lease) -> String {
    let last = lease.offsets.last().copied().unwrap_or(0);
    let lowest = campus.scope(lease.scope).map(|scope| scope.lowest);
    let lowest = lowest.filter(|lowest| lowest.checked_add(last.into()).is_some());
    let words = |(first, last): (u8, u8)| match lowest {
        Some(lowest) => range(lowest + u32::from(first), lowest + u32::from(last)),
        None if first == last => format!("+{first}"),
        None => format!("+{first}-{last}"),
    };
    match lease.offsets[..] {
        [] => "none".to_owned(),
        _ => runs(&lease.offsets)
            .into_iter()
            .map(words)
            .collect::<Vec<_>>()
            .join(" "),
    }
}

/// Rising numbers as the fewest runs, first and last of each.
pub fn runs(numbers: &[u8]) -> Vec<(u8, u8)> {
    let mut runs: Vec<(u8, u8)> = vec![];
    for &number in numbers {
        match runs.last_mut() {
            Some((_, last)) if last.checked_add(1) == Some(number) => *last = number,
            _ => runs.push((number, number)),
        }
    }
    runs
}

/// A range of addresses, its last octet alone where the others are the first's: `239.192.1.0-3`; one address as itself.
pub fn range(first: u32, last: u32) -> String {
    let (from, to) = (Ipv4Addr::from(first), Ipv4Addr::from(last));
    if first == last {
        return from.to_string();
    }
    match first >> 8 == last >> 8 {
        true => format!("{from}-{}", last & 255),
        false => format!("{from}-{to}"),
    }
}
