//! The van's own server: one house and one scope, an empty book at clock 0, and a program that serves datagrams from
//! its standard input.

use crate::book::{Book, House, Quota, Scope};
use crate::names::ScopeNames;
use crate::octets::{hex, Octets};
use crate::programs::{octets_with_length, refused, CUT_OFF};
use crate::reply::SHORTEST_ROOM;
use crate::server::{serve, REPLY};
use crate::sound::sound;

/// The settings are unsound.
pub const UNSOUND_SETTINGS: u8 = 21;

/// The small settings.
#[derive(Clone, Copy, Debug, PartialEq, Eq)]
pub struct Settings {
    pub server: u32,
    pub lowest_client: u32,
    pub highest_client: u32,
    pub lowest_address: u32,
    pub size: u8,
    pub ttl: u8,
}

impl Settings {
    /// "server address, lowest and highest client address, lowest pool address, 4 octets each; size, TTL, 1 each".
    fn read(octets: &mut Octets) -> Option<Settings> {
        Some(Settings {
            server: octets.u32()?,
            lowest_client: octets.u32()?,
            highest_client: octets.u32()?,
            lowest_address: octets.u32()?,
            size: octets.u8()?,
            ttl: octets.u8()?,
        })
    }

    /// The empty book at clock 0: "share and limit are the size". The van has no names.
    pub fn book(&self) -> Book {
        Book {
            server: self.server,
            clock: 0,
            houses: vec![House {
                lowest: self.lowest_client,
                highest: self.highest_client,
            }],
            scopes: vec![Scope {
                lowest: self.lowest_address,
                size: self.size,
                ttl: self.ttl,
                quotas: vec![Quota {
                    share: self.size,
                    limit: self.size,
                }],
            }],
            leases: Vec::new(),
            names: vec![ScopeNames::none(1)],
            releases: Vec::new(),
            holds: Vec::new(),
        }
    }
}

/// The settings and then datagrams, each after its time(4), client address(4) and length(2): a line for each.
pub fn van(input: &[u8]) -> String {
    let mut octets = Octets::new(input);
    let Some(settings) = Settings::read(&mut octets) else {
        return refused(CUT_OFF);
    };
    let mut book = settings.book();
    if !sound(&book) {
        return refused(UNSOUND_SETTINGS);
    }
    let mut text = String::new();
    while !octets.is_empty() {
        let Some(record) = Record::read(&mut octets) else {
            return text + &refused(CUT_OFF);
        };
        text += &line(&mut book, &record);
    }
    text
}

/// A datagram with its time and client.
struct Record<'a> {
    time: u32,
    client: u32,
    datagram: &'a [u8],
}

impl<'a> Record<'a> {
    fn read(octets: &mut Octets<'a>) -> Option<Record<'a>> {
        Some(Record {
            time: octets.u32()?,
            client: octets.u32()?,
            datagram: octets_with_length(octets)?,
        })
    }
}

/// "the outcome number and, for a reply, a blank and its octets in lower-case hex". The room is always long enough.
fn line(book: &mut Book, record: &Record) -> String {
    let mut room = [0; SHORTEST_ROOM];
    let (outcome, _, _, length) =
        serve(book, record.datagram, record.client, record.time, &mut room);
    match outcome {
        REPLY => format!("{outcome} {}\n", hex(&room[..length])),
        _ => format!("{outcome}\n"),
    }
}
