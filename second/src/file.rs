//! Reader and writer of the campus file.

use crate::book::{Book, House, Lease, Quota, Scope};
use crate::holds::{holds_in_file_order, Hold};
use crate::names::{Name, ScopeNames};
use crate::octets::Octets;
use crate::releases::{releases_in_file_order, Release};
use crate::sound::{leases_in_file_order, names_are_good, offsets_rise, sound};

/// The longest campus file.
pub const LONGEST_FILE: usize = 32_768;

/// Refusals of the reader and of the writer.
pub const WRONG_FORM: u8 = 20;
pub const UNSOUND: u8 = 21;
pub const UNSOUND_TO_WRITE: u8 = 22;
pub const ROOM_TOO_SHORT: u8 = 23;

/// Reads a campus file: the book, or 20 for a wrong form, or else 21 for an unsound book.
pub fn read(file: &[u8]) -> Result<Book, u8> {
    let book = read_form(file).ok_or(WRONG_FORM)?;
    if sound(&book) {
        Ok(book)
    } else {
        Err(UNSOUND)
    }
}

/// The form alone: layout, order and no octet after it. What the sections say may be far from sound,
/// except the names: every fault of theirs is one of form.
pub fn read_form(file: &[u8]) -> Option<Book> {
    if file.len() > LONGEST_FILE {
        return None;
    }
    let mut octets = Octets::new(file);
    if octets.u8()? != 1 {
        return None;
    }
    let server = octets.u32()?;
    let clock = octets.u32()?;
    let houses = section(&mut octets, read_house)?;
    let scopes = section(&mut octets, |octets| read_scope(octets, houses.len()))?;
    let leases = section(&mut octets, read_lease)?;
    let names = section(&mut octets, |octets| read_scope_names(octets, houses.len()))?;
    let releases = section(&mut octets, read_release)?;
    let holds = section(&mut octets, read_hold)?;
    let book = Book {
        server,
        clock,
        houses,
        scopes,
        leases,
        names,
        releases,
        holds,
    };
    let in_order = leases_in_file_order(&book.leases)
        && releases_in_file_order(&book.releases)
        && holds_in_file_order(&book.holds);
    (octets.is_empty() && in_order && names_are_good(&book)).then_some(book)
}

/// A one-octet count and then that many entries.
fn section<T>(
    octets: &mut Octets,
    mut entry: impl FnMut(&mut Octets) -> Option<T>,
) -> Option<Vec<T>> {
    let count = octets.u8()?;
    (0..count).map(|_| entry(octets)).collect()
}

fn read_house(octets: &mut Octets) -> Option<House> {
    Some(House {
        lowest: octets.u32()?,
        highest: octets.u32()?,
    })
}

fn read_scope(octets: &mut Octets, houses: usize) -> Option<Scope> {
    Some(Scope {
        lowest: octets.u32()?,
        size: octets.u8()?,
        ttl: octets.u8()?,
        quotas: (0..houses)
            .map(|_| read_quota(octets))
            .collect::<Option<Vec<Quota>>>()?,
    })
}

fn read_quota(octets: &mut Octets) -> Option<Quota> {
    Some(Quota {
        share: octets.u8()?,
        limit: octets.u8()?,
    })
}

fn read_lease(octets: &mut Octets) -> Option<Lease> {
    let lease = Lease {
        house: octets.u8()?,
        scope: octets.u8()?,
        identifier: counted_octets(octets)?,
        message_type: octets.u8()?,
        transaction: octets.u32()?,
        start: octets.u32()?,
        end: octets.u32()?,
        offsets: counted_octets(octets)?,
    };
    offsets_rise(&lease.offsets).then_some(lease)
}

/// The campus list and then each house's own, each after its count. The scope is told by the place alone.
fn read_scope_names(octets: &mut Octets, houses: usize) -> Option<ScopeNames> {
    Some(ScopeNames {
        campus: section(octets, read_name)?,
        houses: (0..houses)
            .map(|_| section(octets, read_name))
            .collect::<Option<Vec<Vec<Name>>>>()?,
    })
}

fn read_name(octets: &mut Octets) -> Option<Name> {
    Some(Name {
        flags: octets.u8()?,
        tag: counted_octets(octets)?,
        text: counted_octets(octets)?,
    })
}

/// House(1), identifier length(1) and octets, transaction id(4), time(4).
fn read_release(octets: &mut Octets) -> Option<Release> {
    Some(Release {
        house: octets.u8()?,
        identifier: counted_octets(octets)?,
        transaction: octets.u32()?,
        time: octets.u32()?,
    })
}

/// Laid out as a lease, the lapse time(4) last.
fn read_hold(octets: &mut Octets) -> Option<Hold> {
    Some(Hold {
        lease: read_lease(octets)?,
        lapse: octets.u32()?,
    })
}

/// A one-octet length and then that many octets.
fn counted_octets(octets: &mut Octets) -> Option<Vec<u8>> {
    let length = octets.u8()?;
    Some(octets.take(usize::from(length))?.to_vec())
}

/// Writes the book as a campus file into the front of the room and gives its length;
/// 22 for an unsound book, or else 23 if the room is too short, and these write nothing.
pub fn write(book: &Book, room: &mut [u8]) -> Result<usize, u8> {
    if !sound(book) {
        return Err(UNSOUND_TO_WRITE);
    }
    let file = file_of(book);
    let Some(front) = room.get_mut(..file.len()) else {
        return Err(ROOM_TOO_SHORT);
    };
    front.copy_from_slice(&file);
    Ok(file.len())
}

/// The octets of a sound book's file. Every count of a sound book fits one octet.
pub fn file_of(book: &Book) -> Vec<u8> {
    let mut file = vec![1];
    file.extend(book.server.to_be_bytes());
    file.extend(book.clock.to_be_bytes());
    file.push(book.houses.len() as u8);
    for house in &book.houses {
        file.extend(house.lowest.to_be_bytes());
        file.extend(house.highest.to_be_bytes());
    }
    file.push(book.scopes.len() as u8);
    for scope in &book.scopes {
        write_scope(&mut file, scope);
    }
    file.push(book.leases.len() as u8);
    for lease in &book.leases {
        write_lease(&mut file, lease);
    }
    file.push(book.names.len() as u8);
    for names in &book.names {
        write_scope_names(&mut file, names);
    }
    file.push(book.releases.len() as u8);
    for release in &book.releases {
        write_release(&mut file, release);
    }
    file.push(book.holds.len() as u8);
    for hold in &book.holds {
        write_lease(&mut file, &hold.lease);
        file.extend(hold.lapse.to_be_bytes());
    }
    file
}

fn write_scope(file: &mut Vec<u8>, scope: &Scope) {
    file.extend(scope.lowest.to_be_bytes());
    file.push(scope.size);
    file.push(scope.ttl);
    for quota in &scope.quotas {
        file.push(quota.share);
        file.push(quota.limit);
    }
}

fn write_lease(file: &mut Vec<u8>, lease: &Lease) {
    file.push(lease.house);
    file.push(lease.scope);
    file.push(lease.identifier.len() as u8);
    file.extend(&lease.identifier);
    file.push(lease.message_type);
    file.extend(lease.transaction.to_be_bytes());
    file.extend(lease.start.to_be_bytes());
    file.extend(lease.end.to_be_bytes());
    file.push(lease.offsets.len() as u8);
    file.extend(&lease.offsets);
}

fn write_scope_names(file: &mut Vec<u8>, names: &ScopeNames) {
    for list in names.lists() {
        file.push(list.len() as u8);
        for name in list {
            file.extend(name.octets());
        }
    }
}

fn write_release(file: &mut Vec<u8>, release: &Release) {
    file.push(release.house);
    file.push(release.identifier.len() as u8);
    file.extend(&release.identifier);
    file.extend(release.transaction.to_be_bytes());
    file.extend(release.time.to_be_bytes());
}
