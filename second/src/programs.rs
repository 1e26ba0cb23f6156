//! What the programs `replay`, `board` and `occupancy` print for their standard input.

use crate::book::Book;
use crate::file;
use crate::occupancy::scope_boards;
use crate::octets::{hex, Octets};
use crate::server::{serve, BAD_OPTIONS, REPLY};
use std::net::Ipv4Addr;

/// The input of `replay` or `van` is cut off.
pub const CUT_OFF: u8 = 24;

/// A campus file: the board's text, or its refusal.
pub fn board(input: &[u8]) -> String {
    match file::read(input) {
        Ok(book) => board_text(&book),
        Err(refusal) => refused(refusal),
    }
}

/// A header and, by scope then house: lowest address, house, share, limit, holding.
pub fn board_text(book: &Book) -> String {
    let mut text = String::from("scope house share limit holds\n");
    for (number, scope) in book.scope_numbers().zip(&book.scopes) {
        let address = Ipv4Addr::from(scope.lowest);
        for standing in book.standings(number) {
            text += &format!(
                "{} {} {} {} {}\n",
                address, standing.house, standing.share, standing.limit, standing.holding
            );
        }
    }
    text
}

/// A campus file: the occupancy board's text, or the file's refusal.
pub fn occupancy(input: &[u8]) -> String {
    match file::read(input) {
        Ok(book) => occupancy_text(&book),
        Err(refusal) => refused(refusal),
    }
}

/// A header and, by scope then address: address, owning house or 0, leases and holds on it; then a header and, by
/// scope then house: lowest address, house, holding.
pub fn occupancy_text(book: &Book) -> String {
    let mut addresses = String::from("address house leases\n");
    let mut holdings = String::from("scope house holds\n");
    for (board, scope) in scope_boards(book).iter().zip(&book.scopes) {
        for (entry, number) in board.entries.iter().zip(scope.lowest..) {
            let (address, owner) = (Ipv4Addr::from(number), entry.owner.unwrap_or(0));
            addresses += &format!("{address} {owner} {}\n", entry.count);
        }
        let lowest = Ipv4Addr::from(scope.lowest);
        for (house, holding) in book.house_numbers().zip(&board.holdings) {
            holdings += &format!("{lowest} {house} {holding}\n");
        }
    }
    addresses + &holdings
}

/// A campus file with its length and a list of calls: a line per call, then the book afterwards.
pub fn replay(input: &[u8]) -> String {
    let mut octets = Octets::new(input);
    let Some(campus) = octets_with_length(&mut octets) else {
        return refused(CUT_OFF);
    };
    let mut book = match file::read(campus) {
        Ok(book) => book,
        Err(refusal) => return refused(refusal),
    };
    let mut text = String::new();
    while !octets.is_empty() {
        let Some(record) = read_record(&mut octets) else {
            return text + &refused(CUT_OFF);
        };
        text += &call_line(&mut book, &record);
    }
    text + &book_line(&book)
}

/// A call of the list.
struct Record<'a> {
    time: u32,
    client: u32,
    room_length: u16,
    datagram: &'a [u8],
}

fn read_record<'a>(octets: &mut Octets<'a>) -> Option<Record<'a>> {
    Some(Record {
        time: octets.u32()?,
        client: octets.u32()?,
        room_length: octets.u16()?,
        datagram: octets_with_length(octets)?,
    })
}

/// A length(2) and then that many octets.
pub fn octets_with_length<'a>(octets: &mut Octets<'a>) -> Option<&'a [u8]> {
    let length = octets.u16()?;
    octets.take(usize::from(length))
}

/// The outcome and, for a reply, its octets, for a discard 5 where the options went wrong; then the count.
fn call_line(book: &mut Book, record: &Record) -> String {
    let mut room = vec![0; usize::from(record.room_length)];
    let (outcome, offset, count, length) =
        serve(book, record.datagram, record.client, record.time, &mut room);
    match outcome {
        REPLY => format!("{outcome} {} #{count}\n", hex(&room[..length])),
        BAD_OPTIONS => format!("{outcome} @{offset} #{count}\n"),
        _ => format!("{outcome} #{count}\n"),
    }
}

/// The campus file of the book afterwards.
fn book_line(book: &Book) -> String {
    let mut room = vec![0; file::LONGEST_FILE];
    match file::write(book, &mut room) {
        Ok(length) => format!("book {}\n", hex(&room[..length])),
        Err(refusal) => refused(refusal),
    }
}

pub fn refused(number: u8) -> String {
    format!("refused {number}\n")
}
