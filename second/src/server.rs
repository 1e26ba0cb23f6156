//! The server: one datagram in, a reply or a discard out. Here are the first half, which decides and changes the book,
//! and the whole call; the second half, which writes the reply, is in `reply`.

use crate::book::{file_key, Book, Lease, RECORDS_OF_A_HOUSE};
use crate::ending::compared;
use crate::grant::grant;
use crate::holds::Hold;
use crate::message::{code, Header, Kind, Options};
use crate::period::{Period, DEFAULT_LEASE};
use crate::releases::{forget, remember, Release};
use crate::reply::{self, write, SHORTEST_ROOM};
use crate::sound::sound;
use crate::verdict::{Answer, Asked, Discard, Given, Ruling, Verdict};

/// The largest difference of clocks, in seconds.
pub const SKEW: u32 = 1_800;

/// Outcomes: a reply, or why the datagram is discarded.
pub const REPLY: u8 = 0;
pub const BOOK_UNSOUND: u8 = 1;
pub const NO_ROOM: u8 = 2;
pub const NO_HOUSE: u8 = 3;
pub const BAD_HEADER: u8 = 4;
pub const BAD_OPTIONS: u8 = 5;
pub const FEATURE_REQUIRED: u8 = 6;
pub const OTHER_SERVER: u8 = 7;
pub const SILENT_ERROR: u8 = 8;

/// Errors, as option 16 of a NAK gives them.
const CANNOT_GRANT: u16 = 0;
const BAD_REQUEST: u16 = 1;
const CLOCKS_APART: u16 = 2;
const NOT_HELD: u16 = 3;

/// Serves one datagram. Gives the outcome, its offset, its count and the length of the reply, which stands in the front
/// of the room; the rest of the room is left as it was, and a discard leaves all of it. The offset is where in the
/// datagram the options went wrong: discard 5 carries it, every other outcome 0. The count is how many records the
/// lookups by identifier compared.
/// Tests 1 and 2 are its own, so that both leave the book; it is made of the two halves after them.
pub fn serve(
    book: &mut Book,
    datagram: &[u8],
    client: u32,
    time: u32,
    room: &mut [u8],
) -> (u8, usize, usize, usize) {
    if !sound(book) {
        return (BOOK_UNSOUND, 0, 0, 0);
    }
    if room.len() < SHORTEST_ROOM {
        return (NO_ROOM, 0, 0, 0);
    }
    let verdict = judge_sound(book, datagram, client, time);
    write(book, &verdict, room)
}

/// The same with the reply as octets of its own: the outcome, its offset and count, and the reply, which is empty for
/// a discard.
pub fn answer(
    book: &mut Book,
    datagram: &[u8],
    client: u32,
    time: u32,
    room_length: usize,
) -> (u8, usize, usize, Vec<u8>) {
    let mut room = vec![0; room_length];
    let (outcome, offset, count, length) = serve(book, datagram, client, time, &mut room);
    room.truncate(length);
    (outcome, offset, count, room)
}

/// The first half of a call: the verdict, and in `book` the book afterwards. It has no reply room, so that test 2 isn't
/// made. An unsound book is 1 and left as it was.
pub fn judge(book: &mut Book, datagram: &[u8], client: u32, time: u32) -> Verdict {
    if !sound(book) {
        return Verdict::Discard(BOOK_UNSOUND.into());
    }
    judge_sound(book, datagram, client, time)
}

/// The same once the book is known to be sound.
fn judge_sound(book: &mut Book, datagram: &[u8], client: u32, time: u32) -> Verdict {
    match ruling_or_discard(book, datagram, client, time) {
        Ok(ruling) => Verdict::Reply(ruling),
        Err(discard) => Verdict::Discard(discard),
    }
}

/// The tests 3 to 8, in the order of the table, after the clock is raised. Nothing is looked up before test 8, so that
/// the count of the others is 0.
fn ruling_or_discard(
    book: &mut Book,
    datagram: &[u8],
    client: u32,
    time: u32,
) -> Result<Ruling, Discard> {
    book.advance(time);
    let house = book.house_of_client(client).ok_or(NO_HOUSE)?;
    let header = Header::read(datagram).ok_or(BAD_HEADER)?;
    let options = Options::read(datagram).map_err(of_options)?;
    if options.requires_a_feature() {
        return Err(FEATURE_REQUIRED.into());
    }
    if names_another_server(book, &header, &options) {
        return Err(OTHER_SERVER.into());
    }
    let call = Call {
        house,
        header,
        options,
    };
    let mut count = 0;
    match answer_or_error(book, &call, &mut count) {
        Ok(answer) => Ok(call.ruling(answer, count)),
        Err(error) => match header.kind {
            Kind::Discover | Kind::GetInfo => Err(Discard {
                count,
                ..SILENT_ERROR.into()
            }),
            _ => Ok(call.ruling(Answer::Error(error), count)),
        },
    }
}

fn of_options(offset: usize) -> Discard {
    Discard {
        offset,
        ..BAD_OPTIONS.into()
    }
}

/// A REQUEST with a Server Identifier other than the six octets of family 1 and our address.
fn names_another_server(book: &Book, header: &Header, options: &Options) -> bool {
    header.kind == Kind::Request
        && options
            .value(code::SERVER_IDENTIFIER)
            .is_some_and(|value| value != reply::server_identifier(book))
}

/// A message that has passed test 7, and the house it comes from.
struct Call<'a> {
    house: u8,
    header: Header,
    options: Options<'a>,
}

impl Call<'_> {
    /// It has a resend test that goes by a lease.
    fn may_be_resent(&self) -> bool {
        matches!(self.header.kind, Kind::Request | Kind::Renew)
    }

    /// Error 1 asks for its identifier.
    fn takes_new_addresses(&self) -> bool {
        matches!(self.header.kind, Kind::Discover | Kind::Request)
    }

    /// Error 3 asks for its identifier.
    fn needs_a_lease(&self) -> bool {
        matches!(self.header.kind, Kind::Renew | Kind::Release)
    }

    /// The scope that option 4 names, if it is ours.
    fn scope(&self, book: &Book) -> Option<u8> {
        book.scope_at(self.options.u32(code::SCOPE)?)
    }

    /// The house's hold with the message's identifier.
    fn hold<'a>(&self, book: &'a Book) -> Option<&'a Hold> {
        let place = book.hold_position(self.house, self.options.identifier)?;
        book.holds.get(place)
    }

    /// Whether there is such a hold, and in another scope than the message's.
    fn has_hold_elsewhere(&self, book: &Book) -> bool {
        self.hold(book)
            .is_some_and(|hold| Some(hold.lease.scope) != self.scope(book))
    }

    /// An answer with what the reply repeats of the message, and how many records were compared for it.
    fn ruling(&self, answer: Answer, count: usize) -> Ruling {
        Ruling {
            house: self.house,
            transaction: self.header.transaction,
            identifier: self.options.identifier.to_vec(),
            has_features: self.options.has(code::FEATURES),
            count,
            answer,
        }
    }

    /// What a GETINFO asks for.
    fn asked(&self) -> Asked {
        let language = self.options.value(code::REQUESTED_LANGUAGE);
        Asked {
            scope_list: self.options.asks_for(code::SCOPE_LIST),
            current_time: self.options.asks_for(code::CURRENT_TIME),
            language: language.map(<[u8]>::to_vec),
        }
    }
}

/// Resend, of a RELEASE too, then the errors 1, 2 and 3, then what the message asks, which may draw error 0.
/// The count is "the sum over its lookups: one for the resend test of a REQUEST or RENEW, and one where error 1 or 3
/// asks for the identifier, unless an earlier test has ended the matter". What is remembered of releases is no lookup.
fn answer_or_error(book: &mut Book, call: &Call, count: &mut usize) -> Result<Answer, u16> {
    if call.may_be_resent() {
        *count += compared(book, call.house, call.options.identifier);
    }
    if let Some(lease) = resent(book, call) {
        return Ok(Answer::Lease(Given::of(lease)));
    }
    if is_release_sent_again(book, call) {
        return Ok(Answer::Released);
    }
    if is_bad_request(book, call) {
        return Err(BAD_REQUEST);
    }
    if call.takes_new_addresses() {
        *count += compared(book, call.house, call.options.identifier);
    }
    if is_identifier_taken(book, call) {
        return Err(BAD_REQUEST);
    }
    if clocks_apart(book, call) {
        return Err(CLOCKS_APART);
    }
    if call.needs_a_lease() {
        *count += compared(book, call.house, call.options.identifier);
    }
    match call.header.kind {
        Kind::Discover => discover(book, call),
        Kind::Request => request(book, call),
        Kind::Renew => renew(book, call),
        Kind::Release => release(book, call),
        Kind::GetInfo => Ok(Answer::Info(call.asked())),
    }
}

/// The lease that records the house, identifier, type and transaction id of a REQUEST or RENEW.
fn resent<'a>(book: &'a Book, call: &Call) -> Option<&'a Lease> {
    if !call.may_be_resent() {
        return None;
    }
    book.live_leases().find(|lease| {
        lease.house == call.house
            && lease.identifier == call.options.identifier
            && lease.message_type == call.header.kind.number()
            && lease.transaction == call.header.transaction
    })
}

/// A RELEASE with the house, identifier and transaction id of a remembered release, at a clock less than
/// 300 seconds after that. It changes nothing, the time remembered neither.
fn is_release_sent_again(book: &Book, call: &Call) -> bool {
    call.header.kind == Kind::Release
        && book.releases.iter().any(|release| {
            release.is_of(call.house, call.options.identifier)
                && release.transaction == call.header.transaction
                && release.counts_at(book.clock)
        })
}

/// Error 1, as far as the message by itself and the scopes draw it: all of its tests but the last.
fn is_bad_request(book: &Book, call: &Call) -> bool {
    let options = &call.options;
    let (least, desired) = options.number();
    let a_code_is_not_allowed = options.codes().any(|code| !call.header.kind.allows(code));
    let scope_is_not_ours = call.takes_new_addresses() && call.scope(book).is_none();
    let lease_time_is_0 = options.u32(code::LEASE_TIME) == Some(0);
    let number_is_wrong = least == 0 || least > desired;
    let lacks_current_time = (options.has(code::START_TIME) || options.has(code::MAXIMUM_START))
        && !options.has(code::CURRENT_TIME);
    a_code_is_not_allowed
        || scope_is_not_ours
        || lease_time_is_0
        || number_is_wrong
        || lacks_current_time
        || is_latest_start_before_start(options)
}

/// The last test of error 1: a DISCOVER or REQUEST with an identifier that the house has a lease on, or a DISCOVER with
/// one that it has a hold on in another scope.
fn is_identifier_taken(book: &Book, call: &Call) -> bool {
    let is_leased = book.position(call.house, call.options.identifier).is_some();
    let is_held_elsewhere = call.header.kind == Kind::Discover && call.has_hold_elsewhere(book);
    call.takes_new_addresses() && (is_leased || is_held_elsewhere)
}

/// A Maximum Start Time before Start Time, both as they were sent.
fn is_latest_start_before_start(options: &Options) -> bool {
    match (
        options.u32(code::MAXIMUM_START),
        options.u32(code::START_TIME),
    ) {
        (Some(latest), Some(start)) => latest < start,
        _ => false,
    }
}

/// Error 2: Current Time and clock more than 1,800 apart.
fn clocks_apart(book: &Book, call: &Call) -> bool {
    call.options
        .u32(code::CURRENT_TIME)
        .is_some_and(|time| time.abs_diff(book.clock) > SKEW)
}

/// What DISCOVER and REQUEST both are given: the held offer as it stands, or a new grant where nothing is held.
/// A hold in another scope has drawn error 1 or is dropped already.
fn given(book: &Book, call: &Call) -> Result<Lease, u16> {
    match call.hold(book) {
        Some(hold) => held_lease(hold, call),
        None => new_lease(book, call),
    }
}

/// A held offer's period and addresses; error 0 "if these are fewer than its least or W-203 forbids the period".
/// Nothing else of the message is asked.
fn held_lease(hold: &Hold, call: &Call) -> Result<Lease, u16> {
    let lease = &hold.lease;
    let (least, _) = call.options.number();
    let are_fewer = lease.offsets.len() < usize::from(least);
    if are_fewer || !minimum_and_latest_start_are_met(&lease.period(), &call.options) {
        return Err(CANNOT_GRANT);
    }
    Ok(lease.clone())
}

/// The lease or hold that a new grant would make now, with the message's type and transaction id.
fn new_lease(book: &Book, call: &Call) -> Result<Lease, u16> {
    // A scope that isn't ours has drawn error 1 already.
    let scope = call.scope(book).ok_or(BAD_REQUEST)?;
    let options = &call.options;
    let start = options.u32(code::START_TIME).unwrap_or(book.clock);
    let length = options.u32(code::LEASE_TIME).unwrap_or(DEFAULT_LEASE);
    let period = Period::wanted(start, length, book.clock);
    let (start, end) = times_given(&period, book.clock, &call.options)?;
    if book.records_of(call.house) >= RECORDS_OF_A_HOUSE {
        return Err(CANNOT_GRANT);
    }
    let (least, desired) = options.number();
    let offsets = grant(book, call.house, scope, &period, least, desired).ok_or(CANNOT_GRANT)?;
    Ok(Lease {
        house: call.house,
        scope,
        identifier: options.identifier.to_vec(),
        message_type: call.header.kind.number(),
        transaction: call.header.transaction,
        start,
        end,
        offsets,
    })
}

/// The period's start and end as times of 32 bits, or error 0 for a period that isn't inside
/// or that the message's minimum or latest start forbids.
fn times_given(period: &Period, clock: u32, options: &Options) -> Result<(u32, u32), u16> {
    if !period.is_inside(clock) || !minimum_and_latest_start_are_met(period, options) {
        return Err(CANNOT_GRANT);
    }
    let time = |time: u64| u32::try_from(time).map_err(|_| CANNOT_GRANT);
    Ok((time(period.start)?, time(period.end)?))
}

/// "After the cut to the longest lease, a length below Minimum Lease Time can't be given, nor a start after
/// Maximum Start Time." The start is the one raised to the clock; what isn't sent forbids nothing.
fn minimum_and_latest_start_are_met(period: &Period, options: &Options) -> bool {
    let minimum_is_met = options
        .u32(code::MINIMUM_LEASE)
        .is_none_or(|minimum| period.length() >= u64::from(minimum));
    let latest_start_is_met = options
        .u32(code::MAXIMUM_START)
        .is_none_or(|latest| period.start <= u64::from(latest));
    minimum_is_met && latest_start_is_met
}

/// DISCOVER leaves a hold of what it is offered, which forgets its identifier's release; where there is a hold, it
/// repeats the held offer and leaves the hold unchanged.
fn discover(book: &mut Book, call: &Call) -> Result<Answer, u16> {
    let offered = given(book, call)?;
    let offer = Given::of(&offered);
    if call.hold(book).is_none() {
        forget(&mut book.releases, offered.house, &offered.identifier);
        book.insert_hold(Hold::of_offer(offered, book.clock));
    }
    Ok(Answer::Offer(offer))
}

/// REQUEST records the lease with its type and transaction id. A new lease on an identifier forgets its release.
/// A hold turns into the lease; one in another scope is dropped first, and the drop stands if the REQUEST is refused.
fn request(book: &mut Book, call: &Call) -> Result<Answer, u16> {
    if call.has_hold_elsewhere(book) {
        drop_hold(book, call);
    }
    let lease = Lease {
        message_type: call.header.kind.number(),
        transaction: call.header.transaction,
        ..given(book, call)?
    };
    drop_hold(book, call);
    let granted = Given::of(&lease);
    forget(&mut book.releases, lease.house, &lease.identifier);
    book.insert(lease);
    Ok(Answer::Lease(granted))
}

/// Takes the message's hold out of the book, if there is one.
fn drop_hold(book: &mut Book, call: &Call) {
    if let Some(place) = book.hold_position(call.house, call.options.identifier) {
        book.holds.remove(place);
    }
}

/// RENEW keeps the addresses and sets period, type and id. Error 3 if the house has no lease on the identifier;
/// a hold is none.
fn renew(book: &mut Book, call: &Call) -> Result<Answer, u16> {
    let place = book
        .position(call.house, call.options.identifier)
        .ok_or(NOT_HELD)?;
    let old = &book.leases[place];
    let start = call.options.u32(code::START_TIME).unwrap_or(old.start);
    let length = call.options.u32(code::LEASE_TIME).unwrap_or(old.length());
    let period = Period::wanted(start, length, book.clock);
    let (start, end) = times_given(&period, book.clock, &call.options)?;
    if overlaps_another(book, place, &period) {
        return Err(CANNOT_GRANT);
    }
    let lease = Lease {
        message_type: Kind::Renew.number(),
        transaction: call.header.transaction,
        start,
        end,
        ..old.clone()
    };
    let renewed = Given::of(&lease);
    book.leases[place] = lease;
    Ok(Answer::Lease(renewed))
}

/// Whether a period overlaps that of another lease or hold on one of the addresses of the lease at this place.
fn overlaps_another(book: &Book, place: usize, period: &Period) -> bool {
    let lease = &book.leases[place];
    lease.offsets.iter().any(|&offset| {
        book.leases_on(lease.scope, offset)
            .iter()
            .any(|other| file_key(other) != file_key(lease) && other.period().overlaps(period))
    })
}

/// RELEASE removes the lease and is remembered. Error 3 if the house has no lease on the identifier; a hold is none.
fn release(book: &mut Book, call: &Call) -> Result<Answer, u16> {
    let place = book
        .position(call.house, call.options.identifier)
        .ok_or(NOT_HELD)?;
    let lease = book.leases.remove(place);
    let release = Release {
        house: lease.house,
        identifier: lease.identifier,
        transaction: call.header.transaction,
        time: book.clock,
    };
    remember(&mut book.releases, release);
    Ok(Answer::Released)
}
