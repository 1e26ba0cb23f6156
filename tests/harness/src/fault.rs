//! Where the options of a datagram go wrong, by its octets alone: a third opinion on the offset that discard 5 carries. The options are laid out
//! to the datagram's end first; each is then held against every rule, and the first by place that breaks one counts.

use builder::Call;

/// Why a datagram draws discard 5: the rule that its first fault breaks.
#[derive(Clone, Copy, Debug, PartialEq, Eq, PartialOrd, Ord)]
pub enum Cause {
    PastEnd,
    LeftOver,
    Length,
    Features,
    Repeat,
    EarlyEnd,
    EndLength,
    TwoEnds,
    NoEnd,
    NoIdentifier,
}

pub const CAUSES: [Cause; 10] = [
    Cause::PastEnd,
    Cause::LeftOver,
    Cause::Length,
    Cause::Features,
    Cause::Repeat,
    Cause::EarlyEnd,
    Cause::EndLength,
    Cause::TwoEnds,
    Cause::NoEnd,
    Cause::NoIdentifier,
];

impl Cause {
    pub fn name(self) -> &'static str {
        match self {
            Cause::PastEnd => "an option past the end",
            Cause::LeftOver => "one to three octets left over",
            Cause::Length => "wrong length of a known option",
            Cause::Features => "option 12 wrongly filled",
            Cause::Repeat => "a repeat",
            Cause::EarlyEnd => "End not last",
            Cause::EndLength => "End with a length",
            Cause::TwoEnds => "two Ends",
            Cause::NoEnd => "no End",
            Cause::NoIdentifier => "no option 3",
        }
    }
}

/// The first fault of a datagram and the offset that discard 5 has to carry for it.
#[derive(Clone, Copy, Debug, PartialEq, Eq)]
pub struct Fault {
    pub offset: usize,
    pub cause: Cause,
}

/// What stands at an offset.
struct Piece<'a> {
    offset: usize,
    stands: Stands<'a>,
}

enum Stands<'a> {
    /// Too few octets for a code and a length.
    LeftOver,
    /// A code and a length that says more than there is.
    Cut,
    Option(u16, &'a [u8]),
}

/// The options as they are laid out, to the datagram's end.
fn pieces(datagram: &[u8]) -> Vec<Piece<'_>> {
    let mut pieces = Vec::new();
    let mut offset = 8;
    while offset < datagram.len() {
        let rest = &datagram[offset..];
        let (stands, length) = match rest {
            [high, low, length_high, length_low, value @ ..] => {
                let length = usize::from(u16::from_be_bytes([*length_high, *length_low]));
                let code = u16::from_be_bytes([*high, *low]);
                let whole = value.get(..length).map(|value| Stands::Option(code, value));
                (whole.unwrap_or(Stands::Cut), 4 + length)
            }
            _ => (Stands::LeftOver, rest.len()),
        };
        pieces.push(Piece { offset, stands });
        offset += length;
    }
    pieces
}

/// Document 01's column "value length": least, most, and what it has to be a multiple of.
fn has_length(code: u16, length: usize) -> bool {
    let (least, most, of) = match code {
        2 => (6, 18, 12),
        3 => (2, 32, 1),
        5 => (2, usize::MAX, 2),
        8 | 9 => (1, usize::MAX, 1),
        10 => (6, usize::MAX, 6),
        16 => (2, usize::MAX, 1),
        1..=16 => (4, 4, 1),
        _ => (0, usize::MAX, 1),
    };
    (least..=most).contains(&length) && (length - least).is_multiple_of(of)
}

/// Whether three lists of codes, each after its count, fill option 12.
fn is_filled(value: &[u8]) -> bool {
    let mut at = 0;
    for _ in 0..3 {
        let Some(&[high, low]) = value.get(at..at + 2) else {
            return false;
        };
        at += 2 + 2 * usize::from(u16::from_be_bytes([high, low]));
    }
    at == value.len()
}

/// The rule that a piece breaks where it stands, of those that there are.
fn broken(pieces: &[Piece], place: usize) -> Option<Cause> {
    let (code, value) = match pieces[place].stands {
        Stands::LeftOver => return Some(Cause::LeftOver),
        Stands::Cut => return Some(Cause::PastEnd),
        Stands::Option(code, value) => (code, value),
    };
    let is_same = |piece: &Piece| matches!(piece.stands, Stands::Option(c, _) if c == code);
    let (before, after) = (&pieces[..place], &pieces[place + 1..]);
    let causes = match code {
        0 => [
            (!value.is_empty(), Cause::EndLength),
            (after.iter().any(is_same), Cause::TwoEnds),
            (!after.is_empty(), Cause::EarlyEnd),
        ],
        1..=16 => [
            (code == 12 && !is_filled(value), Cause::Features),
            (code != 12 && !has_length(code, value.len()), Cause::Length),
            (before.iter().any(is_same), Cause::Repeat),
        ],
        _ => return None,
    };
    let first = causes.into_iter().find(|(is_broken, _)| *is_broken);
    first.map(|(_, cause)| cause)
}

/// The first fault of a datagram whose header is right; `None` if its options keep every rule.
pub fn first(datagram: &[u8]) -> Option<Fault> {
    let pieces = pieces(datagram);
    let found = (0..pieces.len()).find_map(|place| {
        let offset = pieces[place].offset;
        broken(&pieces, place).map(|cause| Fault { offset, cause })
    });
    let lacks = |code: u16| {
        let is_it = |piece: &Piece| matches!(piece.stands, Stands::Option(c, _) if c == code);
        !pieces.iter().any(is_it)
    };
    let offset = datagram.len();
    let missing = [(0, Cause::NoEnd), (3, Cause::NoIdentifier)];
    let missing = missing.into_iter().find(|(code, _)| lacks(*code));
    found.or(missing.map(|(_, cause)| Fault { offset, cause }))
}

/// The fault of a call that drew this outcome and offset, if that is discard 5; what isn't as it has to be is told. Discard 5 is tested before 6,
/// 7 and 8 and any reply, and no number but it carries an offset.
pub fn due(call: &Call, outcome: u8, offset: usize) -> Result<Option<Fault>, String> {
    let found = match outcome {
        0 | 5..=8 => first(&call.datagram),
        _ => None,
    };
    match (outcome, found) {
        (5, Some(fault)) if fault.offset == offset => Ok(found),
        (5, _) => Err(format!("{found:?} is due, not discard 5 at {offset}")),
        (_, Some(fault)) => Err(format!("{fault:?} is due, not {outcome}")),
        (_, None) if offset != 0 => Err(format!("{outcome} carries {offset}")),
        (_, None) => Ok(None),
    }
}
