//! Messages whose options are broken at a place that is known: what discard 5 has to carry follows from how the message was made, whoever reads it.

use crate::fault::{first, Cause, Fault};
use crate::message::{fitting_value, unfit_features, unfit_value};
use crate::random::Random;
use crate::LONGEST_DATAGRAM;
use builder::{option, Message};
use std::collections::BTreeMap;

/// Datagrams that were broken on purpose, and their faults. Where a datagram goes wrong depends on nothing but its octets.
pub type Broken = BTreeMap<Vec<u8>, Fault>;

/// Breaks a message whose options are right: its octets, and the offset of the first fault.
type Break = fn(&mut Random, Message) -> (Vec<u8>, usize);

/// A way for each cause.
pub const BREAKS: [(Cause, Break); 10] = [
    (Cause::PastEnd, past_end),
    (Cause::LeftOver, left_over),
    (Cause::Length, wrong_length),
    (Cause::Features, wrongly_filled),
    (Cause::Repeat, repeated),
    (Cause::EarlyEnd, early_end),
    (Cause::EndLength, end_with_length),
    (Cause::TwoEnds, two_ends),
    (Cause::NoEnd, no_end),
    (Cause::NoIdentifier, no_identifier),
];

/// Breaks a message in one of these ways; its fault too, where the message was right before.
pub fn broken(random: &mut Random, message: Message, place: usize) -> (Vec<u8>, Option<Fault>) {
    let is_right = first(&message.octets()).is_none();
    let (cause, breaks) = BREAKS[place];
    let (octets, offset) = breaks(random, message);
    let is_known = is_right && octets.len() <= LONGEST_DATAGRAM;
    (octets, is_known.then_some(Fault { offset, cause }))
}

/// Where an option stands, or would if it were put in.
fn offset_of(message: &Message, place: usize) -> usize {
    let before = message.options[..place].iter();
    8 + before.map(|(_, value)| 4 + value.len()).sum::<usize>()
}

/// Puts an option in at any place: its offset.
fn put_anywhere(random: &mut Random, message: &mut Message, code: u16, value: Vec<u8>) -> usize {
    let place = random.below(message.options.len() + 1);
    message.options.insert(place, (code, value));
    offset_of(message, place)
}

/// The octets of a message with a fault; at times with another fault behind it, or without End, neither of which counts.
fn ended(random: &mut Random, mut message: Message) -> Vec<u8> {
    match random.below(6) {
        0 => message.put(3, [0; 2]),
        1 => {
            let value = unfit_value(random, 1);
            message.put(1, value);
        }
        2 => return message.front(),
        3 => return [message.front(), vec![0; random.between(1, 3)]].concat(),
        _ => {}
    }
    message.octets()
}

/// An option whose value goes past all that is there.
fn past_end(random: &mut Random, message: Message) -> (Vec<u8>, usize) {
    let place = random.below(message.options.len() + 1);
    let mut octets = message.octets();
    let behind = octets.split_off(offset_of(&message, place));
    let offset = octets.len();
    let code: u16 = random.pick(&[1, 3, 8, 12, 17, 300]);
    let length = behind.len() + random.pick(&[1, 1, 2, 4, 255, 0x7FFF]);
    octets.extend(code.to_be_bytes());
    octets.extend((length as u16).to_be_bytes());
    ([octets, behind].concat(), offset)
}

fn left_over(random: &mut Random, message: Message) -> (Vec<u8>, usize) {
    let front = message.front();
    let octets = random.pick(&[
        &[0_u8] as &[u8],
        &[0; 2],
        &[0; 3],
        &[0, 3],
        &[0, 3, 0],
        &[255],
    ]);
    ([&front[..], octets].concat(), front.len())
}

fn wrong_length(random: &mut Random, mut message: Message) -> (Vec<u8>, usize) {
    let code = random.pick(&[1, 2, 3, 4, 5, 6, 7, 8, 9, 10, 11, 13, 14, 15, 16]);
    message.remove(code);
    let value = unfit_value(random, code);
    let offset = put_anywhere(random, &mut message, code, value);
    (ended(random, message), offset)
}

fn wrongly_filled(random: &mut Random, mut message: Message) -> (Vec<u8>, usize) {
    message.remove(12);
    let value = unfit_features(random);
    let offset = put_anywhere(random, &mut message, 12, value);
    (ended(random, message), offset)
}

/// An option again, somewhere behind the first; with the same value or another that fits.
fn repeated(random: &mut Random, mut message: Message) -> (Vec<u8>, usize) {
    let known = message.options.iter().filter(|option| option.0 <= 16);
    let known: Vec<u16> = known.map(|option| option.0).collect();
    let code = random.pick(&known);
    let is_it = |option: &(u16, Vec<u8>)| option.0 == code;
    let at = message.options.iter().position(is_it).unwrap_or(0);
    let same = message.options[at].1.clone();
    let value = match random.chance(50) {
        true => same,
        false => fitting_value(random, code),
    };
    let place = random.between(at + 1, message.options.len());
    message.options.insert(place, (code, value));
    let offset = offset_of(&message, place);
    (ended(random, message), offset)
}

/// An End with options or one to three octets behind it, and no other End.
fn early_end(random: &mut Random, mut message: Message) -> (Vec<u8>, usize) {
    if random.chance(40) {
        let offset = message.front().len();
        let behind = vec![0; random.between(1, 3)];
        return ([message.octets(), behind].concat(), offset);
    }
    let place = random.below(message.options.len());
    message.options.insert(place, (0, Vec::new()));
    (message.front(), offset_of(&message, place))
}

fn end_with_length(random: &mut Random, mut message: Message) -> (Vec<u8>, usize) {
    let value = unfit_value(random, 0);
    if random.chance(50) {
        let front = message.front();
        return ([&front[..], &option(0, &value)].concat(), front.len());
    }
    let offset = put_anywhere(random, &mut message, 0, value);
    (ended(random, message), offset)
}

fn two_ends(random: &mut Random, mut message: Message) -> (Vec<u8>, usize) {
    let offset = put_anywhere(random, &mut message, 0, Vec::new());
    (message.octets(), offset)
}

/// Options without End, at times as long as a datagram may be.
fn no_end(random: &mut Random, mut message: Message) -> (Vec<u8>, usize) {
    fill(random, &mut message, LONGEST_DATAGRAM);
    let front = message.front();
    let offset = front.len();
    (front, offset)
}

fn no_identifier(random: &mut Random, mut message: Message) -> (Vec<u8>, usize) {
    message.remove(3);
    fill(random, &mut message, LONGEST_DATAGRAM - 4);
    let octets = message.octets();
    let offset = octets.len();
    (octets, offset)
}

/// At times, with an unknown option, up to this length before End.
fn fill(random: &mut Random, message: &mut Message, length: usize) {
    if random.chance(15) {
        let left = length.saturating_sub(message.front().len() + 4);
        message.put(1_000, vec![0; left]);
    }
}
