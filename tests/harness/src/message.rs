//! Values of options, and every way of damaging a datagram.

use crate::random::Random;
use crate::LONGEST_DATAGRAM;
use builder::{option, Message};

/// A value of this option that keeps its length rule.
pub fn fitting_value(random: &mut Random, code: u16) -> Vec<u8> {
    let length = match code {
        2 => random.pick(&[6, 6, 18]),
        3 => random.pick(&[2, 32]),
        5 => random.pick(&[2, 4, 6]),
        8 | 9 => random.pick(&[1, 2, 8, 9, 21]),
        10 => random.pick(&[6, 12]),
        12 => return features(random, 0),
        16 => random.pick(&[2, 3, 9]),
        1..=16 => 4,
        _ => random.pick(&[0, 1, 2, 3, 4, 9]),
    };
    random.octets(length)
}

/// Features: lists of supported, requested and required codes that fill the value exactly.
pub fn features(random: &mut Random, required: usize) -> Vec<u8> {
    let mut value = Vec::new();
    for count in [
        random.pick(&[0, 0, 1, 3]),
        random.pick(&[0, 0, 1, 2]),
        required,
    ] {
        value.extend((count as u16).to_be_bytes());
        value.extend(random.octets(2 * count));
    }
    value
}

/// Value lengths that break an option's rule, or for option 12 values that aren't filled exactly.
pub fn unfit_value(random: &mut Random, code: u16) -> Vec<u8> {
    let lengths: &[usize] = match code {
        0 => &[1, 2, 4],
        2 => &[0, 4, 5, 7, 17, 19],
        3 => &[0, 1, 33, 34, 64, 255],
        5 => &[0, 1, 3, 5],
        8 | 9 => &[0],
        10 => &[0, 1, 4, 5, 7, 8, 11],
        12 => return unfit_features(random),
        16 => &[0, 1],
        _ => &[0, 1, 2, 3, 5, 8],
    };
    let length = random.pick(lengths);
    random.octets(length)
}

/// Option 12 badly filled: too short for three counts, an octet more or less, or one of the lists too long.
pub fn unfit_features(random: &mut Random) -> Vec<u8> {
    match random.below(7) {
        0 => vec![0; random.below(6)],
        1 => vec![0; 7],
        2 => [features(random, 0), vec![0]].concat(),
        3 => [features(random, 1), vec![0, 0]].concat(),
        4 => [0, 0, 0, 1, 0, 9, 0, 1, 0].to_vec(),
        5 => {
            // One of the three counts says more than there is; 0x8000 codes are 65,536 octets.
            let count = random.pick(&[1_u16, 2, 0x7FFF, 0x8000, 0xFFFF]);
            let mut value = [0; 6];
            let place = 2 * random.below(3);
            value[place..place + 2].copy_from_slice(&count.to_be_bytes());
            value.to_vec()
        }
        _ => {
            let mut value = features(random, 2);
            value.truncate(value.len() - random.pick(&[1, 2, 4]));
            value
        }
    }
}

/// A way of damaging a message, and what it does.
pub type Damage = (&'static str, fn(&mut Random, Message) -> Vec<u8>);

/// Every damage to a datagram, and the edges just inside the rules.
pub const DAMAGES: &[Damage] = &[
    ("0 octets", |_, _| Vec::new()),
    ("1 to 7 octets", |random, m| {
        m.octets()[..random.between(1, 7)].to_vec()
    }),
    ("8 to 11 octets", |random, m| {
        m.octets()[..random.between(8, 11)].to_vec()
    }),
    ("11 octets", |_, m| m.octets()[..11].to_vec()),
    ("12 octets", |random, m| {
        let mut octets = m.octets();
        octets.truncate(8);
        octets.extend(random.pick(&[[0, 0, 0, 0], [0, 3, 0, 0], [0, 99, 0, 0], [0, 0, 0, 1]]));
        octets
    }),
    ("1472 octets", |_, m| filled(m, LONGEST_DATAGRAM)),
    ("1473 octets", |_, m| filled(m, LONGEST_DATAGRAM + 1)),
    ("more octets", |random, m| {
        let length = random.pick(&[1_474, 2_000, 4_000]);
        filled(m, length)
    }),
    ("version", |random, mut m| {
        m.version = random.pick(&[1, 2, 128, 255]);
        m.octets()
    }),
    ("family", |random, mut m| {
        m.family = random.pick(&[0, 2, 3, 256, 257, 0xFFFF]);
        m.octets()
    }),
    ("type", |random, mut m| {
        m.kind = random.pick(&[0, 2, 5, 6, 9, 10, 255]);
        m.octets()
    }),
    ("no End", |_, m| m.front()),
    ("End cut", |random, m| {
        let mut octets = m.octets();
        octets.truncate(octets.len() - random.between(1, 3));
        octets
    }),
    ("End with a value", |random, m| {
        let value = unfit_value(random, 0);
        [m.front(), option(0, &value)].concat()
    }),
    ("End with a length", |random, m| {
        let length = random.pick(&[1, 4, 255]);
        [m.front(), vec![0, 0, 0, length]].concat()
    }),
    ("octets after End", |random, m| {
        [m.octets(), vec![0; random.between(1, 3)]].concat()
    }),
    ("two Ends", |_, m| [m.octets(), vec![0; 4]].concat()),
    ("an option after End", |random, m| {
        let code = random.pick(&[8, 17, 300]);
        let value = fitting_value(random, code);
        [m.octets(), option(code, &value), vec![0; 4]].concat()
    }),
    ("an early End", |random, mut m| {
        let place = random.below(m.options.len() + 1);
        m.options.insert(place, (0, Vec::new()));
        m.octets()
    }),
    ("cut off", |random, m| {
        let mut octets = m.octets();
        octets.truncate(random.below(octets.len()));
        octets
    }),
    ("cut off, End behind", |random, m| {
        let front = m.front();
        let at = random.between(8, front.len());
        [front[..at].to_vec(), vec![0; 4]].concat()
    }),
    ("a length past the end", |random, m| {
        let code = random.pick(&[3, 8, 17, 300]);
        let length: u16 = random.pick(&[5, 6, 255, 256, 1_472, 0x7FFF, 0xFFFF]);
        let mut octets = m.front();
        octets.extend([code, length].iter().flat_map(|n: &u16| n.to_be_bytes()));
        octets.extend([0; 4]);
        octets
    }),
    ("an unfit length", |random, mut m| {
        let code = random.between(1, 16) as u16;
        let value = unfit_value(random, code);
        m.remove(code);
        m.put(code, value);
        random.shuffle(&mut m.options);
        m.octets()
    }),
    ("an unfit length of a list", |random, mut m| {
        let code = random.pick(&[5, 8, 9, 10, 16]);
        let value = unfit_value(random, code);
        m.remove(code);
        m.put(code, value);
        m.octets()
    }),
    ("an unfit length of an allowed option", |random, mut m| {
        let code = random.pick(&[1, 2, 4, 6, 7, 10, 11, 14, 15]);
        let value = unfit_value(random, code);
        m.remove(code);
        m.put(code, value);
        m.octets()
    }),
    ("an option repeated", |random, mut m| {
        let code = random.between(1, 16) as u16;
        if !m.has(code) {
            let value = fitting_value(random, code);
            m.put(code, value);
        }
        let repeated = m.options.iter().find(|option| option.0 == code).cloned();
        m.options.extend(repeated);
        m.octets()
    }),
    ("an option twice", |random, mut m| {
        let code = random.pick(&[1, 3, 4, 6, 7, 11, 12]);
        let value = fitting_value(random, code);
        m.options.insert(0, (code, value.clone()));
        if random.chance(50) {
            m.put(code, value);
        }
        m.octets()
    }),
    ("unknown codes", |random, mut m| {
        for _ in 0..random.between(1, 3) {
            let code = random.pick(&[17, 17, 256, 259, 300, 0xFFFF]);
            let value = fitting_value(random, code);
            m.put(code, value);
        }
        random.shuffle(&mut m.options);
        m.octets()
    }),
    ("an option that isn't allowed", |random, mut m| {
        let code = random.between(1, 16) as u16;
        if !m.has(code) {
            let value = fitting_value(random, code);
            m.put(code, value);
        }
        random.shuffle(&mut m.options);
        m.octets()
    }),
    ("no identifier", |_, mut m| {
        m.remove(3);
        m.octets()
    }),
    ("identifier length", |random, mut m| {
        let length = random.pick(&[0, 1, 1, 2, 32, 33, 33, 255]);
        m.remove(3);
        m.put(3, vec![b'a'; length]);
        m.octets()
    }),
    ("features", |random, mut m| {
        m.remove(12);
        let value = features(random, 0);
        m.put(12, value);
        m.octets()
    }),
    ("features badly filled", |random, mut m| {
        m.remove(12);
        let value = unfit_features(random);
        m.put(12, value);
        m.octets()
    }),
    ("a feature required", |random, mut m| {
        m.remove(12);
        let count = random.between(1, 3);
        let value = features(random, count);
        m.put(12, value);
        m.octets()
    }),
    ("a feature required, and another server", |random, mut m| {
        m.remove(12);
        let value = features(random, 1);
        m.put(12, value);
        m.remove(2);
        m.put(2, [0; 6]);
        m.octets()
    }),
    ("another server", |random, mut m| {
        m.remove(2);
        let value = fitting_value(random, 2);
        m.put(2, value);
        m.octets()
    }),
    ("an octet of the header changed", |random, m| {
        let mut octets = m.octets();
        let place = random.below(8);
        octets[place] = random.pick(&[0, 1, 2, 3, 4, 7, 8, 255]);
        octets
    }),
    ("octets changed", |random, m| {
        let mut octets = m.octets();
        for _ in 0..random.pick(&[1, 1, 3]) {
            let place = random.below(octets.len());
            octets[place] = random.pick(&[0, 1, 2, 4, 255, octets[place] ^ 1]);
        }
        octets
    }),
    ("any octets", |random, _| {
        let length = random.pick(&[12, 16, 40, 1_472]);
        random.octets(length)
    }),
    ("any octets after a header", |random, m| {
        let length = random.pick(&[4, 8, 20]);
        let octets: Vec<u8> = (0..length)
            .map(|_| random.pick(&[0, 0, 0, 1, 2, 3, 4]))
            .collect();
        [m.octets()[..8].to_vec(), octets].concat()
    }),
];

/// The message with an unknown option that brings it to this length.
fn filled(mut message: Message, length: usize) -> Vec<u8> {
    let left = length.saturating_sub(message.octets().len() + 4);
    message.put(1_000, vec![0; left]);
    message.octets()
}
