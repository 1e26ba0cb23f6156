//! A case: a campus file and a list of calls, made from a seed and a number, or read from a file that was kept.

use crate::broken::Broken;
use crate::calls::{self, List};
use crate::campus::sound;
use crate::damage::{self, DAMAGES};
use crate::random::Random;
use crate::wrecks;
use builder::Campus;

/// What the maker of a case means to break: the place of a damage in `DAMAGES`.
pub type Meant = Option<usize>;

#[derive(Clone, Debug)]
pub struct Case {
    pub file: Vec<u8>,
    /// The calls' records; the last may be cut off.
    pub calls: Vec<u8>,
    pub meant: Meant,
    /// What the file is made of, if it is that of a sound campus.
    pub campus: Option<Campus>,
    /// Its datagrams that were broken at a place that is known.
    pub broken: Broken,
}

impl Case {
    /// Every fifth case has a damaged file, each damage in its turn; every twenty-fifth has octets changed at random.
    pub fn new(seed: &str, number: u64) -> Case {
        let mut random = Random::new(seed, number);
        let turn = (number / 5) as usize;
        if number % 5 == 4 {
            let place = turn % DAMAGES.len();
            if let Some(file) = DAMAGES[place].file(&mut random) {
                let campus = sound(&mut random);
                let count = random.below(3);
                let (calls, broken) = records(&mut random, &campus, count, number as usize);
                return Case {
                    file,
                    calls,
                    meant: Some(place),
                    campus: None,
                    broken,
                };
            }
        }
        let campus = sound(&mut random);
        let is_scrambled = number.is_multiple_of(25);
        let file = if is_scrambled {
            damage::scrambled(&mut random, &campus)
        } else {
            campus.octets()
        };
        let count = random.pick(&[0, 1, 2, 5, 10, 20, 20, 40]);
        let (mut calls, broken) = records(&mut random, &campus, count, number as usize * 7);
        if random.chance(5) {
            calls.truncate(random.below(calls.len() + 1));
        }
        Case {
            file,
            calls,
            meant: None,
            campus: (!is_scrambled).then_some(campus),
            broken,
        }
    }

    /// A file to salvage, with no calls. None where it would be too long.
    pub fn wreck(seed: &str, number: u64) -> Option<Case> {
        let mut random = Random::new(&format!("{seed} wreck"), number);
        Some(Case {
            file: wrecks::wreck(&mut random)?,
            calls: Vec::new(),
            meant: None,
            campus: None,
            broken: Broken::new(),
        })
    }

    /// The form in which a case is kept, which is the input of `replay`: file length(2), the file, the calls.
    pub fn octets(&self) -> Vec<u8> {
        let mut octets = (self.file.len() as u16).to_be_bytes().to_vec();
        octets.extend(&self.file);
        octets.extend(&self.calls);
        octets
    }

    pub fn read(octets: &[u8]) -> Option<Case> {
        let length = usize::from(u16::from_be_bytes([*octets.first()?, *octets.get(1)?]));
        let file = octets.get(2..2 + length)?.to_vec();
        Some(Case {
            file,
            calls: octets[2 + length..].to_vec(),
            meant: None,
            campus: None,
            broken: Broken::new(),
        })
    }
}

fn records(random: &mut Random, campus: &Campus, count: usize, turn: usize) -> (Vec<u8>, Broken) {
    let List { calls, broken } = calls::list(random, campus, count, turn);
    let records = calls.iter().flat_map(builder::Call::record);
    (records.collect(), broken)
}
