//! Random numbers from a seed, the same on every machine.

/// A generator (splitmix64).
#[derive(Clone, Debug)]
pub struct Random(u64);

impl Random {
    /// The generator of one case: the same for the same seed and number.
    pub fn new(seed: &str, number: u64) -> Random {
        let mut hash = 0xCBF2_9CE4_8422_2325_u64;
        for octet in seed.bytes().chain([0]).chain(number.to_be_bytes()) {
            hash = (hash ^ u64::from(octet)).wrapping_mul(0x0000_0100_0000_01B3);
        }
        let mut random = Random(hash);
        random.draw();
        random
    }

    pub fn draw(&mut self) -> u64 {
        self.0 = self.0.wrapping_add(0x9E37_79B9_7F4A_7C15);
        let mut z = self.0;
        z = (z ^ (z >> 30)).wrapping_mul(0xBF58_476D_1CE4_E5B9);
        z = (z ^ (z >> 27)).wrapping_mul(0x94D0_49BB_1331_11EB);
        z ^ (z >> 31)
    }

    /// A number below `n`, which isn't 0.
    pub fn below(&mut self, n: usize) -> usize {
        (self.draw() % n as u64) as usize
    }

    /// A number from `low` to `high`, both included.
    pub fn between(&mut self, low: usize, high: usize) -> usize {
        low + self.below(high - low + 1)
    }

    pub fn octet(&mut self) -> u8 {
        self.draw() as u8
    }

    pub fn u32(&mut self) -> u32 {
        self.draw() as u32
    }

    /// True in so many of a hundred.
    pub fn chance(&mut self, percent: usize) -> bool {
        self.below(100) < percent
    }

    pub fn pick<T: Clone>(&mut self, choices: &[T]) -> T {
        choices[self.below(choices.len())].clone()
    }

    pub fn shuffle<T>(&mut self, items: &mut [T]) {
        for place in (1..items.len()).rev() {
            items.swap(place, self.below(place + 1));
        }
    }

    /// Octets of which so many of a hundred are below `low`.
    pub fn low_octets(&mut self, count: usize, percent: usize, low: usize) -> Vec<u8> {
        let one = |random: &mut Random| match random.chance(percent) {
            true => random.below(low) as u8,
            false => random.octet(),
        };
        (0..count).map(|_| one(self)).collect()
    }

    pub fn octets(&mut self, count: usize) -> Vec<u8> {
        (0..count).map(|_| self.octet()).collect()
    }
}
