//! Seeded numbers, and many numbers as one.

const MULTIPLIER: u64 = 6364136223846793005;
const INCREMENT: u64 = 1442695040888963407;

/// A linear congruential generator of 64 bits, whose high bits are used.
pub struct Numbers {
    state: u64,
}

impl Numbers {
    pub fn new(seed: u64) -> Numbers {
        Numbers { state: seed }
    }

    fn next(&mut self) -> u64 {
        self.state = self.state.wrapping_mul(MULTIPLIER).wrapping_add(INCREMENT);
        self.state
    }

    /// A number below the bound, and 0 where the bound is 0.
    pub fn below(&mut self, bound: u64) -> u64 {
        (self.next() >> 32) % bound.max(1)
    }

    /// A number of 20 bits.
    pub fn item(&mut self) -> u64 {
        self.next() >> 44
    }

    /// As many pairs of a key below the bound and a value of 20 bits.
    pub fn pairs(&mut self, count: u64, bound: u64) -> Vec<(u64, u64)> {
        (0..count).map(|_| (self.below(bound), self.item())).collect()
    }

    /// A pair of a key of 64 bits and a value of 7.
    pub fn wide_pair(&mut self) -> (u64, u64) {
        let key = self.next() ^ (self.next() >> 32);
        (key, self.next() >> 57)
    }
}

/// Mixes numbers, in their order, into one.
#[derive(Default)]
pub struct Checksum {
    sum: u64,
}

impl Checksum {
    pub fn add(&mut self, number: u64) {
        self.sum = self.sum.rotate_left(5).wrapping_mul(MULTIPLIER).wrapping_add(number);
    }

    pub fn sum(&self) -> u64 {
        self.sum
    }

    /// Adds the keys and values of entries.
    pub fn add_entries<'a>(&mut self, entries: impl IntoIterator<Item = (&'a u64, &'a u64)>) {
        for (key, val) in entries {
            self.add(*key);
            self.add(*val);
        }
    }

    /// The checksum of all keys and values.
    pub fn of<'a>(entries: impl IntoIterator<Item = (&'a u64, &'a u64)>) -> u64 {
        let mut checksum = Checksum::default();
        checksum.add_entries(entries);
        checksum.sum
    }
}
