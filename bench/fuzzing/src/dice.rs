//! Seeded choices.

/// SplitMix64.
pub struct Dice {
    state: u64,
}

const STEP: u64 = 0x9e37_79b9_7f4a_7c15;

fn mixed(mut number: u64) -> u64 {
    number = (number ^ (number >> 30)).wrapping_mul(0xbf58_476d_1ce4_e5b9);
    number = (number ^ (number >> 27)).wrapping_mul(0x94d0_49bb_1331_11eb);
    number ^ (number >> 31)
}

impl Dice {
    /// The choices of one case, which the seed, the name of what it tries and its number decide.
    pub fn new(seed: u64, name: &str, number: u64) -> Dice {
        let named = name.bytes().fold(seed, |state, byte| mixed(state ^ u64::from(byte)));
        Dice { state: mixed(named) ^ number.wrapping_mul(STEP) }
    }

    /// Any number of 64 bits.
    pub fn any(&mut self) -> u64 {
        self.state = self.state.wrapping_add(STEP);
        mixed(self.state)
    }

    /// A number below the bound, which is not 0.
    pub fn below(&mut self, bound: u64) -> u64 {
        ((u128::from(self.any()) * u128::from(bound)) >> 64) as u64
    }

    /// A number up to the greatest one.
    pub fn up_to(&mut self, most: usize) -> usize {
        self.below(most as u64 + 1) as usize
    }

    /// True once in so many times on the average.
    pub fn one_in(&mut self, times: u64) -> bool {
        self.below(times) == 0
    }

    /// One of some things, of which there is one.
    pub fn pick<T: Clone>(&mut self, things: &[T]) -> T {
        things[self.below(things.len() as u64) as usize].clone()
    }

    /// A place in a list, which is not empty.
    pub fn place<T>(&mut self, list: &[T]) -> usize {
        self.below(list.len() as u64) as usize
    }
}
