//! A small generator of numbers for tests: the same seed gives the same numbers everywhere.

/// The step and the mixing numbers of splitmix64.
const STEP: u64 = 0x9E37_79B9_7F4A_7C15;
const FIRST_MIX: u64 = 0xBF58_476D_1CE4_E5B9;
const SECOND_MIX: u64 = 0x94D0_49BB_1331_11EB;

pub struct Random {
    state: u64,
}

fn mixed(state: u64) -> u64 {
    let first = (state ^ (state >> 30)).wrapping_mul(FIRST_MIX);
    let second = (first ^ (first >> 27)).wrapping_mul(SECOND_MIX);
    second ^ (second >> 31)
}

impl Random {
    /// The generator of one input of a run.
    pub fn of_input(seed: u64, index: u64) -> Random {
        Random {
            state: mixed(mixed(seed.wrapping_add(STEP)).wrapping_add(index)),
        }
    }

    pub fn u64(&mut self) -> u64 {
        self.state = self.state.wrapping_add(STEP);
        mixed(self.state)
    }

    pub fn u32(&mut self) -> u32 {
        self.u64() as u32
    }

    pub fn byte(&mut self) -> u8 {
        self.u64() as u8
    }

    /// A number below `bound`, which is not 0.
    pub fn below(&mut self, bound: usize) -> usize {
        (self.u64() % bound as u64) as usize
    }

    pub fn u32_below(&mut self, bound: u32) -> u32 {
        (self.u64() % u64::from(bound)) as u32
    }

    /// A number from `first` to `last`.
    pub fn from_to(&mut self, first: usize, last: usize) -> usize {
        first + self.below(last - first + 1)
    }

    pub fn once_in(&mut self, times: usize) -> bool {
        self.below(times) == 0
    }

    pub fn pick<T: Copy>(&mut self, from: &[T]) -> T {
        from[self.below(from.len())]
    }

    pub fn bytes(&mut self, count: usize) -> Vec<u8> {
        (0..count).map(|_| self.byte()).collect()
    }
}
