//! Random numbers from fixed seeds (splitmix64). Every case of a family has a generator of its own, made from the
//! family's seed and the number of the case, so that one case can be run again alone.

/// A generator of random numbers.
pub struct Random {
    state: u64,
}

/// The scrambling step of splitmix64.
fn scrambled(number: u64) -> u64 {
    let number = (number ^ (number >> 30)).wrapping_mul(0xBF58_476D_1CE4_E5B9);
    let number = (number ^ (number >> 27)).wrapping_mul(0x94D0_49BB_1331_11EB);
    number ^ (number >> 31)
}

impl Random {
    /// The generator of a seed.
    pub fn new(seed: u64) -> Random {
        Random { state: seed }
    }

    /// The generator of one case of a family.
    pub fn of_case(family_seed: u64, case: u64) -> Random {
        Random::new(scrambled(family_seed ^ scrambled(case.wrapping_add(1))))
    }

    /// The next 64 random bits.
    pub fn bits(&mut self) -> u64 {
        self.state = self.state.wrapping_add(0x9E37_79B9_7F4A_7C15);
        scrambled(self.state)
    }

    /// A number from 0 to `bound` - 1. The small unevenness of the remainder does not matter here.
    pub fn below(&mut self, bound: usize) -> usize {
        (self.bits() % bound as u64) as usize
    }

    /// A number from `least` to `greatest`, both included.
    pub fn between(&mut self, least: i64, greatest: i64) -> i64 {
        let span = greatest.wrapping_sub(least) as u64;
        match span.checked_add(1) {
            Some(count) => least.wrapping_add((self.bits() % count) as i64),
            None => self.bits() as i64,
        }
    }

    /// True once in `times` on average, and never where `times` is 0.
    pub fn once_in(&mut self, times: usize) -> bool {
        times > 0 && self.below(times) == 0
    }

    /// One of the things given.
    pub fn pick<T: Copy>(&mut self, things: &[T]) -> T {
        things[self.below(things.len())]
    }

    /// Puts the list into a random order.
    pub fn shuffle<T>(&mut self, list: &mut [T]) {
        for place in (1..list.len()).rev() {
            list.swap(place, self.below(place + 1));
        }
    }
}
