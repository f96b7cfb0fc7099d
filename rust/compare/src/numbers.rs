//! Numbers for readings: different ones from anywhere in 32 bits, in steps that a search for them may find hard, and the
//! ones that were given before, for those who want to meet a number again.

use crate::random::Random;
use std::collections::HashSet;

/// Steps from one number to the next. Great powers of 2 and a prime near the greatest number of readings crowd a
/// search by remainders; 2^19 is the greatest power of which there are more multiples than readings.
const STEPS: [i32; 7] = [1, 1, -1, 4_099, 8_192, 1 << 19, -1_640_531_527];
/// Where the steps start: from the last one they go round to the least number.
const STARTS: [i32; 5] = [0, 0, -3, 1_000_000, i32::MAX - 2];

/// Gives numbers, each of them once.
#[derive(Clone)]
pub struct Numbers {
    next: i32,
    step: i32,
    given: Vec<i32>,
    seen: HashSet<i32>,
}

impl Numbers {
    /// Numbers from a random start in steps of a random width.
    pub fn new(random: &mut Random) -> Numbers {
        Numbers::from(random.pick(&STARTS), random.pick(&STEPS))
    }

    /// Numbers that unnumbered readings do not get: those start at 0, and there are at most 4,096 of them.
    pub fn far_from_0(random: &mut Random) -> Numbers {
        Numbers::from(random.pick(&[1_000_000, i32::MIN, -2_000_000]), 1)
    }

    fn from(start: i32, step: i32) -> Numbers {
        Numbers {
            next: start,
            step,
            given: Vec::new(),
            seen: HashSet::new(),
        }
    }

    /// A number that was not given before: mostly the next one, sometimes any at all.
    pub fn another(&mut self, random: &mut Random) -> i32 {
        if random.once_in(12) {
            let any = random.bits() as i32;
            if self.note(any) {
                return any;
            }
        }
        loop {
            let number = self.next;
            self.next = self.next.wrapping_add(self.step);
            if self.note(number) {
                return number;
            }
        }
    }

    /// Keeps a number from being given. Tells whether it was new.
    pub fn note(&mut self, number: i32) -> bool {
        let new = self.seen.insert(number);
        if new {
            self.given.push(number);
        }
        new
    }

    /// A number that was given before, where there is one.
    pub fn earlier(&self, random: &mut Random) -> Option<i32> {
        (!self.given.is_empty()).then(|| random.pick(&self.given))
    }

    /// A number that was not given, and is not given later either.
    pub fn never_given(&mut self, random: &mut Random) -> i32 {
        loop {
            let any = random.bits() as i32;
            let number = random.pick(&[0, 1, -1, i32::MIN, i32::MAX, any]);
            if self.seen.insert(number) {
                return number;
            }
        }
    }
}
