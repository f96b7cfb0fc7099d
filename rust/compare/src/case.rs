//! One case of a family.

use crate::random::Random;

/// One case: its number, and random numbers of its own.
pub struct Case {
    pub number: u64,
    pub random: Random,
}
