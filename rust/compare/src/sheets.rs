//! What a filter call is lent besides the table.

use crate::random::Random;
use crate::table::change_length;

/// Two work sheets, the queries, and the lists of values and codes.
#[derive(Clone, Debug)]
pub struct Sheets {
    pub first: Vec<i64>,
    pub second: Vec<i64>,
    pub queries: Vec<i32>,
    pub values: Vec<i32>,
    pub codes: Vec<u8>,
}

impl Sheets {
    /// Sheets and lists of the right lengths for these queries, full of random numbers.
    pub fn lent(random: &mut Random, d: usize, capacity: usize, queries: Vec<i32>) -> Sheets {
        let count = queries.len() / (d + 1);
        Sheets {
            first: (0..2 * capacity).map(|_| random.bits() as i64).collect(),
            second: (0..2 * capacity).map(|_| random.bits() as i64).collect(),
            queries,
            values: (0..count).map(|_| random.bits() as i32).collect(),
            codes: (0..count).map(|_| random.bits() as u8).collect(),
        }
    }

    /// Gives one of them another length.
    pub fn change_a_length(&mut self, random: &mut Random) {
        match random.below(5) {
            0 => change_length(random, &mut self.first),
            1 => change_length(random, &mut self.second),
            2 => change_length(random, &mut self.queries),
            3 => change_length(random, &mut self.values),
            _ => change_length(random, &mut self.codes),
        }
    }

    /// Value and code of each query.
    pub fn answers(&self) -> Vec<(i32, u8)> {
        let codes = self.codes.iter().copied();
        self.values.iter().copied().zip(codes).collect()
    }
}
