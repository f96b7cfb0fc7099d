//! Counts what the comparison met: how often each call was done and refused with each number, how many readings and
//! queries there were, the greatest table, and how often each damage was surely made. Each family prints its own counts,
//! and their sum decides the coverage.

use std::collections::BTreeMap;
use std::fmt;

/// The calls that are compared. `Query` stands for the code of one single query.
#[derive(Clone, Copy, Debug, PartialEq, Eq)]
pub enum Call {
    Fresh,
    Enter,
    Merge,
    Withdraw,
    List,
    Filter,
    Load,
    Report,
    Query,
}

/// Every call with its name.
pub const CALLS: [(Call, &str); 9] = [
    (Call::Fresh, "fresh"),
    (Call::Enter, "enter"),
    (Call::Merge, "merge"),
    (Call::Withdraw, "withdraw"),
    (Call::List, "list"),
    (Call::Filter, "filter"),
    (Call::Load, "load"),
    (Call::Report, "report"),
    (Call::Query, "query"),
];

/// Refusal numbers go from 1 to 23, those of the change requests included; 0 is the number of a call that was done.
pub const NUMBERS: usize = 24;

/// The counts of one family, or of all.
#[derive(Clone, Default)]
pub struct Tally {
    /// Cases that were run.
    pub inputs: u64,
    /// Readings that were taken by enter and load.
    pub readings: u64,
    /// The greatest number of readings in an accepted table.
    pub greatest_readings: usize,
    /// The greatest number of points in an accepted table.
    pub greatest_points: usize,
    numbers: [[u64; NUMBERS]; CALLS.len()],
    damages: BTreeMap<&'static str, u64>,
}

impl Tally {
    /// Counts one answer of a call. Numbers above 23, which no document has, count as 23.
    pub fn count(&mut self, call: Call, number: u8) {
        self.numbers[call as usize][usize::from(number).min(NUMBERS - 1)] += 1;
    }

    /// Notes the size of a table that a call accepted.
    pub fn note_size(&mut self, readings: usize, points: usize) {
        self.greatest_readings = self.greatest_readings.max(readings);
        self.greatest_points = self.greatest_points.max(points);
    }

    /// Counts a damage that has surely made a table unsound.
    pub fn count_damage(&mut self, name: &'static str) {
        *self.damages.entry(name).or_default() += 1;
    }

    /// How often a damage was surely made.
    pub fn times_damaged(&self, name: &str) -> u64 {
        self.damages.get(name).copied().unwrap_or(0)
    }

    /// How often a call answered a number.
    pub fn times(&self, call: Call, number: usize) -> u64 {
        self.numbers[call as usize][number]
    }

    /// How often any call or query answered a number.
    pub fn times_in_all(&self, number: usize) -> u64 {
        self.numbers.iter().map(|of_call| of_call[number]).sum()
    }

    /// How many calls there were, single queries not counted.
    pub fn calls(&self) -> u64 {
        let of_call = |call: Call| self.numbers[call as usize].iter().sum::<u64>();
        CALLS
            .iter()
            .filter(|(call, _)| *call != Call::Query)
            .map(|(call, _)| of_call(*call))
            .sum()
    }

    /// How many queries were answered, with any code.
    pub fn queries(&self) -> u64 {
        self.numbers[Call::Query as usize].iter().sum()
    }

    /// Adds the counts of a family.
    pub fn add(&mut self, other: &Tally) {
        self.inputs += other.inputs;
        self.readings += other.readings;
        self.note_size(other.greatest_readings, other.greatest_points);
        for (mine, others) in self.numbers.iter_mut().flatten().zip(other.numbers.iter().flatten()) {
            *mine += others;
        }
        for (name, times) in &other.damages {
            *self.damages.entry(name).or_default() += times;
        }
    }
}

impl fmt::Display for Tally {
    fn fmt(&self, out: &mut fmt::Formatter) -> fmt::Result {
        write!(out, "{} inputs, {} calls, ", self.inputs, self.calls())?;
        write!(out, "{} readings taken, {} queries, ", self.readings, self.queries())?;
        write!(
            out,
            "up to n {} and m {}; numbers",
            self.greatest_readings, self.greatest_points
        )?;
        for number in (0..NUMBERS).filter(|number| self.times_in_all(*number) > 0) {
            write!(out, " {}:{}", number, self.times_in_all(number))?;
        }
        Ok(())
    }
}
