//! A table as it is lent: the head by value, in which the book's room B stands after C, and the four slices. The answers
//! of the calls stand here too, since each hands a head back.

use crate::refusal;
use crate::settings::{room_judged, Settings};

/// How many numbers a reading has in a book and in a list: its own number, d+1 coordinates and the value.
pub(crate) fn entry_length(d: usize) -> usize {
    d + 3
}

/// A table's head: the settings, the book's room, and the numbers of readings and of points.
#[derive(Clone, Copy, Debug, Default, PartialEq, Eq)]
pub struct Head {
    /// d, 1 to 5.
    pub d: usize,
    /// S, 1 to 64.
    pub fineness: u32,
    /// C, 1 to 8,192.
    pub capacity: usize,
    /// B, 1 to 4,096.
    pub room: usize,
    /// n, at most B. The book has so many entries.
    pub readings: usize,
    /// m, at most C.
    pub points: usize,
}

impl Head {
    /// The head of a table without readings.
    pub(crate) fn fresh(settings: Settings, room: usize) -> Head {
        Head {
            d: settings.d,
            fineness: settings.fineness,
            capacity: settings.capacity,
            room,
            readings: 0,
            points: 0,
        }
    }

    /// Refuses settings or a room out of range with 1.
    pub(crate) fn judged(&self) -> Result<(), u8> {
        let settings = Settings {
            d: self.d,
            fineness: self.fineness,
            capacity: self.capacity,
        };
        settings.judged()?;
        room_judged(self.room)
    }
}

/// A number, 0 where the call was done, and the head that is handed back.
#[derive(Clone, Copy, Debug, PartialEq, Eq)]
pub struct Answer {
    /// The refusal number, or 0.
    pub number: u8,
    /// The new head, or the one given.
    pub head: Head,
}

impl Answer {
    /// The answer of a call that was given this head: it was done, which made another of it, or it was refused.
    pub(crate) fn of(given: Head, outcome: Result<Head, u8>) -> Answer {
        match outcome {
            Ok(head) => Answer {
                number: refusal::DONE,
                head,
            },
            Err(number) => Answer { number, head: given },
        }
    }
}

/// How many readings were taken, the number, 0 where all were, and the new head.
#[derive(Clone, Copy, Debug, PartialEq, Eq)]
pub struct Entered {
    /// How many readings were taken.
    pub taken: usize,
    /// The number of the first refused reading or of the call, or 0.
    pub number: u8,
    /// The new head.
    pub head: Head,
}

/// The number, the offset that it is told at, and the head. A log taken whole has 0 and its length.
#[derive(Clone, Copy, Debug, PartialEq, Eq)]
pub struct Loaded {
    /// The refusal number, or 0.
    pub number: u8,
    /// The offset of the refused item's kind byte, or the log's length.
    pub offset: usize,
    /// The head of the loaded table, all 0 where there is none.
    pub head: Head,
}

/// The four slices of a table, lent for reading.
#[derive(Clone, Copy)]
pub(crate) struct Lent<'a> {
    pub keys: &'a [i32],
    pub sums: &'a [i64],
    pub index: &'a [u16],
    pub book: &'a [i32],
}

impl<'a> Lent<'a> {
    /// Refuses slices of other lengths than the settings and the room give with 2. Both are in range.
    pub fn lengths_judged(&self, head: &Head) -> Result<(), u8> {
        let as_given = self.keys.len() == head.d * head.capacity
            && self.sums.len() == 2 * head.capacity
            && self.index.len() == 2 * head.capacity
            && self.book.len() == head.room * entry_length(head.d);
        length_judged(as_given)
    }

    /// The d kept coordinates of a point.
    pub fn key(&self, d: usize, number: usize) -> &'a [i32] {
        &self.keys[d * number..d * (number + 1)]
    }

    pub fn mass(&self, number: usize) -> i64 {
        self.sums[2 * number]
    }

    pub fn value_sum(&self, number: usize) -> i64 {
        self.sums[2 * number + 1]
    }
}

/// Refuses with 2 where a length is not as it should be.
pub(crate) fn length_judged(as_given: bool) -> Result<(), u8> {
    if as_given {
        Ok(())
    } else {
        Err(refusal::LENGTH)
    }
}
