//! The settings d, S and C and the room B with their ranges, and the limits that hold for every table. Nothing is
//! multiplied before the ranges are tested, so any number at all may be given.

use crate::refusal;

/// The greatest dimension.
const MOST_DIMENSION: usize = 5;
/// The greatest fineness.
const MOST_FINENESS: u32 = 64;
/// The greatest capacity.
const MOST_CAPACITY: usize = 8_192;
/// The greatest number of readings in a table.
pub const MOST_READINGS: usize = 4_096;
/// The greatest room of a book: no table holds more readings.
const MOST_ROOM: usize = MOST_READINGS;

/// A table's settings as a log has them, in range or not.
#[derive(Clone, Copy, Debug, PartialEq, Eq)]
pub struct Settings {
    /// The dimension d.
    pub d: usize,
    /// The fineness S.
    pub fineness: u32,
    /// The capacity C.
    pub capacity: usize,
}

impl Settings {
    /// Refuses settings out of range with 1.
    pub fn judged(self) -> Result<(), u8> {
        let in_range = (1..=MOST_DIMENSION).contains(&self.d)
            && (1..=MOST_FINENESS).contains(&self.fineness)
            && (1..=MOST_CAPACITY).contains(&self.capacity);
        range_judged(in_range)
    }
}

/// Refuses a book's room out of range with 1.
pub fn room_judged(room: usize) -> Result<(), u8> {
    range_judged((1..=MOST_ROOM).contains(&room))
}

fn range_judged(in_range: bool) -> Result<(), u8> {
    if in_range {
        Ok(())
    } else {
        Err(refusal::SETTINGS)
    }
}

/// W, the weight total: (d+1)·S.
pub fn weight_total(d: usize, fineness: u32) -> i64 {
    (d as i64 + 1) * i64::from(fineness)
}

#[cfg(test)]
mod tests {
    use super::*;

    fn judged(d: usize, fineness: u32, capacity: usize) -> Result<(), u8> {
        Settings { d, fineness, capacity }.judged()
    }

    #[test]
    fn both_ends_of_each_range_are_taken() {
        assert_eq!(judged(1, 1, 1), Ok(()));
        assert_eq!(judged(5, 64, 8_192), Ok(()));
        assert_eq!([1, 4_096].map(room_judged), [Ok(()), Ok(())]);
    }

    #[test]
    fn one_beyond_an_end_is_refused() {
        for (d, fineness, capacity) in [(0, 1, 1), (6, 1, 1), (1, 0, 1), (1, 65, 1), (1, 1, 0), (1, 1, 8_193)] {
            assert_eq!(judged(d, fineness, capacity), Err(1), "{d} {fineness} {capacity}");
        }
        assert_eq!([0, 4_097].map(room_judged), [Err(1), Err(1)]);
    }

    #[test]
    fn the_greatest_numbers_are_refused() {
        assert_eq!(judged(usize::MAX, u32::MAX, usize::MAX), Err(1));
        assert_eq!(room_judged(usize::MAX), Err(1));
    }

    #[test]
    fn the_weight_total_is_at_most_384() {
        assert_eq!(weight_total(5, 64), 384);
        assert_eq!(weight_total(1, 2), 4);
    }
}
