//! A reading with its number, as a table's book has it.

/// A reading with its number.
///
/// [`Table::enter_all`](crate::Table::enter_all) takes readings, and [`Table::readings`](crate::Table::readings) tells
/// those that a table holds.
///
/// ```
/// use vimrothi::Reading;
///
/// let reading = Reading::new(101, [3, -3], 10);
/// assert_eq!(reading, Reading { number: 101, position: vec![3, -3], value: 10 });
/// ```
#[derive(Clone, Debug, PartialEq, Eq, Hash)]
pub struct Reading {
    /// The number of the reading. No other reading of a table has it.
    pub number: i32,
    /// All d + 1 coordinates, each within ±1,000,000. Their sum is 0.
    pub position: Vec<i32>,
    /// The value in hundredths of a ppb, within ±1,000,000.
    pub value: i32,
}

impl Reading {
    /// The reading of this number: a value at a position.
    pub fn new(number: i32, position: impl Into<Vec<i32>>, value: i32) -> Reading {
        let position = position.into();
        Reading {
            number,
            position,
            value,
        }
    }

    /// The reading that an entry of a book tells: its number, d + 1 coordinates, the value.
    pub(crate) fn of_entry(entry: &[i32]) -> Reading {
        let value = entry.len() - 1;
        Reading::new(entry[0], &entry[1..value], entry[value])
    }
}
