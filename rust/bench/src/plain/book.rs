//! The book of a table: its entries, and whether it is the table's.

use super::index::find;
use super::lattice::{judge_reading, MOST_CAPACITY};
use super::numbers::Numbers;
use super::simplex::enclose;
use super::table::View;

/// The entries of so many readings: each the number, d + 1 coordinates, the value.
pub fn entries(book: &[i32], d: usize, readings: usize) -> impl DoubleEndedIterator<Item = &[i32]> + ExactSizeIterator {
    book.chunks_exact(d + 3).take(readings)
}

/// Whether the book of a table that is sound without it is its own: the readings have room and keep the limits, none
/// has another's number, and the sums are theirs.
pub fn is_carried(table: View) -> bool {
    let head = table.head;
    head.readings <= head.room
        && entries(table.book, head.d, head.readings).all(|entry| judge_reading(&entry[1..]) == 0)
        && Numbers::none().add_book(table.book, head.d, head.readings)
        && sums_are_theirs(table)
}

/// Every reading is spread over the stored points, on a sheet in the place of the sums, and the two are compared.
fn sums_are_theirs(table: View) -> bool {
    let mut sheet = [0; 2 * MOST_CAPACITY];
    let mut readings = entries(table.book, table.head.d, table.head.readings);
    let places = 2 * table.head.points;
    readings.all(|entry| spread(table, &mut sheet, &entry[1..])) && sheet[..places] == table.sums[..places]
}

/// One reading on the sheet; false where a point that it touches is not stored.
fn spread(table: View, sheet: &mut [i64], reading: &[i32]) -> bool {
    let d = table.head.d;
    let value = i64::from(reading[d + 1]);
    for (key, weight) in enclose(&reading[..=d], table.head.fineness).shares(d) {
        let Some(point) = find(table.keys, table.index, key) else {
            return false;
        };
        sheet[2 * point] += i64::from(weight);
        sheet[2 * point + 1] += i64::from(weight) * value;
    }
    true
}
