//! Whether a table is sound with its book, on lent memory that may hold anything, and refusals 1, 2 and 3 of a call.

use super::book::is_carried;
use super::index::{find, key};
use super::lattice::{FARTHEST_POINT, MOST_ROOM, MOST_VALUE, NOT_SOUND, OTHER_LENGTH, SETTINGS_OUT_OF_RANGE};
use super::table::View;
use vimrothi::calls::Head;

/// The first of refusals 1, 2 and 3 that is met, else 0. `more` says whether whatever else is lent has its length.
pub fn refusal_of(table: View, more: bool) -> u8 {
    if !table.in_range() {
        return SETTINGS_OUT_OF_RANGE;
    }
    if !table.lengths_fit() || !more {
        return OTHER_LENGTH;
    }
    if !is_sound(table) {
        return NOT_SOUND;
    }
    0
}

/// One pass over the index, one search for each key and one pass over the points; then the book. The index comes first:
/// only then does each entry name a key, and only then can a search end.
pub fn is_sound(table: View) -> bool {
    let View { head, keys, index, .. } = table;
    head.points <= head.capacity
        && head.readings <= MOST_ROOM
        && index_is_sparse(index, head.points)
        && (0..head.points).all(|point| find(keys, index, key(keys, head.d, point)) == Some(point))
        && rows_are_good(head, keys, table.sums)
        && is_carried(table)
}

fn index_is_sparse(index: &[u16], points: usize) -> bool {
    let mut named = 0;
    for &entry in index {
        if usize::from(entry) > points {
            return false;
        }
        named += usize::from(entry != 0);
    }
    named == points
}

fn rows_are_good(head: Head, keys: &[i32], sums: &[i64]) -> bool {
    let total = (head.d + 1) as i64 * i64::from(head.fineness) * head.readings as i64;
    let mut masses = 0;
    for (key, pair) in keys.chunks_exact(head.d).zip(sums.chunks_exact(2)).take(head.points) {
        if !good_key(key) || !good_pair(pair[0], pair[1], total) {
            return false;
        }
        masses += pair[0];
    }
    masses == total
}

/// Each coordinate is tested before it is added, so the sum stays small.
fn good_key(key: &[i32]) -> bool {
    let n = key.len() as i32 + 1;
    let remainder = key[0].rem_euclid(n);
    let good = |coordinate: i32| coordinate.unsigned_abs() <= FARTHEST_POINT && coordinate.rem_euclid(n) == remainder;
    key.iter().all(|&coordinate| good(coordinate)) && good(-key.iter().sum::<i32>())
}

/// No mass is more than all of them, which is tested before anything is multiplied.
fn good_pair(mass: i64, value: i64, total: i64) -> bool {
    (1..=total).contains(&mass) && value.unsigned_abs() <= u64::from(MOST_VALUE) * mass as u64
}
