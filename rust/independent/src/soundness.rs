//! Soundness of a lent table: document 01's clauses here, one by one in its order, and then those of the book. Every
//! number is taken exactly, in 128 bits, so that no product or sum can wrap. A later clause is looked at only where the
//! earlier ones hold, because it leans on them: no entry names a point past the m-th when the search starts.

use crate::book_soundness::book_is_sound;
use crate::refusal;
use crate::search::{search, Found};
use crate::settings::{weight_total, MOST_READINGS};
use crate::table::{Head, Lent};

/// Coordinates of a stored point lie within this much of 0.
const POINT_REACH: i128 = 1_000_005;
/// A value sum lies within this much times the mass of 0.
const VALUE_REACH: i128 = 1_000_000;

/// Refuses a table that is not sound with 3. Settings and room are in range and the lengths are theirs.
pub fn sound_judged(head: &Head, lent: &Lent) -> Result<(), u8> {
    if points_are_sound(head, lent) && book_is_sound(head, lent) {
        Ok(())
    } else {
        Err(refusal::UNSOUND)
    }
}

/// Document 01's clauses, which do not look at the book.
fn points_are_sound(head: &Head, lent: &Lent) -> bool {
    counts_are_sound(head)
        && index_is_sound(head, lent)
        && searches_are_sound(head, lent)
        && keys_are_sound(head, lent)
        && sums_are_sound(head, lent)
        && masses_add_up(head, lent)
}

/// m is at most C and n at most 4,096.
fn counts_are_sound(head: &Head) -> bool {
    head.points <= head.capacity && head.readings <= MOST_READINGS
}

/// Every index entry is 0 to m and exactly m are not 0.
fn index_is_sound(head: &Head, lent: &Lent) -> bool {
    let in_range = lent.index.iter().all(|&entry| usize::from(entry) <= head.points);
    let not_empty = lent.index.iter().filter(|&&entry| entry != 0).count();
    in_range && not_empty == head.points
}

/// Searching for each of the m keys finds that same point.
fn searches_are_sound(head: &Head, lent: &Lent) -> bool {
    let finds_itself = |number| search(lent.keys, lent.index, lent.key(head.d, number)) == Some(Found::Point(number));
    (0..head.points).all(finds_itself)
}

/// Each key has one common remainder, and all d+1 coordinates are within ±1,000,005.
fn keys_are_sound(head: &Head, lent: &Lent) -> bool {
    (0..head.points).all(|number| key_is_sound(lent.key(head.d, number)))
}

fn key_is_sound(key: &[i32]) -> bool {
    let divisor = key.len() as i128 + 1;
    let mut coordinates: Vec<i128> = key.iter().map(|&coordinate| i128::from(coordinate)).collect();
    coordinates.push(-coordinates.iter().sum::<i128>());
    let common = coordinates[0].rem_euclid(divisor);
    let alike = coordinates
        .iter()
        .all(|coordinate| coordinate.rem_euclid(divisor) == common);
    alike && coordinates.iter().all(|coordinate| coordinate.abs() <= POINT_REACH)
}

/// Each mass is at least 1; each value sum is within ±1,000,000 times its mass.
fn sums_are_sound(head: &Head, lent: &Lent) -> bool {
    (0..head.points).all(|number| pair_is_sound(i128::from(lent.mass(number)), i128::from(lent.value_sum(number))))
}

fn pair_is_sound(mass: i128, value_sum: i128) -> bool {
    mass >= 1 && value_sum.abs() <= VALUE_REACH * mass
}

/// The masses sum to W·n.
fn masses_add_up(head: &Head, lent: &Lent) -> bool {
    let masses: i128 = (0..head.points).map(|number| i128::from(lent.mass(number))).sum();
    masses == i128::from(weight_total(head.d, head.fineness)) * head.readings as i128
}

#[cfg(test)]
mod tests {
    use super::*;
    use crate::search::home_place;

    /// The points of the worked log's table: d = 1, S = 2, C = 8, points 2 and 1, masses 2 and 6. Each clause of
    /// document 01 is tried without the book, which would refuse nearly all of these tables too.
    #[derive(Clone)]
    struct Worked {
        head: Head,
        keys: Vec<i32>,
        sums: Vec<i64>,
        index: Vec<u16>,
    }

    impl Worked {
        fn new() -> Worked {
            let (mut keys, mut sums, mut index) = (vec![0; 8], vec![0; 16], vec![0; 16]);
            keys[..2].copy_from_slice(&[2, 1]);
            sums[..4].copy_from_slice(&[2, 20, 6, 36]);
            // The home of key 2 is 6, and of key 1 it is 3.
            (index[6], index[3]) = (1, 2);
            let head = Head {
                d: 1,
                fineness: 2,
                capacity: 8,
                room: 2,
                readings: 2,
                points: 2,
            };
            Worked {
                head,
                keys,
                sums,
                index,
            }
        }

        fn is_sound(&self) -> bool {
            let lent = Lent {
                keys: &self.keys,
                sums: &self.sums,
                index: &self.index,
                book: &[],
            };
            points_are_sound(&self.head, &lent)
        }

        fn refused_with(change: impl Fn(&mut Worked)) -> bool {
            let mut worked = Worked::new();
            change(&mut worked);
            !worked.is_sound()
        }
    }

    #[test]
    fn the_worked_table_is_sound_whatever_stands_past_its_points() {
        let mut worked = Worked::new();
        assert!(worked.is_sound());
        worked.keys[2..].fill(i32::MIN);
        worked.sums[4..].fill(i64::MIN);
        assert!(worked.is_sound());
    }

    #[test]
    fn counts_beyond_their_limits() {
        assert!(Worked::refused_with(|worked| worked.head.points = 9));
        assert!(Worked::refused_with(|worked| worked.head.points = usize::MAX));
        assert!(Worked::refused_with(|worked| worked.head.readings = 4_097));
        assert!(Worked::refused_with(|worked| worked.head.readings = usize::MAX));
    }

    #[test]
    fn an_index_that_does_not_fit_the_points() {
        assert!(Worked::refused_with(|worked| worked.index[0] = 3));
        assert!(Worked::refused_with(|worked| worked.index[0] = 1));
        assert!(Worked::refused_with(|worked| worked.index[3] = 0));
        assert!(Worked::refused_with(|worked| worked.index.swap(3, 6)));
        assert!(Worked::refused_with(|worked| worked.head.points = 1));
    }

    #[test]
    fn two_points_of_one_key() {
        let doubled = |worked: &mut Worked| {
            worked.keys[1] = worked.keys[0];
            worked.index.fill(0);
            worked.index[3..5].copy_from_slice(&[1, 2]);
        };
        assert!(Worked::refused_with(doubled));
    }

    #[test]
    fn an_index_in_another_insertion_order_is_sound() {
        // Keys 1 and 17 share the home place 3. Either may have come first.
        let mut worked = Worked::new();
        worked.keys[..2].copy_from_slice(&[1, 17]);
        for order in [[1, 2], [2, 1]] {
            worked.index.fill(0);
            worked.index[3..5].copy_from_slice(&order);
            assert!(worked.is_sound());
        }
    }

    #[test]
    fn pairs_out_of_their_ranges() {
        assert!(Worked::refused_with(
            |worked| worked.sums[..3].copy_from_slice(&[0, 0, 8])
        ));
        assert!(Worked::refused_with(|worked| worked.sums[0] += 1));
        assert!(Worked::refused_with(
            |worked| worked.sums[1] = 1_000_000 * worked.sums[0] + 1
        ));
        assert!(Worked::refused_with(|worked| worked.sums[1] = i64::MIN));
        assert!(Worked::refused_with(|worked| worked.head.readings = 3));
        let mut worked = Worked::new();
        worked.sums[1] = -1_000_000 * worked.sums[0];
        assert!(worked.is_sound());
    }

    #[test]
    fn masses_that_would_wrap_to_the_right_sum() {
        // 2^63 - 1 and 2^63 - 1 and 10 sum to 8 modulo 2^64.
        let wrapping = |worked: &mut Worked| {
            worked.keys[..3].copy_from_slice(&[1, 2, 3]);
            worked.index.fill(0);
            for (place, name) in [(3, 1), (6, 2), (9, 3)] {
                worked.index[place] = name;
            }
            worked.sums[..6].copy_from_slice(&[i64::MAX, 0, i64::MAX, 0, 10, 0]);
            worked.head.points = 3;
        };
        assert!(Worked::refused_with(wrapping));
    }

    #[test]
    fn a_key_that_is_found_but_out_of_reach() {
        let moved_to = |key: i32| {
            let mut worked = Worked::new();
            let (old_place, new_place) = (home_place(&[worked.keys[0]], 16), home_place(&[key], 16));
            worked.index.swap(old_place, new_place);
            worked.keys[0] = key;
            worked.is_sound()
        };
        assert!(moved_to(1_000_005));
        assert!(!moved_to(1_000_006));
        assert!(moved_to(-1_000_005));
        assert!(!moved_to(-1_000_006));
    }

    #[test]
    fn keys_and_their_remainders() {
        assert!(key_is_sound(&[-1, -1]));
        assert!(key_is_sound(&[-4, 2]));
        assert!(!key_is_sound(&[0, 1]));
        assert!(key_is_sound(&[1_000_005]));
        assert!(key_is_sound(&[-1_000_005]));
        assert!(!key_is_sound(&[1_000_006]));
        assert!(!key_is_sound(&[i32::MIN]));
        // The last coordinate is out of reach where the kept ones are not.
        assert!(!key_is_sound(&[600_000, 600_000]));
        assert!(key_is_sound(&[600_000, -600_000]));
    }
}
