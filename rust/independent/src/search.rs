//! Finding a point, as document 01 says it: the home place of a key, and the search that goes up from there and round
//! the end. Both work on the lent slices.

/// 2^32; hashes are taken modulo this.
const MODULUS: u64 = 1 << 32;
/// The hash is multiplied by this after each coordinate.
const FACTOR: u64 = 2_531_011;

/// Where a search stopped.
#[derive(Clone, Copy, Debug, PartialEq, Eq)]
pub enum Found {
    /// At an index place that names the point of this number.
    Point(usize),
    /// At this empty index place.
    Empty(usize),
}

/// The home place of a key in an index of so many places.
pub fn home_place(key: &[i32], places: usize) -> usize {
    let mut hash = 0;
    for &coordinate in key {
        let counted = i64::from(coordinate).rem_euclid(MODULUS as i64) as u64;
        hash = (hash + counted) % MODULUS;
        hash = hash * FACTOR % MODULUS;
    }
    (hash % places as u64) as usize
}

/// Searches for a key. Every entry of the index names a point that the keys hold. `None` is a whole round without an
/// empty place or the point, which needs an index that is full.
pub fn search(keys: &[i32], index: &[u16], key: &[i32]) -> Option<Found> {
    let home = home_place(key, index.len());
    let mut round = (home..index.len()).chain(0..home);
    round.find_map(|place| found_at(keys, index, key, place))
}

/// What stops the search at this place, if anything does.
fn found_at(keys: &[i32], index: &[u16], key: &[i32], place: usize) -> Option<Found> {
    let entry = usize::from(index[place]);
    if entry == 0 {
        return Some(Found::Empty(place));
    }
    let number = entry - 1;
    let named = &keys[key.len() * number..key.len() * entry];
    (named == key).then_some(Found::Point(number))
}

#[cfg(test)]
mod tests {
    use super::*;

    #[test]
    fn the_small_numbers_of_home_places() {
        assert_eq!(home_place(&[1], 16), 3);
        assert_eq!(home_place(&[2], 16), 6);
        assert_eq!(home_place(&[-1], 16), 13);
    }

    #[test]
    fn two_coordinates_are_hashed_in_order() {
        let by_hand = (2_531_011u64 + 2) * 2_531_011 % (1 << 32) % 16_384;
        assert_eq!(home_place(&[1, 2], 16_384) as u64, by_hand);
        assert_ne!(home_place(&[2, 1], 16_384) as u64, by_hand);
    }

    #[test]
    fn the_search_goes_round_the_end() {
        // Keys 5 and 21 share the home place 15, the last one.
        let keys = [5, 21];
        let mut index = [0; 16];
        assert_eq!(search(&keys, &index, &[5]), Some(Found::Empty(15)));
        index[15] = 1;
        assert_eq!(search(&keys, &index, &[5]), Some(Found::Point(0)));
        assert_eq!(search(&keys, &index, &[21]), Some(Found::Empty(0)));
        index[0] = 2;
        assert_eq!(search(&keys, &index, &[21]), Some(Found::Point(1)));
    }

    #[test]
    fn a_full_index_without_the_point_has_no_answer() {
        assert_eq!(search(&[5, 21], &[1, 2], &[7]), None);
    }
}
