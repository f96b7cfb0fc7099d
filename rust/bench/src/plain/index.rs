//! Finding a point: the home place of its kept coordinates, and the search up from there, round the end to 0.

const FACTOR: u32 = 2_531_011;

/// The hash of a key modulo the number of index places.
fn home(key: &[i32], places: usize) -> usize {
    let hash = key.iter().fold(0u32, |hash, &coordinate| {
        hash.wrapping_add(coordinate as u32).wrapping_mul(FACTOR)
    });
    hash as usize % places
}

/// The kept coordinates of a point.
pub fn key(keys: &[i32], d: usize, point: usize) -> &[i32] {
    &keys[d * point..][..d]
}

/// The place that names the point with this key, or else the empty place where the search for it ends.
pub fn search(keys: &[i32], index: &[u16], sought: &[i32]) -> usize {
    let mut place = home(sought, index.len());
    loop {
        let entry = usize::from(index[place]);
        if entry == 0 || key(keys, sought.len(), entry - 1) == sought {
            return place;
        }
        place += 1;
        if place == index.len() {
            place = 0;
        }
    }
}

/// The number of the point with this key, where it is stored.
pub fn find(keys: &[i32], index: &[u16], sought: &[i32]) -> Option<usize> {
    usize::from(index[search(keys, index, sought)]).checked_sub(1)
}
