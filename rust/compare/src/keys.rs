//! Kept coordinates of lattice points: near one another, far apart or at the limits, and their home places.

use crate::positions::LIMIT;
use crate::random::Random;

/// Coordinates of stored points go from minus this to this.
pub const POINT_LIMIT: i64 = 1_000_005;

/// The home place of a key: document 01's sums and products modulo 2^32, then modulo 2·C.
pub fn home_place(key: &[i32], capacity: usize) -> usize {
    let hash = key.iter().fold(0u32, |hash, kept| {
        hash.wrapping_add(*kept as u32).wrapping_mul(2_531_011)
    });
    hash as usize % (2 * capacity)
}

/// The kept coordinates of a random lattice point. Any d whole numbers of one remainder are such.
pub fn lattice_key(random: &mut Random, d: usize, reach: i64) -> Vec<i32> {
    let sides = d as i64 + 1;
    let remainder = random.between(0, d as i64);
    (0..d)
        .map(|_| (sides * random.between(-reach, reach) + remainder) as i32)
        .collect()
}

/// The kept coordinates of a lattice point that lies as far out as the limits allow in two directions, `beyond` steps
/// further where that is above 0. The implied last coordinate is often one of the two.
pub fn limit_key(random: &mut Random, d: usize, beyond: i64) -> Vec<i32> {
    let sides = d as i64 + 1;
    let remainder = random.between(0, d as i64);
    // The lattice point of this remainder next to 0: k, or k - (d+1) at k of the places.
    let mut point: Vec<i64> = (0..sides)
        .map(|i| if i < remainder { remainder - sides } else { remainder })
        .collect();
    random.shuffle(&mut point);
    let high = random.below(d + 1);
    let low = (high + 1 + random.below(d)) % (d + 1);
    let steps = ((POINT_LIMIT - point[high]) / sides).min((POINT_LIMIT + point[low]) / sides) + beyond;
    point[high] += sides * steps;
    point[low] -= sides * steps;
    point[..d].iter().map(|kept| *kept as i32).collect()
}

/// The position at a point, S times all its coordinates, where the point alone has weight.
pub fn at_point(fineness: u32, key: &[i32]) -> Vec<i32> {
    let mut position: Vec<i32> = key.iter().map(|kept| kept * fineness as i32).collect();
    position.push(-position.iter().sum::<i32>());
    position
}

/// A fineness with which the positions at all of these points are within the limits.
pub fn fineness_for(random: &mut Random, keys: &[Vec<i32>]) -> u32 {
    let greatest = |key: &Vec<i32>| at_point(1, key).iter().map(|kept| i64::from(kept.abs())).max();
    let reach = keys.iter().filter_map(greatest).max().unwrap_or(0).max(1);
    let most = (LIMIT / reach).min(64) as usize;
    let any = 1 + random.below(most);
    random.pick(&[any, most]) as u32
}

/// A fineness from 1 to 64, often a small one or the greatest.
pub fn some_fineness(random: &mut Random) -> u32 {
    match random.below(4) {
        0 => random.pick(&[1, 2, 3]),
        1 => random.pick(&[63, 64]),
        _ => 1 + random.below(64) as u32,
    }
}
