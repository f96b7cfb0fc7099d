//! Weights from their definition. For a position the lattice points near it are walked, remainder by remainder, and
//! each one's spread decides its weight. No residual is sorted, and nothing is assumed about how many points have
//! weight above 0.

use crate::position::with_last_coordinate;
use crate::settings::weight_total;

/// A lattice point with a weight above 0 for some position.
#[derive(Clone, Debug, PartialEq, Eq)]
pub struct Weighted {
    /// All d+1 coordinates.
    pub point: Vec<i32>,
    /// The weight, above 0.
    pub weight: i64,
}

impl Weighted {
    /// The first d coordinates.
    pub fn kept(&self) -> &[i32] {
        &self.point[..self.point.len() - 1]
    }
}

/// Every point with weight above 0 for the position, in ascending remainder.
pub fn weighted_points(fineness: u32, position: &[i32]) -> Vec<Weighted> {
    let mut found = Vec::new();
    for remainder in 0..position.len() as i32 {
        let mut walk = Walk {
            fineness,
            position,
            remainder,
            beginning: Vec::with_capacity(position.len()),
        };
        walk.onward(&mut found);
    }
    found
}

/// The weight of a point for a position: W - spread where that is above 0, and 0 otherwise.
pub fn weight(fineness: u32, position: &[i32], point: &[i32]) -> i64 {
    let total = weight_total(position.len() - 1, fineness);
    (total - spread(fineness, position, point)).max(0)
}

/// Whether each x_i - S·y_i is nearer to 0 than W. They sum to 0, so 0 lies between the least and the greatest, and a
/// point that is not near has a spread of W or more.
pub fn near(fineness: u32, position: &[i32], point: &[i32]) -> bool {
    let total = weight_total(position.len() - 1, fineness);
    residuals(fineness, position, point).all(|residual| residual.abs() < total)
}

/// The greatest minus the least x_i - S·y_i over the coordinates that both have.
fn spread(fineness: u32, position: &[i32], point: &[i32]) -> i64 {
    let greatest = residuals(fineness, position, point).max().unwrap_or(0);
    let least = residuals(fineness, position, point).min().unwrap_or(0);
    greatest - least
}

fn residuals<'a>(fineness: u32, position: &'a [i32], point: &'a [i32]) -> impl Iterator<Item = i64> + 'a {
    let fineness = i64::from(fineness);
    let pairs = position.iter().zip(point);
    pairs.map(move |(&x, &y)| i64::from(x) - fineness * i64::from(y))
}

/// A walk over the lattice points of one remainder that are near the position, coordinate by coordinate.
struct Walk<'a> {
    fineness: u32,
    position: &'a [i32],
    remainder: i32,
    /// The coordinates chosen so far.
    beginning: Vec<i32>,
}

impl Walk<'_> {
    /// Chooses the next coordinate in every way, or weighs the point where only the last one is left. A beginning whose
    /// own spread is W or more is given up at once, since further coordinates can only widen it.
    fn onward(&mut self, found: &mut Vec<Weighted>) {
        let (place, d) = (self.beginning.len(), self.position.len() - 1);
        if place == d {
            found.extend(self.weighed());
            return;
        }
        let total = weight_total(d, self.fineness);
        for y in near_coordinates(self.fineness, self.position[place], d as i32 + 1, self.remainder) {
            self.beginning.push(y);
            if spread(self.fineness, self.position, &self.beginning) < total {
                self.onward(found);
            }
            self.beginning.pop();
        }
    }

    /// The point of the d chosen coordinates, where its weight is above 0.
    fn weighed(&self) -> Option<Weighted> {
        let point = with_last_coordinate(&self.beginning);
        let weight = weight(self.fineness, self.position, &point);
        (weight > 0).then_some(Weighted { point, weight })
    }
}

/// The whole numbers y of the given remainder on division by d+1, here `divisor`, for which x - S·y is nearer to 0
/// than W = (d+1)·S. Such a y is at most d+1 away from x divided by S, rounded down.
fn near_coordinates(fineness: u32, x: i32, divisor: i32, remainder: i32) -> impl Iterator<Item = i32> {
    let total = divisor * fineness as i32;
    let middle = x.div_euclid(fineness as i32);
    let least = middle - divisor;
    let first = least + (remainder - least).rem_euclid(divisor);
    let alike = (first..=middle + divisor).step_by(divisor as usize);
    alike.filter(move |y| (x - fineness as i32 * y).abs() < total)
}

#[cfg(test)]
mod tests {
    use super::*;
    use crate::position::position_judged;

    fn weights_of(fineness: u32, position: &[i32]) -> Vec<(Vec<i32>, i64)> {
        let weighted = weighted_points(fineness, position);
        weighted
            .into_iter()
            .map(|weighted| (weighted.point, weighted.weight))
            .collect()
    }

    #[test]
    fn the_small_numbers_of_two_dimensions() {
        let three = [vec![0, 0, 0], vec![1, 1, -2], vec![2, -1, -1]];
        let with = |weights: [i64; 3]| three.iter().cloned().zip(weights).collect::<Vec<_>>();
        assert_eq!(weights_of(2, &[3, -1, -2]), with([1, 1, 4]));
        assert_eq!(weights_of(1, &[1, 0, -1]), with([1, 1, 1]));
        assert_eq!(weights_of(2, &[1, 1, -2]), with([3, 3, 0])[..2]);
        assert_eq!(weight(2, &[1, 1, -2], &[2, -1, -1]), 0);
        assert_eq!(weights_of(2, &[2, 2, -4]), [(vec![1, 1, -2], 6)]);
    }

    #[test]
    fn a_negative_coordinate_leaves_a_remainder_that_is_not_negative() {
        assert_eq!(weights_of(2, &[-2, -2, 4]), [(vec![-1, -1, 2], 6)]);
        let near = |fineness: u32, x: i32| near_coordinates(fineness, x, 3, 2).collect::<Vec<_>>();
        assert_eq!(near(1, -4), [-4]);
        assert_eq!(near(1, -1), [-1]);
        assert_eq!(near(2, -1), [-1, 2]);
    }

    /// Positions from a simple generator: small ones, where ties are common, and ones at the ends of the range.
    fn positions(d: usize) -> Vec<Vec<i32>> {
        let mut state = 12_345u64 + d as u64;
        let mut draw = |reach: i64| {
            state = state.wrapping_mul(6_364_136_223_846_793_005).wrapping_add(1);
            ((state >> 33) as i64 % (2 * reach + 1) - reach) as i32
        };
        let mut drawn = Vec::new();
        for reach in [4, 60, 1_000, 1_000_000] {
            let some = (0..40).map(|_| (0..d).map(|_| draw(reach)).collect::<Vec<_>>());
            drawn.extend(some.map(|kept| with_last_coordinate(&kept)));
        }
        drawn.retain(|position| position_judged(position).is_ok());
        drawn
    }

    #[test]
    fn the_weights_sum_to_the_total_and_give_the_position_back() {
        for d in 1..=5 {
            for (position, fineness) in positions(d)
                .iter()
                .flat_map(|position| [1, 2, 7, 64].map(|s| (position, s)))
            {
                let weighted = weights_of(fineness, position);
                let sum: i64 = weighted.iter().map(|(_, weight)| weight).sum();
                assert_eq!(sum, weight_total(d, fineness), "{position:?} {fineness}");
                assert_eq!(weighted_sum(&weighted, d), scaled(position, d as i64 + 1));
            }
        }
    }

    fn weighted_sum(weighted: &[(Vec<i32>, i64)], d: usize) -> Vec<i64> {
        let at = |i: usize| {
            weighted
                .iter()
                .map(|(point, weight)| weight * i64::from(point[i]))
                .sum()
        };
        (0..=d).map(at).collect()
    }

    fn scaled(position: &[i32], factor: i64) -> Vec<i64> {
        position.iter().map(|&x| factor * i64::from(x)).collect()
    }

    #[test]
    fn the_points_are_lattice_points_of_ascending_remainders() {
        for d in 1..=5 {
            for position in positions(d) {
                let remainders_of = |point: &Vec<i32>| point.iter().map(|y| y.rem_euclid(d as i32 + 1)).collect();
                let weighted = weights_of(3, &position);
                let remainders: Vec<Vec<i32>> = weighted.iter().map(|(point, _)| remainders_of(point)).collect();
                assert!(weighted.iter().all(|(point, _)| point.iter().sum::<i32>() == 0));
                assert!(remainders.iter().all(|of_one| of_one.iter().all(|r| *r == of_one[0])));
                assert!(remainders.windows(2).all(|two| two[0][0] < two[1][0]), "{position:?}");
            }
        }
    }

    /// The walk leaves nothing out: every point of a box that is far wider than the walk's is weighed.
    #[test]
    fn no_other_point_of_a_wide_box_has_weight() {
        for position in [[3, -1, -2], [1, 1, -2], [-7, 2, 5], [0, 0, 0]] {
            let kept = (-20..=20).flat_map(|a| (-20..=20).map(move |b| [a, b]));
            let points = kept.map(|kept| with_last_coordinate(&kept));
            let lattice = points.filter(|y| y.iter().all(|c| c.rem_euclid(3) == y[0].rem_euclid(3)));
            let heavy = lattice.filter(|point| weight(2, &position, point) > 0).count();
            assert_eq!(heavy, weights_of(2, &position).len());
        }
    }
}
