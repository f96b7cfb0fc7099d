//! The blur and the answer, both by definition over the sorted map. A pass makes a whole new map from the old one, so
//! that no pair of the pass can be read after it was changed.

use crate::points::{Point, Points};
use crate::position::{position_judged, with_last_coordinate};
use crate::refusal;
use crate::rounding::rounded_quotient;
use crate::weights::{near, weight};

/// A table's points after the passes 0 to d.
pub(crate) struct Blurred {
    fineness: u32,
    /// All d+1 coordinates of each point, with its number and blurred pair.
    points: Vec<(Vec<i32>, Point)>,
}

impl Blurred {
    /// Makes the passes 0 to d, in that order.
    pub fn new(d: usize, fineness: u32, stored: &Points) -> Blurred {
        let blurred = (0..=d).fold(stored.clone(), |old, place| pass(d, &old, place));
        let points = blurred
            .into_iter()
            .map(|(kept, point)| (with_last_coordinate(&kept), point));
        Blurred {
            fineness,
            points: points.collect(),
        }
    }

    /// The blurred points, in listing order.
    pub fn points(&self) -> impl Iterator<Item = &Point> {
        self.points.iter().map(|(_, point)| point)
    }

    /// The value and the code of a query, the value 0 beside any code but 0.
    pub fn answer(&self, query: &[i32]) -> (i32, u8) {
        match self.rounded(query) {
            Ok(value) => (value, refusal::DONE),
            Err(code) => (0, code),
        }
    }

    /// The rounded answer of a query, or its refusal with 4, 5, 10 or 11.
    fn rounded(&self, query: &[i32]) -> Result<i32, u8> {
        position_judged(query)?;
        let (mass_sum, value_sum) = self.fraction(query).ok_or(refusal::NO_WEIGHT)?;
        if mass_sum == 0 {
            return Err(refusal::NO_MASS);
        }
        let rounded = rounded_quotient(value_sum, mass_sum);
        Ok(i32::try_from(rounded).expect("a mean of values is within their limits"))
    }

    /// The sums over all points of weight times blurred mass and of weight times blurred value sum. `None` where no
    /// point has weight above 0.
    fn fraction(&self, query: &[i32]) -> Option<(i128, i128)> {
        let candidates = self
            .points
            .iter()
            .filter(|(coordinates, _)| near(self.fineness, query, coordinates));
        let parts = candidates.map(|(coordinates, point)| (weight(self.fineness, query, coordinates), point));
        let weighty = parts.filter(|(weight, _)| *weight > 0);
        let products = weighty.map(|(weight, point)| {
            let weight = i128::from(weight);
            (weight * i128::from(point.mass), weight * i128::from(point.value_sum))
        });
        products.reduce(|sums, product| (sums.0 + product.0, sums.1 + product.1))
    }
}

/// One pass: each point's old pair twice, plus the old pairs at point plus step and at point minus step.
fn pass(d: usize, old: &Points, place: usize) -> Points {
    let step = kept_step(d, place);
    let blurred = |(kept, point): (&Vec<i32>, &Point)| {
        let ahead = old.get(&moved(kept, &step, 1));
        let behind = old.get(&moved(kept, &step, -1));
        (kept.clone(), doubled_plus(point, [ahead, behind]))
    };
    old.iter().map(blurred).collect()
}

/// The first d coordinates of a pass's step: -d at the pass's place and 1 elsewhere. In pass d all of them are 1.
fn kept_step(d: usize, place: usize) -> Vec<i32> {
    (0..d).map(|i| if i == place { -(d as i32) } else { 1 }).collect()
}

fn moved(kept: &[i32], step: &[i32], direction: i32) -> Vec<i32> {
    kept.iter().zip(step).map(|(y, part)| y + direction * part).collect()
}

/// A neighbour that is not stored counts as 0.
fn doubled_plus(point: &Point, neighbours: [Option<&Point>; 2]) -> Point {
    let stored = || neighbours.into_iter().flatten();
    Point {
        number: point.number,
        mass: 2 * point.mass + stored().map(|neighbour| neighbour.mass).sum::<i64>(),
        value_sum: 2 * point.value_sum + stored().map(|neighbour| neighbour.value_sum).sum::<i64>(),
    }
}

#[cfg(test)]
mod tests {
    use super::*;

    /// The worked log's points, blurred: (1, -1) with mass 6 and value sum 36, and (2, -2) with 2 and 20.
    fn worked() -> Blurred {
        let point = |number, mass, value_sum| Point {
            number,
            mass,
            value_sum,
        };
        let stored = Points::from([(vec![1], point(1, 6, 36)), (vec![2], point(0, 2, 20))]);
        Blurred::new(1, 2, &stored)
    }

    #[test]
    fn the_small_numbers_of_the_worked_log() {
        let blurred = worked();
        let pairs: Vec<_> = blurred.points().map(|point| (point.mass, point.value_sum)).collect();
        assert_eq!(pairs, [(38, 260), (34, 244)]);
        assert_eq!(blurred.fraction(&[3, -3]), Some((144, 1008)));
        assert_eq!(blurred.answer(&[3, -3]), (7, 0));
    }

    #[test]
    fn a_query_far_from_all_points_has_no_weight() {
        assert_eq!(worked().answer(&[100, -100]), (0, 10));
        assert_eq!(worked().answer(&[4, -4]), (7, 0));
        assert_eq!(Blurred::new(1, 2, &Points::new()).answer(&[0, 0]), (0, 10));
    }

    #[test]
    fn a_bad_query_is_refused_for_its_position() {
        assert_eq!(worked().answer(&[1_000_001, 0]), (0, 4));
        assert_eq!(worked().answer(&[5, -4]), (0, 5));
    }

    #[test]
    fn a_step_has_minus_d_at_its_place() {
        assert_eq!(kept_step(2, 0), [-2, 1]);
        assert_eq!(kept_step(2, 1), [1, -2]);
        assert_eq!(kept_step(2, 2), [1, 1]);
    }

    #[test]
    fn a_pass_reads_the_pairs_before_it() {
        // Three points in a row along the step (1, -1): the middle one must not see a changed neighbour.
        let row = |masses: [i64; 3]| -> Points {
            let point = |number: usize| Point {
                number,
                mass: masses[number],
                value_sum: -masses[number],
            };
            (0..3).map(|number| (vec![number as i32], point(number))).collect()
        };
        assert_eq!(pass(1, &row([1, 10, 100]), 1), row([12, 121, 210]));
    }
}
