//! The rounded quotient, from its definition: the nearest whole number, and of two equally near ones the one that is
//! farther from zero.

use std::cmp::Ordering;

/// Rounds `sum` / `mass` to the nearest whole number, a half away from zero. `mass` is above 0.
pub fn rounded_quotient(sum: i128, mass: i128) -> i128 {
    let below = sum.div_euclid(mass);
    let above = below + 1;
    let distance_below = sum - below * mass;
    let distance_above = above * mass - sum;
    match distance_below.cmp(&distance_above) {
        Ordering::Less => below,
        Ordering::Greater => above,
        Ordering::Equal => farther_from_zero(below, above),
    }
}

fn farther_from_zero(one: i128, other: i128) -> i128 {
    if one.abs() > other.abs() {
        one
    } else {
        other
    }
}

#[cfg(test)]
mod tests {
    use super::*;

    #[test]
    fn the_small_numbers_of_rounding() {
        assert_eq!(rounded_quotient(3, 2), 2);
        assert_eq!(rounded_quotient(-3, 2), -2);
        assert_eq!(rounded_quotient(-1, 2), -1);
        assert_eq!(rounded_quotient(1, 3), 0);
        assert_eq!(rounded_quotient(-2, 3), -1);
    }

    #[test]
    fn a_half_goes_away_from_zero_on_either_side() {
        assert_eq!(rounded_quotient(1, 2), 1);
        assert_eq!(rounded_quotient(5, 2), 3);
        assert_eq!(rounded_quotient(-5, 2), -3);
    }

    #[test]
    fn a_whole_quotient_stays() {
        assert_eq!(rounded_quotient(1008, 144), 7);
        assert_eq!(rounded_quotient(-8, 4), -2);
        assert_eq!(rounded_quotient(0, 5), 0);
    }
}
