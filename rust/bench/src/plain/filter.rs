//! The filter: a table's pairs blurred on two work sheets, and the answer at each queried position.

use super::index::{find, key};
use super::lattice::{judge, MOST_CAPACITY, MOST_D, NO_MASS_MET, NO_POINT_MET};
use super::simplex::enclose;
use super::soundness::refusal_of;
use super::table::View;
use vimrothi::calls::Head;

/// Answers queries of d + 1 coordinates: 1, 2, 3; then a value and a code for each, 0, 4, 5, 10 or 11.
#[allow(clippy::too_many_arguments)]
pub fn filter(
    head: Head,
    keys: &[i32],
    sums: &[i64],
    index: &[u16],
    book: &[i32],
    first: &mut [i64],
    second: &mut [i64],
    queries: &[i32],
    values: &mut [i32],
    codes: &mut [u8],
) -> u8 {
    let more = head.d <= MOST_D
        && head.capacity <= MOST_CAPACITY
        && first.len() == 2 * head.capacity
        && second.len() == 2 * head.capacity
        && queries.len().is_multiple_of(head.d + 1)
        && values.len() == queries.len() / (head.d + 1)
        && codes.len() == values.len();
    let table = View {
        head,
        keys,
        sums,
        index,
        book,
    };
    let number = refusal_of(table, more);
    if number != 0 {
        return number;
    }
    blur(head, keys, sums, index, first, second);
    for (query, (value, code)) in queries.chunks_exact(head.d + 1).zip(values.iter_mut().zip(codes)) {
        (*value, *code) = reply(head, keys, index, first, query);
    }
    0
}

/// The blurred pairs of a sound table into the first sheet; every other number of both sheets is 0 then.
pub fn blur(head: Head, keys: &[i32], sums: &[i64], index: &[u16], first: &mut [i64], second: &mut [i64]) {
    let (pairs, rest) = first.split_at_mut(2 * head.points);
    pairs.copy_from_slice(&sums[..2 * head.points]);
    rest.fill(0);
    for k in 0..=head.d {
        pass(head, keys, index, pairs, second, k);
        pairs.copy_from_slice(&second[..2 * head.points]);
    }
    second.fill(0);
}

/// Pass k: every stored point's new pair, from the pairs before the pass.
fn pass(head: Head, keys: &[i32], index: &[u16], from: &[i64], to: &mut [i64], k: usize) {
    for (point, (old, new)) in from.chunks_exact(2).zip(to.chunks_exact_mut(2)).enumerate() {
        let key = key(keys, head.d, point);
        let (plus_mass, plus_value) = neighbour_pair(keys, index, from, key, k, 1);
        let (minus_mass, minus_value) = neighbour_pair(keys, index, from, key, k, -1);
        new[0] = 2 * old[0] + plus_mass + minus_mass;
        new[1] = 2 * old[1] + plus_value + minus_value;
    }
}

/// The pair of the point plus or minus the step of pass k, 0 where it is not stored.
fn neighbour_pair(keys: &[i32], index: &[u16], sheet: &[i64], key: &[i32], k: usize, sign: i32) -> (i64, i64) {
    let d = key.len();
    let mut neighbour = [0; MOST_D];
    for (i, (to, from)) in neighbour.iter_mut().zip(key).enumerate() {
        let step = if i == k { -(d as i32) } else { 1 };
        *to = from + sign * step;
    }
    match find(keys, index, &neighbour[..d]) {
        Some(point) => (sheet[2 * point], sheet[2 * point + 1]),
        None => (0, 0),
    }
}

/// The value and the code of one query.
pub fn reply(head: Head, keys: &[i32], index: &[u16], sheet: &[i64], query: &[i32]) -> (i32, u8) {
    let number = judge(query);
    if number != 0 {
        return (0, number);
    }
    let (mut met, mut mass, mut value) = (false, 0, 0);
    for (key, weight) in enclose(query, head.fineness).shares(head.d) {
        if let Some(point) = find(keys, index, key) {
            met = true;
            mass += i64::from(weight) * sheet[2 * point];
            value += i64::from(weight) * sheet[2 * point + 1];
        }
    }
    match (met, mass) {
        (false, _) => (0, NO_POINT_MET),
        (true, 0) => (0, NO_MASS_MET),
        _ => (rounded(value, mass) as i32, 0),
    }
}

/// The quotient rounded to the nearest whole number, a half away from zero.
fn rounded(value: i64, mass: i64) -> i64 {
    (2 * value + value.signum() * mass) / (2 * mass)
}
