//! Rounding: readings whose fractions are halves, or just above or below a half, of either sign.

use crate::case::Case;
use crate::check::Check;
use crate::keys::{at_point, some_fineness};
use crate::positions::{beside_point, entry, Scene, LIMIT};
use crate::random::Random;
use crate::sheets::Sheets;
use crate::sound::{of_readings, Spare};

/// Points without neighbours, each with some readings just there: every pass doubles their pairs, so a query at the
/// point answers the sum of the values divided by their number, and that is worked out here a third time.
pub fn lone_points(case: &mut Case, check: &mut Check) {
    let random = &mut case.random;
    let (d, fineness) = (1 + random.below(5), some_fineness(random));
    let mut scene = Scene::within(random, d, fineness, 1, 0);
    let mut readings = Vec::new();
    let mut queries = Vec::new();
    let mut expected = Vec::new();
    for number in 0..1 + random.below(4) {
        let position = at_point(fineness, &lone_key(d, number));
        let count = if random.once_in(300) { 300 } else { 1 + random.below(6) };
        let sum = near_half(random, count as i64);
        for value in shared_sum(random, sum, count) {
            readings.push(entry(scene.numbers.another(random), &position, value));
        }
        queries.extend(&position);
        expected.push(rounded(sum, count as i64));
    }
    let table = of_readings(random, (d, fineness), readings, Spare::NONE);
    let mut sheets = Sheets::lent(random, d, table.head.capacity, queries);
    check.filter(&table, &mut sheets);
    check.expect(sheets.values == expected, || {
        format!("answers {:?}, expected {expected:?}, of {table}", sheets.values)
    });
}

/// Kept coordinates so far from those of other numbers that no two points are neighbours in any pass.
fn lone_key(d: usize, number: usize) -> Vec<i32> {
    let mut key = vec![0; d];
    key[0] = ((d + 1) * 20 * number) as i32;
    key
}

/// A sum of so many values whose mean is at a half, one beside it, or at a whole number, of either sign.
fn near_half(random: &mut Random, count: i64) -> i64 {
    let whole = random.pick(&[0, 0, 1, 2, 7, LIMIT - 1]) * count;
    let part = random.pick(&[
        count / 2,
        count / 2,
        count / 2 - 1,
        count / 2 + 1,
        (count + 1) / 2,
        0,
        count - 1,
    ]);
    let sum = (whole + part).clamp(0, LIMIT * count);
    random.pick(&[sum, -sum])
}

/// So many values within the limits that have this sum. Each of them is near what is left divided by how many are.
fn shared_sum(random: &mut Random, sum: i64, count: usize) -> Vec<i32> {
    let mut rest = sum;
    let mut values = Vec::with_capacity(count);
    for left in (1..=count as i64).rev() {
        // What is left for the others must be within their limits too.
        let (least, greatest) = (rest - LIMIT * (left - 1), rest + LIMIT * (left - 1));
        let near = rest / left + random.between(-5, 5);
        let value = near.clamp(least.max(-LIMIT), greatest.min(LIMIT));
        values.push(value as i32);
        rest -= value;
    }
    values
}

/// The nearest whole number, a half away from zero.
fn rounded(sum: i64, count: i64) -> i32 {
    let away = (2 * sum.abs() + count) / (2 * count);
    (sum.signum() * away) as i32
}

/// Few readings at or between points that are neighbours, with small values, so that halves are frequent.
pub fn neighbours(case: &mut Case, check: &mut Check) {
    let random = &mut case.random;
    let d = 1 + random.below(3);
    let fineness = 1 + random.below(2) as u32;
    let mut scene = Scene::within(random, d, fineness, i64::from(fineness), 0);
    let mut readings = Vec::new();
    for _ in 0..1 + random.below(3) {
        let place = random.below(4);
        let position = beside_point(random, fineness, &row_key(d, place)).unwrap_or(vec![0; d + 1]);
        let value = random.between(-3, 3) as i32;
        readings.push(entry(scene.numbers.another(random), &position, value));
    }
    let spare = Spare::some(random);
    let table = of_readings(random, (d, fineness), readings, spare);
    let queries = (0..8)
        .flat_map(|query| beside_point(random, fineness, table.key(query % table.head.points)))
        .flatten();
    let queries = queries.collect();
    check.filter(&table, &mut Sheets::lent(random, d, table.head.capacity, queries));
}

/// A row of neighbours: the kept coordinates of `number` times the step of pass 0.
fn row_key(d: usize, number: usize) -> Vec<i32> {
    let number = number as i32;
    (0..d)
        .map(|place| if place == 0 { -(d as i32) * number } else { number })
        .collect()
}
