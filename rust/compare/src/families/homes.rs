//! The index in any insertion order: keys with equal home places, searches that go round the end, and tables without
//! room, through every call.

use super::sound_tables::{filter_of, list_of, readings_beside, renumbered};
use crate::case::Case;
use crate::check::Check;
use crate::keys::{fineness_for, home_place, lattice_key, some_fineness};
use crate::positions::Scene;
use crate::random::Random;
use crate::sound::{at_points, of_readings, Spare};
use crate::table::{Settings, Table};
use std::collections::HashSet;

/// Different keys whose home places all are among the `span` places from `start` on, round the end.
fn keys_at_home(
    random: &mut Random,
    (d, capacity): (usize, usize),
    (start, span): (usize, usize),
    count: usize,
) -> Vec<Vec<i32>> {
    let mut seen = HashSet::new();
    let mut keys = Vec::with_capacity(count);
    // Near enough for queries beside the keys, and wider by and by: with d = 1 and a capacity that shares a divisor
    // with 2,531,011, small keys do not have every home place.
    let mut reach = if d == 1 { 3_000 } else { 60 };
    let greatest_reach = 900_000 / ((d + 1) * d) as i64;
    while keys.len() < count {
        let key = lattice_key(random, d, reach);
        let distance = (home_place(&key, capacity) + 2 * capacity - start) % (2 * capacity);
        if distance < span && seen.insert(key.clone()) {
            keys.push(key);
        } else if random.once_in(1_000) {
            reach = (2 * reach).min(greatest_reach);
        }
    }
    keys
}

/// All calls on a table of this capacity with just these points: list, filter, withdraw, a merge of its copy into an
/// empty table, and further readings.
fn every_call(random: &mut Random, check: &mut Check, (d, capacity): (usize, usize), keys: &[Vec<i32>]) {
    let fineness = fineness_for(random, keys);
    let mut scene = Scene::within(random, d, fineness, 4 * i64::from(fineness), 0);
    let spare = Spare {
        points: capacity - keys.len(),
        readings: random.pick(&[0, 3, 12]),
    };
    let mut table = at_points(random, &mut scene, keys, spare);
    list_of(random, check, &table);
    filter_of(random, check, &table, &mut scene);
    let settings = Settings {
        d,
        fineness,
        capacity: random.pick(&[capacity, capacity, 2 * capacity, table.head.points.max(2) - 1]),
        room: table.head.room + random.pick(&[0, 5]),
    };
    let mut target = Table::empty(random, settings);
    check.merge(&mut target, &table);
    let place = random.below(table.head.readings);
    let withdrawn = table.entry(place)[0];
    check.withdraw(&mut table, withdrawn);
    let list = readings_beside(random, &table, &mut scene);
    check.enter(&mut table, &list);
    let other = renumbered(random, &target, &mut scene);
    check.merge(&mut table, &other);
}

/// Keys that share a few home places, so that searches pass over one another.
pub fn equal_homes(case: &mut Case, check: &mut Check) {
    let random = &mut case.random;
    let d = 1 + random.below(5);
    let capacity = 4 + random.below(16);
    let (start, span) = (random.below(2 * capacity), 1 + random.below(3));
    let count = 2 + random.below(capacity - 2);
    let keys = keys_at_home(random, (d, capacity), (start, span), count);
    every_call(random, check, (d, capacity), &keys);
}

/// Keys whose home places are the last ones, so that searches go round the end.
pub fn round_the_end(case: &mut Case, check: &mut Check) {
    let random = &mut case.random;
    let d = 1 + random.below(5);
    let capacity = 3 + random.below(14);
    let count = 2 + random.below(capacity - 1);
    let keys = keys_at_home(random, (d, capacity), (2 * capacity - 2, 3), count);
    every_call(random, check, (d, capacity), &keys);
}

/// Tables with m = C, entered into and merged with points that they have already.
pub fn every_place_taken(case: &mut Case, check: &mut Check) {
    let random = &mut case.random;
    let (d, fineness) = (1 + random.below(5), some_fineness(random));
    let mut scene = Scene::within(random, d, fineness, 3 * i64::from(fineness), 0);
    let count = 1 + random.below(8);
    let readings = scene.sound_readings(random, count);
    let spare = Spare {
        points: 0,
        readings: 40,
    };
    let mut table = of_readings(random, (d, fineness), readings, spare);
    list_of(random, check, &table);
    filter_of(random, check, &table, &mut scene);
    // Readings at points that are stored have room in a full table.
    for _ in 0..3 {
        let list = readings_beside(random, &table, &mut scene);
        check.enter(&mut table, &list);
    }
    let source = renumbered(random, &table, &mut scene);
    check.merge(&mut table, &source);
}
