//! Several faults at once: the number that comes first in the documents' order must be told. Settings out of range stand
//! with wrong lengths, damage, other settings, numbers held already and no room; readings have several faults each.

use crate::case::Case;
use crate::check::Check;
use crate::damage::DAMAGES;
use crate::keys::some_fineness;
use crate::positions::Scene;
use crate::random::Random;
use crate::sheets::Sheets;
use crate::sound::{any_sound, of_readings, Spare};
use crate::table::{change_length, Table};

/// Puts random faults on a sound table: damage, then a wrong length, then settings out of range.
fn spoil(random: &mut Random, table: &mut Table, once_in: usize) {
    if random.once_in(once_in) {
        let damage = random.pick(DAMAGES);
        (damage.make)(random, table);
    }
    if random.once_in(once_in) {
        table.change_a_length(random);
    }
    if random.once_in(once_in) {
        table.change_a_setting(random);
    }
}

/// Fresh, enter, list, withdraw and filter with several faults. What they are lent besides the table is for the table
/// as it was before it was spoilt.
pub fn call_orders(case: &mut Case, check: &mut Check) {
    let random = &mut case.random;
    let (mut table, scene) = any_sound(random, 6);
    let mut scene = scene.with_faults(3);
    let capacity = table.head.capacity;
    spoil(random, &mut table, 3);
    match random.below(5) {
        0 => {
            check.fresh(&mut table);
        }
        1 => faulty_enter(random, check, &mut table, &mut scene),
        2 => faulty_list(random, check, &table, capacity),
        3 => {
            let held = scene.numbers.earlier(random).filter(|_| random.once_in(2));
            let number = held.unwrap_or_else(|| scene.numbers.never_given(random));
            check.withdraw(&mut table, number);
        }
        _ => faulty_filter(random, check, &table, capacity, &mut scene),
    }
}

fn faulty_enter(random: &mut Random, check: &mut Check, table: &mut Table, scene: &mut Scene) {
    let count = random.below(3);
    let mut list = scene.readings(random, count);
    if random.once_in(3) {
        change_length(random, &mut list);
    }
    check.enter(table, &list);
}

fn faulty_list(random: &mut Random, check: &mut Check, table: &Table, capacity: usize) {
    let mut list = vec![5; capacity];
    if random.once_in(3) {
        change_length(random, &mut list);
    }
    check.list(table, &mut list);
}

fn faulty_filter(random: &mut Random, check: &mut Check, table: &Table, capacity: usize, scene: &mut Scene) {
    let queries = scene.queries(random, 2);
    let mut sheets = Sheets::lent(random, scene.d, capacity, queries);
    if random.once_in(3) {
        sheets.change_a_length(random);
    }
    check.filter(table, &mut sheets);
}

/// Merges with faults on both sides: 1, 2 and 3 of the target and the source, with 9, 20, 7 and 8.
pub fn merge_orders(case: &mut Case, check: &mut Check) {
    let random = &mut case.random;
    let (d, fineness) = (1 + random.below(5), some_fineness(random));
    let mut scene = Scene::within(random, d, fineness, 4 * i64::from(fineness), 0);
    let mut target = crowded_table(random, &mut scene);
    if random.once_in(4) {
        // Another dimension or fineness, and any numbers.
        let (d, fineness) = (1 + random.below(5), some_fineness(random));
        scene = Scene::within(random, d, fineness, 4 * i64::from(fineness), 0);
    }
    let mut source = crowded_table(random, &mut scene);
    if random.once_in(4) && target.entered() > 0 && source.entered() > 0 {
        let number = target.entry(random.below(target.entered()))[0];
        source.entry_mut(0)[0] = number;
    }
    let once_in = random.pick(&[0, 0, 2, 5]);
    spoil(random, &mut target, once_in);
    spoil(random, &mut source, once_in);
    check.merge(&mut target, &source);
}

/// A small sound table with hardly any room for points or for readings, or for neither.
fn crowded_table(random: &mut Random, scene: &mut Scene) -> Table {
    let count = random.below(6);
    let readings = scene.sound_readings(random, count);
    let spare = Spare {
        points: random.pick(&[0, 2, 12, 40]),
        readings: random.pick(&[0, 2, 5]),
    };
    of_readings(random, (scene.d, scene.fineness), readings, spare)
}

/// Readings with several faults each, into tables that are full of readings, of points, of both or of neither.
pub fn reading_orders(case: &mut Case, check: &mut Check) {
    let random = &mut case.random;
    let (d, fineness) = (1 + random.below(5), some_fineness(random));
    let mut scene = Scene::within(random, d, fineness, 5 * i64::from(fineness), 0);
    let readings = scene.sound_readings(random, 6);
    let spare = Spare {
        points: random.pick(&[0, 0, 3, 30]),
        readings: random.pick(&[0, 1, 3, 10]),
    };
    let mut table = of_readings(random, (d, fineness), readings, spare);
    let mut scene = scene.with_faults(random.pick(&[2, 3, 0]));
    let list = scene.readings(random, 4);
    check.enter(&mut table, &list);
}
