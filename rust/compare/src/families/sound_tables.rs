//! The calls on sound tables: lists with faults at random places, shared points, other capacities and rooms, queries of
//! all kinds, points and readings in any order, and anything past them.

use crate::case::Case;
use crate::check::Check;
use crate::keys::some_fineness;
use crate::positions::{beside_point, Scene};
use crate::random::Random;
use crate::sheets::Sheets;
use crate::sound::{any_sound, of_readings, of_scene, Spare};
use crate::table::{change_length, Settings, Table, GREATEST_CAPACITY, GREATEST_READINGS};

/// Fresh tables of every setting, in range and out of it, in slices of right and wrong lengths.
pub fn fresh(case: &mut Case, check: &mut Check) {
    let random = &mut case.random;
    let settings = Settings {
        d: 1 + random.below(5),
        fineness: some_fineness(random),
        capacity: often_small(random, GREATEST_CAPACITY),
        room: often_small(random, GREATEST_READINGS),
    };
    let mut table = Table::lent(random, settings);
    match random.below(5) {
        0 => table.change_a_setting(random),
        1 => table.change_a_length(random),
        _ => {}
    }
    check.fresh(&mut table);
}

fn often_small(random: &mut Random, greatest: usize) -> usize {
    if random.once_in(20) {
        greatest - random.below(2)
    } else {
        1 + random.below(60)
    }
}

/// Lists of readings, some with faults, some not of whole items, into tables that are empty, filled or full.
pub fn enter(case: &mut Case, check: &mut Check) {
    let random = &mut case.random;
    let (mut table, scene) = any_sound(random, 10);
    let mut scene = scene.with_faults(random.pick(&[0, 0, 5, 20]));
    for _ in 0..3 {
        let count = random.below(8);
        let mut list = scene.readings(random, count);
        if random.once_in(12) {
            change_length(random, &mut list);
        }
        check.enter(&mut table, &list);
    }
}

/// Merges with shared points, other capacities and rooms, other settings, a copy of the target, and too little room.
/// The second time the target holds the source's numbers already.
pub fn merge(case: &mut Case, check: &mut Check) {
    let random = &mut case.random;
    let (mut target, mut scene) = any_sound(random, 10);
    let source = match random.below(8) {
        0 => target.clone(),
        1 | 2 => renumbered(random, &target, &mut scene),
        3 => any_sound(random, 10).0,
        4 => of_other_fineness(random, &target),
        _ => of_scene(random, &mut scene, 10),
    };
    check.merge(&mut target, &source);
    check.merge(&mut target, &source);
}

/// A table with the readings of another under other numbers, some left out: it has points of the other and none else.
pub fn renumbered(random: &mut Random, table: &Table, scene: &mut Scene) -> Table {
    let mut readings = table.readings();
    readings.retain(|_| random.below(4) > 0);
    for reading in &mut readings {
        reading[0] = scene.numbers.another(random);
    }
    let spare = Spare::some(random);
    of_readings(random, (table.head.d, table.head.fineness), readings, spare)
}

/// A table of the same dimension with another fineness.
fn of_other_fineness(random: &mut Random, table: &Table) -> Table {
    let fineness = 1 + table.head.fineness % 64;
    let mut scene = Scene::new(random, table.head.d, fineness, 0);
    of_scene(random, &mut scene, 6)
}

/// Lists of sound tables, in lists of right and wrong lengths.
pub fn list(case: &mut Case, check: &mut Check) {
    let random = &mut case.random;
    let most = random.pick(&[2, 12, 60]);
    let (table, _) = any_sound(random, most);
    list_of(random, check, &table);
}

/// Compares the list of a table, in a list full of random numbers, sometimes of another length.
pub fn list_of(random: &mut Random, check: &mut Check, table: &Table) {
    let mut list: Vec<u16> = (0..table.head.capacity).map(|_| random.bits() as u16).collect();
    if random.once_in(15) {
        change_length(random, &mut list);
    }
    check.list(table, &mut list);
}

/// Filters with queries of all kinds and with none, over points near one another and far apart.
pub fn filter(case: &mut Case, check: &mut Check) {
    let random = &mut case.random;
    let most = random.pick(&[2, 12, 30]);
    let (table, scene) = any_sound(random, most);
    let mut scene = scene.with_faults(random.pick(&[0, 6]));
    filter_of(random, check, &table, &mut scene);
}

/// Compares filter over a table with queries of the scene and beside stored points, sometimes with one lent slice of
/// another length.
pub fn filter_of(random: &mut Random, check: &mut Check, table: &Table, scene: &mut Scene) {
    let count = random.below(6);
    let mut queries = scene.queries(random, count);
    queries.extend(beside_points(random, table).concat());
    let mut sheets = Sheets::lent(random, table.head.d, table.head.capacity, queries);
    if random.once_in(10) {
        sheets.change_a_length(random);
    }
    check.filter(table, &mut sheets);
}

/// Up to six positions beside points of the table.
fn beside_points(random: &mut Random, table: &Table) -> Vec<Vec<i32>> {
    let count = if table.head.points == 0 { 0 } else { random.below(7) };
    let numbers: Vec<usize> = (0..count).map(|_| random.below(table.head.points)).collect();
    numbers
        .iter()
        .filter_map(|number| beside_point(random, table.head.fineness, table.key(*number)))
        .collect()
}

/// Readings beside points of the table, which need none or few new points.
pub fn readings_beside(random: &mut Random, table: &Table, scene: &mut Scene) -> Vec<i32> {
    let positions = beside_points(random, table);
    let readings = positions.iter().map(|position| scene.reading_at(random, position));
    readings.collect::<Vec<_>>().concat()
}
