//! Tables that become full: few places for points, so that 8 comes at every reading and at every point of one; books
//! without room, up to that of 4,096 readings, by load and by enter; and the greatest tables of all.

use super::logs::run_log;
use crate::case::Case;
use crate::check::Check;
use crate::keys::{at_point, lattice_key, some_fineness};
use crate::logs::Log;
use crate::positions::{anywhere, Scene, LIMIT};
use crate::random::Random;
use crate::sheets::Sheets;
use crate::sound::{of_points, of_readings, of_scene, Poured, Spare};
use crate::table::{Settings, Table, GREATEST_CAPACITY, GREATEST_READINGS};

/// Logs of small capacities.
pub fn full_logs(case: &mut Case, check: &mut Check) {
    let random = &mut case.random;
    let (d, fineness) = (1 + random.below(5), some_fineness(random));
    let mut log = Log::of_settings(d, fineness, 1 + random.below(16));
    let reach = i64::from(fineness) * random.between(1, 6);
    let fault_once_in = random.pick(&[0, 40]);
    let mut scene = Scene::within(random, d, fineness, reach, fault_once_in);
    for _ in 0..random.below(24) {
        log.any_item(random, &mut scene);
    }
    run_log(random, check, &log.bytes);
}

/// Tables of small capacities and rooms through enter, one list after the other. A refused reading leaves nothing of
/// itself.
pub fn full_tables(case: &mut Case, check: &mut Check) {
    let random = &mut case.random;
    let settings = Settings {
        d: 1 + random.below(5),
        fineness: some_fineness(random),
        capacity: 1 + random.below(16),
        room: 1 + random.below(16),
    };
    let mut table = Table::lent(random, settings);
    check.fresh(&mut table);
    let reach = i64::from(settings.fineness) * random.between(1, 6);
    let fault_once_in = random.pick(&[0, 40]);
    let mut scene = Scene::within(random, settings.d, settings.fineness, reach, fault_once_in);
    for _ in 0..1 + random.below(5) {
        let count = random.below(8);
        let list = scene.readings(random, count);
        check.enter(&mut table, &list);
    }
}

/// Books with room for the last few readings, in tables in which there is little room for points too. A book of 4,096
/// readings is rare, because it takes long.
pub fn last_readings(case: &mut Case, check: &mut Check) {
    let random = &mut case.random;
    let (d, fineness) = (1 + random.below(5), some_fineness(random));
    let room = if random.once_in(500) {
        GREATEST_READINGS
    } else {
        1 + random.below(24)
    };
    let left = random.below(6).min(room);
    let mut scene = Scene::within(random, d, fineness, 3 * i64::from(fineness), 0);
    let readings = scene.sound_readings(random, room - left);
    let spare = Spare {
        points: random.below(8),
        readings: left,
    };
    let mut table = of_readings(random, (d, fineness), readings, spare);
    let mut scene = scene.with_faults(random.pick(&[0, 6]));
    let count = random.below(8);
    let list = scene.readings(random, count);
    check.enter(&mut table, &list);
}

/// About 4,096 readings in one log and in one list. Such a log is longer than the program reads.
pub fn reading_limit(case: &mut Case, check: &mut Check) {
    let random = &mut case.random;
    let (d, fineness) = (1 + random.below(5), some_fineness(random));
    let count = random.pick(&[4_095, GREATEST_READINGS, 4_097, 4_097, 4_098]);
    let mut scene = Scene::within(random, d, fineness, 2 * i64::from(fineness), 0);
    let readings = scene.sound_readings(random, count);
    let mut log = Log::of_settings(d, fineness, 2_000);
    let numbered = random.once_in(2);
    for reading in &readings {
        if numbered {
            log.numbered(reading);
        } else {
            log.unnumbered(reading);
        }
    }
    if random.once_in(2) {
        // One more item that has faults of its own.
        let mut faulty = Scene::within(random, d, fineness, 9, 1);
        log.any_reading(random, &mut faulty);
    }
    let settings = Settings {
        d,
        fineness,
        capacity: 2_000,
        room: GREATEST_READINGS,
    };
    check.load(&log.bytes, &mut Table::lent(random, settings));
    let mut table = Table::empty(random, settings);
    check.enter(&mut table, &readings.concat());
}

/// Tables of 8,192 places that are full or nearly so, through every call.
pub fn greatest_tables(case: &mut Case, check: &mut Check) {
    let random = &mut case.random;
    // The first case is full of readings and of points at once, which with d = 1 alone needs all readings.
    let (d, fineness) = if case.number == 0 {
        (1, 2)
    } else {
        (1 + random.below(5), some_fineness(random))
    };
    let mut scene = Scene::within(random, d, fineness, LIMIT, 0);
    let mut table = widest_table(random, &mut scene);
    let mut list = vec![7; GREATEST_CAPACITY];
    check.list(&table, &mut list);
    let queries = Scene::within(random, d, fineness, 60, 4).queries(random, 8);
    check.filter(&table, &mut Sheets::lent(random, d, GREATEST_CAPACITY, queries));
    let settings = Settings {
        d,
        fineness,
        capacity: GREATEST_CAPACITY,
        room: GREATEST_READINGS,
    };
    let mut target = Table::empty(random, settings);
    check.merge(&mut target, &table);
    let source = of_scene(random, &mut scene, 4);
    check.merge(&mut target, &source);
    let place = random.below(table.head.readings);
    check.withdraw(&mut table, target.entry(place)[0]);
    let last = scene.readings(random, 3);
    check.enter(&mut table, &last);
}

/// A table of 8,192 points, or of 4,096 readings, or of both.
fn widest_table(random: &mut Random, scene: &mut Scene) -> Table {
    let (d, fineness) = (scene.d, scene.fineness);
    let mut poured = Poured::default();
    let mut readings = Vec::new();
    while readings.len() < GREATEST_READINGS && poured.points.len() < GREATEST_CAPACITY {
        let position = wide_position(random, (d, fineness), &poured);
        let reading = scene.reading_at(random, &position);
        poured.add(fineness, &reading);
        readings.push(reading);
    }
    if random.once_in(2) {
        // More readings at places that have their points already.
        for place in 0..GREATEST_READINGS - readings.len() {
            let position = readings[place][1..d + 2].to_vec();
            let reading = scene.reading_at(random, &position);
            poured.add(fineness, &reading);
            readings.push(reading);
        }
    }
    random.shuffle(&mut poured.points);
    let spare = Spare {
        points: GREATEST_CAPACITY - poured.points.len(),
        readings: GREATEST_READINGS - readings.len(),
    };
    of_points(random, (d, fineness), &readings, &poured.points, spare)
}

/// A far position all of whose d + 1 points are new, where so many still have room and one is found; otherwise one at a
/// single point.
fn wide_position(random: &mut Random, (d, fineness): (usize, u32), poured: &Poured) -> Vec<i32> {
    let room = GREATEST_CAPACITY - poured.points.len();
    for _ in 0..40 {
        let position = anywhere(random, d);
        if room > d && poured.new_points_at(fineness, &position) == d + 1 {
            return position;
        }
    }
    let reach = LIMIT / i64::from(fineness) / ((d + 1) * d) as i64 - 2;
    at_point(fineness, &lattice_key(random, d, reach))
}
