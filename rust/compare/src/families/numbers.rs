//! Numbers held already, in a list, in a merge and in a log, and books without room beside them: 20 comes before 7.

use crate::case::Case;
use crate::check::Check;
use crate::keys::some_fineness;
use crate::logs::Log;
use crate::positions::Scene;
use crate::random::Random;
use crate::sound::{of_readings, Spare};
use crate::table::{Settings, Table};

/// A scene near 0, where few points serve all readings: 8 seldom comes.
fn near_scene(random: &mut Random) -> Scene {
    let (d, fineness) = (1 + random.below(5), some_fineness(random));
    Scene::within(random, d, fineness, i64::from(fineness), 0)
}

/// Mostly few readings; many are there to crowd the search for a number.
fn some_count(random: &mut Random) -> usize {
    if random.once_in(60) {
        200 + random.below(200)
    } else {
        random.below(10)
    }
}

/// Lists in which a number comes twice, or is held by the table already, at any place; and books that are full there.
pub fn in_lists(case: &mut Case, check: &mut Check) {
    let random = &mut case.random;
    let mut scene = near_scene(random);
    let count = some_count(random);
    let held = scene.sound_readings(random, count);
    let count = some_count(random);
    let mut list = scene.sound_readings(random, count);
    let again: Vec<i32> = held.iter().chain(&list).map(|reading| reading[0]).collect();
    let place = random.below(list.len() + 1);
    if place < list.len() && random.below(3) > 0 {
        list[place][0] = random.pick(&again);
    }
    let spare = Spare {
        points: 60,
        readings: random.pick(&[list.len(), place, place + 1, place.max(1) - 1]),
    };
    let mut table = of_readings(random, (scene.d, scene.fineness), held, spare);
    let before: Vec<i32> = table.readings().iter().map(|reading| reading[0]).collect();
    let entered = check.enter(&mut table, &list.concat());
    let expected = expected_taken(&before, table.head.room, &list);
    check.expect(
        (entered.taken, entered.number) == expected || entered.number == 8,
        || format!("expected {expected:?}, entered {entered:?}, list {list:?}: {table}"),
    );
}

/// How many of these readings are taken into a book that holds such numbers, and the number of the first refused one,
/// where there is room for all points.
fn expected_taken(held: &[i32], room: usize, list: &[Vec<i32>]) -> (usize, u8) {
    let mut held: std::collections::HashSet<i32> = held.iter().copied().collect();
    for (taken, reading) in list.iter().enumerate() {
        if held.contains(&reading[0]) {
            return (taken, 20);
        }
        if held.len() == room {
            return (taken, 7);
        }
        held.insert(reading[0]);
    }
    (list.len(), 0)
}

/// Merges of books that have one number in common, or none, where the target has just room, or one too little.
pub fn in_merges(case: &mut Case, check: &mut Check) {
    let random = &mut case.random;
    let mut scene = near_scene(random);
    let (one, other) = (some_count(random), some_count(random));
    let held = scene.sound_readings(random, one);
    let mut merged = scene.sound_readings(random, other);
    let meet = one > 0 && other > 0 && random.once_in(2);
    if meet {
        merged[random.below(other)][0] = held[random.below(one)][0];
    }
    let spare = Spare {
        points: 60,
        readings: random.pick(&[other, other + 3, other.max(1) - 1]),
    };
    let room = one + spare.readings;
    let settings = (scene.d, scene.fineness);
    let mut target = of_readings(random, settings, held, spare);
    let source_spare = Spare::some(random);
    let source = of_readings(random, settings, merged, source_spare);
    let answer = check.merge(&mut target, &source);
    let expected = match () {
        () if meet => 20,
        () if one + other > room.max(1) => 7,
        () => 0,
    };
    check.expect(answer.number == expected || answer.number == 8, || {
        format!("expected {expected}: {answer:?}, {target}\n  and source {source}")
    });
}

/// Logs of readings with and without numbers near 0, so that those without get numbers that others bring later; in
/// books of any room.
pub fn in_logs(case: &mut Case, check: &mut Check) {
    let random = &mut case.random;
    let mut scene = near_scene(random);
    let mut log = Log::of_settings(scene.d, scene.fineness, 60);
    let count = some_count(random);
    let unnumbered_once_in = random.pick(&[2, 2, 3, 10]);
    for place in 0..count {
        let mut reading = scene.sound_reading(random);
        // Behind the numbers that are given by then, among them, or anywhere.
        let near = random.below(2 * place + 3) as i32;
        reading[0] = random.pick(&[near, count as i32 + place as i32, -1 - place as i32, reading[0]]);
        if random.once_in(unnumbered_once_in) {
            log.unnumbered(&reading);
        } else {
            log.numbered(&reading);
        }
    }
    let little = 1 + random.below(8);
    let settings = Settings {
        d: scene.d,
        fineness: scene.fineness,
        capacity: 60,
        room: random.pick(&[little, count.max(1), 400]),
    };
    check.load(&log.bytes, &mut Table::lent(random, settings));
    check.report(random, &log.bytes);
}
