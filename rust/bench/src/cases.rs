//! The cases: what each version does in a round. Verified and plain calls have the same signatures, so one maker
//! builds the round of both; the hashed version has a maker of its own.

use crate::hashed;
use crate::input::{self, bytes_of_both, reach_for, Generator, Numbering, FINENESS, SEED};
use crate::measure::{timed, Case, Round};
use crate::memory::{Enter, Filter, Fresh, List, Load, Memory, Merge, Report, Sheets, Withdraw};
use crate::plain;
use std::hint::black_box;
use vimrothi::calls::{self, REPORT_ROOM};
use vimrothi::numbers::NUMBER_NOT_HELD;

const CAPACITY: usize = 8192;
const ROOM: usize = 4096;

/// So many readings over a box of about 4,096 lattice points, some of which no reading meets.
fn spread_readings(d: usize, count: usize) -> Vec<i32> {
    Generator::new(SEED).readings(d, reach_for(d, 4096), count)
}

/// Readings that fill a table of so many points, half as many as the box has.
fn filling_readings(d: usize, points: usize) -> Vec<i32> {
    Generator::new(SEED).filling(d, reach_for(d, 2 * points), points)
}

fn hashed_holding(d: usize, capacity: usize, list: &[i32]) -> hashed::Table {
    let mut table = hashed::Table::fresh(d, FINENESS, capacity, ROOM);
    table.enter(list);
    table
}

/// The number of the reading in the middle of a list.
fn middle_number(d: usize, list: &[i32]) -> i32 {
    list[list.len() / (d + 3) / 2 * (d + 3)]
}

/// A number that no reading of the list has.
fn number_not_held(d: usize, list: &[i32]) -> i32 {
    let held = |number: &i32| list.chunks_exact(d + 3).any(|entry| entry[0] == *number);
    (0..).find(|number| !held(number)).expect("a list is shorter than that")
}

/// Readings entered into a fresh table of 8,192 places by one call.
pub fn enter_at_once(d: usize, count: usize) -> Case {
    let list = spread_readings(d, count);
    let points = Memory::holding(d, CAPACITY, ROOM, &list).head.points;
    Case {
        name: format!("enter {count} readings at once, d = {d} ({points} points)"),
        verified: enter_round(calls::enter, d, list.clone(), list.len()),
        plain: enter_round(plain::enter, d, list.clone(), list.len()),
        hashed: Some(hashed_enter_round(d, list.clone(), list.len())),
        untested: false,
    }
}

/// The same readings, by a call for each.
pub fn enter_one_at_a_time(d: usize, count: usize) -> Case {
    let list = spread_readings(d, count);
    Case {
        name: format!("enter {count} readings one at a time, d = {d}"),
        verified: enter_round(calls::enter, d, list.clone(), d + 3),
        plain: enter_round(plain::enter, d, list.clone(), d + 3),
        hashed: Some(hashed_enter_round(d, list, d + 3)),
        untested: true,
    }
}

/// Calls of so many numbers each, one after the other.
fn enter_round(enter: Enter, d: usize, list: Vec<i32>, numbers: usize) -> Round {
    let prepared = Memory::fresh(d, FINENESS, CAPACITY, ROOM);
    let mut table = prepared.clone();
    Box::new(move || {
        table.restore(&prepared);
        let work = || {
            for part in black_box(&list).chunks_exact(numbers) {
                table.enter(enter, part);
            }
            table.head.readings
        };
        timed(work, |readings| readings == list.len() / (d + 3))
    })
}

fn hashed_enter_round(d: usize, list: Vec<i32>, numbers: usize) -> Round {
    let mut table = hashed::Table::fresh(d, FINENESS, CAPACITY, ROOM);
    Box::new(move || {
        table.clear();
        let work = || {
            black_box(&list)
                .chunks_exact(numbers)
                .for_each(|part| table.enter(part));
            table.book.len()
        };
        timed(work, |readings| readings == list.len() / (d + 3))
    })
}

/// One reading more entered into a table of so many.
pub fn enter_one_more(d: usize, count: usize) -> Case {
    let list = spread_readings(d, count + 1);
    let (held, more) = list.split_at(count * (d + 3));
    let table = Memory::holding(d, CAPACITY, ROOM, held);
    let mut map = hashed_holding(d, CAPACITY, held);
    let (prepared, entry) = (map.clone(), more.to_vec());
    Case {
        name: format!("enter one reading into {count}, d = {d}"),
        verified: enter_more_round(calls::enter, table.clone(), more.to_vec()),
        plain: enter_more_round(plain::enter, table, more.to_vec()),
        hashed: Some(Box::new(move || {
            map.restore(&prepared);
            timed(|| map.enter(black_box(&entry)), |()| true)
        })),
        untested: true,
    }
}

fn enter_more_round(enter: Enter, prepared: Memory, list: Vec<i32>) -> Round {
    let mut table = prepared.clone();
    Box::new(move || {
        table.restore(&prepared);
        timed(
            || table.enter(enter, black_box(&list)),
            |entered| (entered.number, entered.taken) == (0, 1),
        )
    })
}

/// A source merged into a target which it fills: of the readings that fill 8,192 points the target has the first two
/// thirds, and the source the last two thirds, with numbers of its own.
pub fn merge_to_full(d: usize) -> Case {
    let mut generator = Generator::new(SEED);
    let list = generator.filling(d, reach_for(d, 2 * CAPACITY), CAPACITY);
    let third = list.len() / (d + 3) / 3 * (d + 3);
    let theirs = generator.renumbered(d, &list[third..]);
    merge(d, &list[..list.len() - third], &theirs)
}

/// A full table merged into a full one: all its points are shared, since there is room for no other. The source has the
/// target's readings, with numbers of its own.
pub fn merge_full(d: usize) -> Case {
    let mut generator = Generator::new(SEED);
    let list = generator.filling(d, reach_for(d, 2 * CAPACITY), CAPACITY);
    let theirs = generator.renumbered(d, &list);
    merge(d, &list, &theirs)
}

/// So many readings merged into a table of as many, over the same box.
pub fn merge_spread(d: usize, count: usize) -> Case {
    let list = spread_readings(d, 2 * count);
    let (ours, theirs) = list.split_at(count * (d + 3));
    merge(d, ours, theirs)
}

/// A table with these readings, into which one with those is merged.
fn merge(d: usize, ours: &[i32], theirs: &[i32]) -> Case {
    let target = Memory::holding(d, CAPACITY, ROOM, ours);
    let source = Memory::holding(d, CAPACITY, ROOM, theirs);
    let (into, from) = (target.head.points, source.head.points);
    let mut merged = target.clone();
    assert_eq!(
        merged.merge(calls::merge, &source).number,
        0,
        "a prepared merge is done"
    );
    let points = merged.head.points;
    let shared = into + from - points;
    let (n, m) = (source.head.readings, target.head.readings);
    Case {
        name: format!("merge {from} points of {n} readings into {into} of {m}, {shared} shared, d = {d}"),
        verified: merge_round(calls::merge, target.clone(), source.clone(), points),
        plain: merge_round(plain::merge, target, source, points),
        hashed: Some(hashed_merge_round(
            hashed_holding(d, CAPACITY, ours),
            hashed_holding(d, CAPACITY, theirs),
            points,
        )),
        untested: true,
    }
}

fn merge_round(merge: Merge, prepared: Memory, source: Memory, points: usize) -> Round {
    let mut table = prepared.clone();
    Box::new(move || {
        table.restore(&prepared);
        timed(
            || table.merge(merge, black_box(&source)),
            |answer| answer.number == 0 && answer.head.points == points,
        )
    })
}

fn hashed_merge_round(prepared: hashed::Table, source: hashed::Table, points: usize) -> Round {
    let mut table = prepared.clone();
    Box::new(move || {
        table.restore(&prepared);
        let work = || {
            table.merge(black_box(&source));
            table.pairs.len()
        };
        timed(work, |stored| stored == points)
    })
}

/// A full table tested for soundness, by entering no reading.
pub fn enter_nothing(d: usize, points: usize) -> Case {
    let table = Memory::holding(d, points, ROOM, &filling_readings(d, points));
    let readings = table.head.readings;
    Case {
        name: format!("enter no reading into {points} points of {readings} readings, d = {d}"),
        verified: nothing_round(calls::enter, table.clone()),
        plain: nothing_round(plain::enter, table),
        hashed: None,
        untested: false,
    }
}

fn nothing_round(enter: Enter, mut table: Memory) -> Round {
    Box::new(move || {
        let table = black_box(&mut table);
        timed(|| table.enter(enter, &[]), |entered| entered.number == 0)
    })
}

/// What every call on a table begins with, and one search more: a table of so many readings tested for soundness, by
/// withdrawing a number that it does not hold.
pub fn soundness(d: usize, count: usize) -> Case {
    let list = spread_readings(d, count);
    let table = Memory::holding(d, CAPACITY, ROOM, &list);
    let points = table.head.points;
    let number = number_not_held(d, &list);
    Case {
        name: format!("soundness of {count} readings and {points} points, d = {d}"),
        verified: soundness_round(calls::withdraw, table.clone(), number),
        plain: soundness_round(plain::withdraw, table, number),
        hashed: None,
        untested: false,
    }
}

fn soundness_round(withdraw: Withdraw, mut table: Memory, number: i32) -> Round {
    Box::new(move || {
        let table = black_box(&mut table);
        timed(
            || table.withdraw(withdraw, number),
            |answer| answer.number == NUMBER_NOT_HELD,
        )
    })
}

/// One of so many readings taken back, the one in the middle.
pub fn withdraw(d: usize, count: usize) -> Case {
    withdraw_middle(d, CAPACITY, &spread_readings(d, count))
}

/// One reading taken back from a full table of so many points.
pub fn withdraw_from_full(d: usize, points: usize) -> Case {
    withdraw_middle(d, points, &filling_readings(d, points))
}

fn withdraw_middle(d: usize, capacity: usize, list: &[i32]) -> Case {
    let table = Memory::holding(d, capacity, ROOM, list);
    let (readings, points) = (table.head.readings, table.head.points);
    let number = middle_number(d, list);
    let prepared = hashed_holding(d, capacity, list);
    let mut map = prepared.clone();
    Case {
        name: format!("withdraw one of {readings} readings, d = {d} ({points} points)"),
        verified: withdraw_round(calls::withdraw, table.clone(), number),
        plain: withdraw_round(plain::withdraw, table, number),
        hashed: Some(Box::new(move || {
            map.restore(&prepared);
            timed(|| map.withdraw(black_box(number)), |reading| reading.is_some())
        })),
        untested: true,
    }
}

fn withdraw_round(withdraw: Withdraw, prepared: Memory, number: i32) -> Round {
    let mut table = prepared.clone();
    Box::new(move || {
        table.restore(&prepared);
        timed(
            || table.withdraw(withdraw, black_box(number)),
            |answer| answer.number == 0,
        )
    })
}

/// The points of a full table listed.
pub fn list(d: usize, points: usize) -> Case {
    let readings = filling_readings(d, points);
    let table = Memory::holding(d, points, ROOM, &readings);
    let map = hashed_holding(d, points, &readings);
    Case {
        name: format!("list {points} points, d = {d}"),
        verified: list_round(calls::list, table.clone()),
        plain: list_round(plain::list, table),
        hashed: Some(Box::new(move || {
            timed(|| black_box(&map).list(), |list| list.len() == points)
        })),
        untested: true,
    }
}

fn list_round(list: List, table: Memory) -> Round {
    let mut order = vec![1; table.head.capacity];
    Box::new(move || {
        order.fill(1);
        timed(|| black_box(&table).list(list, &mut order), |number| number == 0)
    })
}

/// A full table filtered at so many queries, which lie where its readings do.
pub fn filter(d: usize, points: usize, count: usize) -> Case {
    let readings = filling_readings(d, points);
    let table = Memory::holding(d, points, ROOM, &readings);
    let map = hashed_holding(d, points, &readings);
    let queries = Generator::new(SEED + 1).queries(d, reach_for(d, 2 * points), count);
    let asked = queries.clone();
    Case {
        name: format!("filter {points} points, queries: {count}, d = {d}"),
        verified: filter_round(calls::filter, table.clone(), queries.clone()),
        plain: filter_round(plain::filter, table, queries),
        hashed: Some(Box::new(move || {
            timed(
                || black_box(&map).filter(black_box(&asked)),
                |answers| answers.len() == count,
            )
        })),
        untested: true,
    }
}

fn filter_round(filter: Filter, table: Memory, queries: Vec<i32>) -> Round {
    let count = queries.len() / (table.head.d + 1);
    let mut sheets = Sheets {
        first: vec![1; table.sums.len()],
        second: vec![1; table.sums.len()],
        values: vec![1; count],
        codes: vec![1; count],
    };
    Box::new(move || {
        sheets.first.fill(1);
        sheets.second.fill(1);
        timed(
            || black_box(&table).filter(filter, black_box(&queries), &mut sheets),
            |number| number == 0,
        )
    })
}

const LOG_D: usize = 3;
const LOG_CAPACITY: usize = 512;
const LOG_BYTES: usize = 16_384;

fn measured_log(numbering: Numbering) -> Vec<u8> {
    let reach = reach_for(LOG_D, 160);
    let mut generator = Generator::new(SEED);
    input::log(&mut generator, LOG_D, LOG_CAPACITY, reach, numbering, LOG_BYTES)
}

/// A log of 16 KB loaded, with numbered readings or without.
pub fn load(numbering: Numbering) -> Case {
    load_of(measured_log(numbering), LOG_CAPACITY, numbering)
}

/// A log of so many unnumbered readings loaded.
pub fn load_readings(count: usize) -> Case {
    let numbering = Numbering::None;
    let bytes = 5 + count * bytes_of_both(LOG_D, numbering);
    let reach = reach_for(LOG_D, 4096);
    let mut generator = Generator::new(SEED);
    let log = input::log(&mut generator, LOG_D, CAPACITY, reach, numbering, bytes);
    load_of(log, CAPACITY, numbering)
}

fn load_of(log: Vec<u8>, capacity: usize, numbering: Numbering) -> Case {
    let (table, queries) = hashed::load(&log, ROOM);
    let (readings, points) = (table.book.len(), table.pairs.len());
    let asked = queries.len() / (LOG_D + 1);
    let kind = if matches!(numbering, Numbering::All) {
        "numbered"
    } else {
        "unnumbered"
    };
    Case {
        name: format!(
            "load {} bytes, {readings} {kind} readings, {asked} queries, d = {LOG_D} ({points} points)",
            log.len()
        ),
        verified: load_round(calls::load, log.clone(), capacity),
        plain: load_round(plain::load, log.clone(), capacity),
        hashed: Some(Box::new(move || {
            timed(
                || hashed::load(black_box(&log), ROOM),
                |(table, _)| table.book.len() == readings,
            )
        })),
        untested: false,
    }
}

fn load_round(load: Load, log: Vec<u8>, capacity: usize) -> Round {
    let mut table = Memory::fresh(LOG_D, FINENESS, capacity, ROOM);
    Box::new(move || timed(|| table.load(load, black_box(&log), ROOM), |loaded| loaded.number == 0))
}

/// The report of the unnumbered one of these logs.
pub fn report() -> Case {
    let log = measured_log(Numbering::None);
    let length = hashed::report(&log).len();
    Case {
        name: format!("report of the log without numbers, {length} bytes written"),
        verified: report_round(calls::report, log.clone(), length),
        plain: report_round(plain::report, log.clone(), length),
        hashed: Some(Box::new(move || {
            timed(|| hashed::report(black_box(&log)), |text| text.len() == length)
        })),
        untested: false,
    }
}

fn report_round(report: Report, log: Vec<u8>, length: usize) -> Round {
    let mut out = vec![1; REPORT_ROOM];
    Box::new(move || timed(|| report(black_box(&log), &mut out), |written| written == length))
}

/// A fresh table of so many points made, with room for 4,096 readings.
pub fn fresh(d: usize, capacity: usize) -> Case {
    Case {
        name: format!("fresh of {capacity} points and {ROOM} readings, d = {d}"),
        verified: fresh_round(calls::fresh, d, capacity),
        plain: fresh_round(plain::fresh, d, capacity),
        hashed: None,
        untested: false,
    }
}

fn fresh_round(fresh: Fresh, d: usize, capacity: usize) -> Round {
    let mut table = Memory::fresh(d, FINENESS, capacity, ROOM);
    Box::new(move || {
        table.keys.fill(1);
        table.sums.fill(1);
        table.index.fill(1);
        table.book.fill(1);
        let table = black_box(&mut table);
        timed(|| table.clear(fresh), |answer| answer.number == 0)
    })
}
