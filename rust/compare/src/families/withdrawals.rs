//! Readings taken back: at every place of the book, one after the other until none is left, with numbers that are not
//! held, and in histories of several tables. What is left must be as if the others had never been entered.

use super::one_sum;
use crate::case::Case;
use crate::check::Check;
use crate::keys::some_fineness;
use crate::logs::Log;
use crate::positions::Scene;
use crate::random::Random;
use crate::sound::{any_sound, of_scene};
use crate::table::{Settings, Table};

/// A reading from each place of the book in turn, each time from the same table. Once for a table the rest is held to a
/// table that was never given the reading.
pub fn every_place(case: &mut Case, check: &mut Check) {
    let random = &mut case.random;
    let (d, fineness) = (1 + random.below(5), some_fineness(random));
    // So near to each other that they share many points, but not all.
    let reach = random.between(1, 12) * i64::from(fineness);
    let mut scene = Scene::within(random, d, fineness, reach, 0);
    let table = of_scene(random, &mut scene, 8);
    let readings = table.readings();
    let looked_at = random.below(readings.len().max(1));
    for place in 0..readings.len() {
        let mut left = table.clone();
        let mut others = readings.clone();
        let withdrawn = others.remove(place);
        withdraw_held(check, &mut left, withdrawn[0], &others);
        if place == looked_at {
            let mut queries = scene.queries(random, 4);
            queries.extend(&withdrawn[1..d + 2]);
            compare_with_never_given(random, check, &left, &others, queries);
        }
    }
}

/// Withdraws a number that is held. The book is then that of the others.
fn withdraw_held(check: &mut Check, table: &mut Table, number: i32, others: &[Vec<i32>]) {
    let answer = check.withdraw(table, number);
    check.expect(answer.number == 0, || {
        format!("{number} is held, and refused with {}: {table}", answer.number)
    });
    check.expect(table.readings() == others, || {
        format!("without {number} the book should be {others:?}: {table}")
    });
}

/// The table against the one sum of the readings left, and against a table that they were entered into.
fn compare_with_never_given(
    random: &mut Random,
    check: &mut Check,
    table: &Table,
    others: &[Vec<i32>],
    queries: Vec<i32>,
) {
    one_sum::compare(random, check, table, others, queries);
    let settings = Settings {
        d: table.head.d,
        fineness: table.head.fineness,
        capacity: table.head.capacity,
        room: table.head.room,
    };
    let mut never_given = Table::empty(random, settings);
    check.enter(&mut never_given, &others.concat());
    let listings = [table, &never_given].map(|table| one_sum::listing_of(random, check, table));
    check.expect(listings[0] == listings[1], || {
        format!("listings differ from those of a table never given the reading: {listings:?}")
    });
}

/// All readings one after the other, in any order, with numbers between that are not held. Then they are entered again.
pub fn in_turn(case: &mut Case, check: &mut Check) {
    let random = &mut case.random;
    let (mut table, mut scene) = any_sound(random, 6);
    let mut others = table.readings();
    let all = others.clone();
    while !others.is_empty() {
        if random.once_in(3) {
            refused_with_19(random, check, &mut table, &mut scene);
        }
        let withdrawn = others.remove(random.below(others.len()));
        withdraw_held(check, &mut table, withdrawn[0], &others);
    }
    check.expect(table.head.points == 0, || format!("no reading is left: {table}"));
    check.expect(check_cleared(&table, &all), || format!("something is left: {table}"));
    refused_with_19(random, check, &mut table, &mut scene);
    let entered = check.enter(&mut table, &all.concat());
    check.expect(entered.taken == all.len(), || {
        format!("its room is not used again: {entered:?}, {table}")
    });
}

/// Nothing of these readings is left in the book, and the index is empty.
fn check_cleared(table: &Table, readings: &[Vec<i32>]) -> bool {
    let book = &table.book[..readings.len() * (table.head.d + 3)];
    book.iter().all(|number| *number == 0) && table.index.iter().all(|entry| *entry == 0)
}

/// A number that no reading of the table has: one never given, or one that stands elsewhere in the book.
fn refused_with_19(random: &mut Random, check: &mut Check, table: &mut Table, scene: &mut Scene) {
    let elsewhere = random.pick(&table.book);
    let held = table.readings().iter().any(|reading| reading[0] == elsewhere);
    let number = if held || random.once_in(2) {
        scene.numbers.never_given(random)
    } else {
        elsewhere
    };
    let answer = check.withdraw(table, number);
    check.expect(answer.number == 19, || {
        format!("{number} is not held, and answered with {}: {table}", answer.number)
    });
}

/// A table and the readings that it should hold, in the book's order.
struct Followed {
    table: Table,
    held: Vec<Vec<i32>>,
}

/// Tables that are entered into, withdrawn from, merged and loaded in any order. What each should hold is followed.
pub fn histories(case: &mut Case, check: &mut Check) {
    let random = &mut case.random;
    let (d, fineness) = (1 + random.below(5), some_fineness(random));
    let reach = random.between(1, 8) * i64::from(fineness);
    let mut scene = Scene::within(random, d, fineness, reach, 0);
    let mut tables: Vec<Followed> = (0..1 + random.below(3))
        .map(|_| Followed::fresh(random, check, (d, fineness)))
        .collect();
    for _ in 0..3 + random.below(8) {
        one_step(random, check, &mut scene, &mut tables);
    }
    for followed in &tables {
        let Followed { table, held } = followed;
        check.expect(table.readings() == *held, || {
            format!("the book should be {held:?}: {table}")
        });
    }
    let last = tables.swap_remove(random.below(tables.len()));
    let queries = scene.queries(random, 4);
    one_sum::compare(random, check, &last.table, &last.held, queries);
}

/// One call on one of the tables.
fn one_step(random: &mut Random, check: &mut Check, scene: &mut Scene, tables: &mut [Followed]) {
    let one = random.below(tables.len());
    match random.below(9) {
        0..=2 => tables[one].enter(random, check, scene),
        3..=5 => tables[one].withdraw(random, check, scene),
        6 => tables[one].load(random, check, scene),
        _ => {
            let source = tables[random.below(tables.len())].copied();
            tables[one].merge(check, &source);
        }
    }
}

impl Followed {
    fn fresh(random: &mut Random, check: &mut Check, (d, fineness): (usize, u32)) -> Followed {
        let settings = Settings {
            d,
            fineness,
            capacity: random.pick(&[8, 40, 120]),
            room: random.pick(&[4, 20, 40]),
        };
        let mut table = Table::lent(random, settings);
        check.fresh(&mut table);
        Followed {
            table,
            held: Vec::new(),
        }
    }

    fn copied(&self) -> Followed {
        Followed {
            table: self.table.clone(),
            held: self.held.clone(),
        }
    }

    fn enter(&mut self, random: &mut Random, check: &mut Check, scene: &mut Scene) {
        let count = random.below(5);
        let readings = scene.sound_readings(random, count);
        let entered = check.enter(&mut self.table, &readings.concat());
        self.held.extend_from_slice(&readings[..entered.taken]);
    }

    fn withdraw(&mut self, random: &mut Random, check: &mut Check, scene: &mut Scene) {
        if self.held.is_empty() {
            return refused_with_19(random, check, &mut self.table, scene);
        }
        let withdrawn = self.held.remove(random.below(self.held.len()));
        withdraw_held(check, &mut self.table, withdrawn[0], &self.held);
    }

    /// All of the source's readings come behind, or none does.
    fn merge(&mut self, check: &mut Check, source: &Followed) {
        if check.merge(&mut self.table, &source.table).number == 0 {
            self.held.extend_from_slice(&source.held);
        }
    }

    /// A log takes the place of what the table held. Its readings get the lowest number that is not held, or bring one.
    fn load(&mut self, random: &mut Random, check: &mut Check, scene: &mut Scene) {
        let head = self.table.head;
        let mut log = Log::of_settings(head.d, head.fineness, head.capacity);
        let mut readings = Vec::new();
        for _ in 0..random.below(4) {
            let mut reading = scene.sound_reading(random);
            if random.once_in(2) {
                log.numbered(&reading);
            } else {
                log.unnumbered(&reading);
                reading[0] = lowest_not_held(&readings);
                scene.numbers.note(reading[0]);
            }
            readings.push(reading);
        }
        let loaded = check.load(&log.bytes, &mut self.table);
        readings.truncate(loaded.head.readings);
        self.held = readings;
    }
}

/// The lowest number from 0 up that none of these few readings has.
fn lowest_not_held(readings: &[Vec<i32>]) -> i32 {
    let held = |number: &i32| readings.iter().any(|reading| reading[0] == *number);
    let mut numbers = 0..;
    numbers.find(|number| !held(number)).unwrap_or(i32::MAX)
}
