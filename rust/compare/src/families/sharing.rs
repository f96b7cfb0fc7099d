//! Readings shared among several tables, entered in any order and merged in any order, against one sum of all of them
//! that the independent version keeps without any table: the listing, the total and the answers are the same.

use super::one_sum;
use crate::case::Case;
use crate::check::Check;
use crate::keys::some_fineness;
use crate::positions::Scene;
use crate::random::Random;
use crate::table::{Settings, Table};

/// One set of readings on both ways.
pub fn shared_readings(case: &mut Case, check: &mut Check) {
    let random = &mut case.random;
    let (d, fineness) = (1 + random.below(5), some_fineness(random));
    let reach = random.pick(&[3, 20, 200, 3_000]);
    let mut scene = Scene::within(random, d, fineness, reach, 0);
    let most = random.pick(&[3, 10, 20, 20, 60, 150]);
    let count = random.below(most + 1);
    let readings = scene.sound_readings(random, count);
    let tables = shared_tables(random, check, (d, fineness), &readings);
    let table = merged_in_any_order(random, check, tables);
    let queries = scene.queries(random, 6);
    one_sum::compare(random, check, &table, &readings, queries);
}

/// The readings dealt out to 1 to 5 tables of any capacities and rooms that suffice, and entered in any order.
fn shared_tables(
    random: &mut Random,
    check: &mut Check,
    (d, fineness): (usize, u32),
    readings: &[Vec<i32>],
) -> Vec<Table> {
    let mut order: Vec<&Vec<i32>> = readings.iter().collect();
    random.shuffle(&mut order);
    let count = 1 + random.below(5);
    let mut shares = vec![Vec::new(); count];
    order
        .into_iter()
        .for_each(|reading| shares[random.below(count)].push(reading.as_slice()));
    let mut table_of = |share: &Vec<&[i32]>| {
        let settings = Settings {
            d,
            fineness,
            capacity: 1 + (d + 1) * share.len() + random.below(40),
            room: 1 + share.len() + random.below(20),
        };
        let mut table = Table::lent(random, settings);
        check.fresh(&mut table);
        let entered = check.enter(&mut table, &share.concat());
        check.expect(entered.number == 0, || {
            format!("good readings were refused: {entered:?}, {share:?}")
        });
        table
    };
    shares.iter().map(&mut table_of).collect()
}

/// One table of all, by merging any two until one is left. A target without room gives way to a greater one.
fn merged_in_any_order(random: &mut Random, check: &mut Check, mut tables: Vec<Table>) -> Table {
    while tables.len() > 1 {
        let source = tables.swap_remove(random.below(tables.len()));
        let target = random.below(tables.len());
        if check.merge(&mut tables[target], &source).number != 0 {
            let (one, other) = (tables[target].head, source.head);
            let settings = Settings {
                d: one.d,
                fineness: one.fineness,
                capacity: one.points + other.points + random.below(9),
                room: one.readings + other.readings + random.below(9),
            };
            let mut greater = Table::empty(random, settings);
            check.merge(&mut greater, &tables[target]);
            check.merge(&mut greater, &source);
            tables[target] = greater;
        }
    }
    tables.swap_remove(0)
}
