//! Tables that are not sound, through every call that takes a table. A damage that surely breaks a clause must be
//! refused with 3; any other must be judged alike by both sides.

use crate::case::Case;
use crate::check::Check;
use crate::damage::DAMAGES;
use crate::positions::Scene;
use crate::random::Random;
use crate::sheets::Sheets;
use crate::sound::{any_sound, of_scene};
use crate::table::{Settings, Table, GREATEST_CAPACITY, GREATEST_READINGS};

/// One damage for each case, in turn.
pub fn damage_alone(case: &mut Case, check: &mut Check) {
    let random = &mut case.random;
    let damage = DAMAGES[case.number as usize % DAMAGES.len()];
    let most = if random.once_in(400) {
        400
    } else {
        random.pick(&[2, 4, 8, 20])
    };
    let (mut table, mut scene) = any_sound(random, most);
    let unsound = (damage.make)(random, &mut table);
    let number = some_call(random, check, &table, &mut scene);
    if unsound {
        check.tally.count_damage(damage.name);
    }
    check.expect(!unsound || number == 3, || {
        let name = damage.name;
        format!("a table with {name} was answered with {number}:\n  {table}")
    });
}

/// Several damages on one table.
pub fn damage_together(case: &mut Case, check: &mut Check) {
    let random = &mut case.random;
    let (mut table, mut scene) = any_sound(random, 8);
    for _ in 0..2 + random.below(2) {
        let damage = random.pick(DAMAGES);
        (damage.make)(random, &mut table);
    }
    some_call(random, check, &table, &mut scene);
}

/// One of the calls that take a table, with all else in order, and its number.
fn some_call(random: &mut Random, check: &mut Check, table: &Table, scene: &mut Scene) -> u8 {
    let (d, capacity) = (table.head.d, table.head.capacity);
    let count = random.below(3);
    match random.below(6) {
        0 => check.enter(&mut table.clone(), &scene.readings(random, count)).number,
        1 => {
            let source = of_scene(random, scene, 3);
            check.merge(&mut table.clone(), &source).number
        }
        2 => {
            // Room for all that the source could bring, so that nothing but 3 is there to refuse.
            let settings = Settings {
                d,
                fineness: table.head.fineness,
                capacity: GREATEST_CAPACITY.min(capacity + 1),
                room: GREATEST_READINGS.min(table.head.room + 1),
            };
            check.merge(&mut Table::empty(random, settings), table).number
        }
        3 => check.list(table, &mut vec![9; capacity]),
        4 => {
            let number = scene.numbers.earlier(random).unwrap_or(0);
            check.withdraw(&mut table.clone(), number).number
        }
        _ => {
            let queries = scene.queries(random, count);
            check.filter(table, &mut Sheets::lent(random, d, capacity, queries))
        }
    }
}
