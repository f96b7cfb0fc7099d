//! Holds a table to the readings that it should hold: the independent version adds them up in one sum without any table,
//! and the listing, the total and the answers must be those of the sum.

use crate::check::Check;
use crate::random::Random;
use crate::sheets::Sheets;
use crate::table::Table;
use independent::Store;

/// A table's points in listing order: all coordinates, mass and value sum.
pub type Listing = Vec<(Vec<i32>, i64, i64)>;

/// Compares the table with the sum of these readings, which need not be in the book's order.
pub fn compare(random: &mut Random, check: &mut Check, table: &Table, readings: &[Vec<i32>], queries: Vec<i32>) {
    let store = sum_of(table, readings);
    let listing = listing_of(random, check, table);
    check.expect(listing == store.listing(), || {
        told(readings, "listing", &listing, &store.listing())
    });
    let total: i64 = listing.iter().map(|(_, mass, _)| *mass).sum();
    let expected = table.weight_total() * readings.len() as i64;
    check.expect((total, store.total_mass()) == (expected, expected), || {
        told(readings, "total", &total, &store.total_mass())
    });
    compare_answers(random, check, table, &store, readings, queries);
}

fn sum_of(table: &Table, readings: &[Vec<i32>]) -> Store {
    let d = table.head.d;
    let mut store = Store::new(d, table.head.fineness);
    readings
        .iter()
        .for_each(|reading| store.add(&reading[1..d + 2], reading[d + 2]));
    store
}

/// The text of a disagreement between the table and the one sum.
fn told<T: std::fmt::Debug>(readings: &[Vec<i32>], what: &str, tables: &T, sum: &T) -> String {
    format!("{what} of the table {tables:?}\n  {what} of the one sum {sum:?}\n  readings {readings:?}")
}

/// The points of a table in the order that list tells; none where list refuses the table, which is noted.
pub fn listing_of(random: &mut Random, check: &mut Check, table: &Table) -> Listing {
    let mut list: Vec<u16> = (0..table.head.capacity).map(|_| random.bits() as u16).collect();
    let number = check.list(table, &mut list);
    check.expect(number == 0, || format!("list refused a sound table with {number}"));
    if number != 0 {
        return Listing::new();
    }
    let entry = |number: &u16| {
        let number = usize::from(*number);
        let mut coordinates = table.key(number).to_vec();
        coordinates.push(-coordinates.iter().sum::<i32>());
        (coordinates, table.sums[2 * number], table.sums[2 * number + 1])
    };
    list[..table.head.points].iter().map(entry).collect()
}

/// The answers are those of the one sum, and each is between the least and the greatest value entered.
fn compare_answers(
    random: &mut Random,
    check: &mut Check,
    table: &Table,
    store: &Store,
    readings: &[Vec<i32>],
    queries: Vec<i32>,
) {
    let mut sheets = Sheets::lent(random, table.head.d, table.head.capacity, queries);
    check.filter(table, &mut sheets);
    let answers = sheets.answers();
    let expected = store.answers(&sheets.queries);
    check.expect(answers == expected, || told(readings, "answers", &answers, &expected));
    let values = || readings.iter().map(|reading| reading[table.head.d + 2]);
    let (least, greatest) = (values().min().unwrap_or(0), values().max().unwrap_or(0));
    let within = answers
        .iter()
        .all(|(value, code)| *code != 0 || (least..=greatest).contains(value));
    check.expect(within, || {
        told(readings, "range", &(least, greatest), &(least, greatest))
    });
}
