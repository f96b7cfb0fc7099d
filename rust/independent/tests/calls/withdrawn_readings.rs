//! After withdrawals a table must be as one that was only ever given the other readings: the same listing, total and
//! answers. Its memory is held to a model of ticket 8 over a list of points in stored order, where a point that leaves
//! is swapped with the last, and its index to that of merging the table into a fresh one.

use independent::Store;

use crate::table::Table;

/// Every table here has room for all points and readings.
const CAPACITY: usize = 256;
const ROOM: usize = 40;
/// How many readings a case starts with.
const READINGS: usize = 24;

/// A simple generator, the same in every run.
struct Random(u64);

impl Random {
    fn below(&mut self, bound: usize) -> usize {
        self.0 = self.0.wrapping_mul(6_364_136_223_846_793_005).wrapping_add(1);
        (self.0 >> 33) as usize % bound
    }

    fn within(&mut self, reach: i32) -> i32 {
        self.below(2 * reach as usize + 1) as i32 - reach
    }

    fn shuffle<T>(&mut self, items: &mut [T]) {
        for i in (1..items.len()).rev() {
            items.swap(i, self.below(i + 1));
        }
    }
}

/// The dimension, the fineness, and readings in the book's form in random order.
struct Case {
    d: usize,
    fineness: u32,
    readings: Vec<Vec<i32>>,
}

impl Case {
    /// Readings so near to each other that they share many points, but not all; the fewer dimensions, the wider they
    /// must lie for that. An odd factor makes their numbers differ, negative ones among them.
    fn new(random: &mut Random, d: usize, fineness: u32) -> Case {
        let reach = (1 + 12 / d as i32) * fineness as i32;
        let mut reading = |i: usize| {
            let kept: Vec<i32> = (0..d).map(|_| random.within(reach)).collect();
            let last = -kept.iter().sum::<i32>();
            let number = (i as i32).wrapping_mul(-1_640_531_527);
            [&[number], kept.as_slice(), &[last, random.within(1_000_000)]].concat()
        };
        let mut readings: Vec<_> = (0..READINGS).map(&mut reading).collect();
        random.shuffle(&mut readings);
        Case { d, fineness, readings }
    }

    /// A table that is given these readings and no others.
    fn table_of(&self, readings: &[Vec<i32>]) -> Table {
        let mut table = Table::fresh_with_spare(self.d, self.fineness, CAPACITY, ROOM);
        assert_eq!(table.enter(&readings.concat()).taken, readings.len());
        table
    }

    /// The table of all readings, the last ones merged from another.
    fn merged_table(&self, split: usize) -> Table {
        let (left, right) = self.readings.split_at(split);
        let mut table = self.table_of(left);
        assert_eq!(table.merge(&self.table_of(right)).number, 0);
        table
    }

    /// The points of these readings without any table.
    fn store_of(&self, readings: &[Vec<i32>]) -> Store {
        let mut store = Store::new(self.d, self.fineness);
        for reading in readings {
            store.add(&reading[1..self.d + 2], reading[self.d + 2]);
        }
        store
    }

    /// The positions of some readings, withdrawn or not, and one far from all.
    fn queries(&self) -> Vec<i32> {
        let positions = self.readings.iter().step_by(3).map(|reading| &reading[1..self.d + 2]);
        let mut queries: Vec<i32> = positions.flatten().copied().collect();
        queries.extend([-900_000, 900_000]);
        queries.extend(vec![0; self.d - 1]);
        queries
    }

    /// The table is sound, holds these readings in this order, and lists and answers as one never given another.
    fn assert_holds_only(&self, table: &Table, readings: &[Vec<i32>]) {
        assert!(table.is_sound());
        assert_eq!(table.head.readings, readings.len());
        assert_eq!(table.book[..readings.len() * (self.d + 3)], readings.concat());
        let never_given = self.table_of(readings);
        let store = self.store_of(readings);
        assert_eq!(table.listing(), never_given.listing());
        assert_eq!(table.listing(), store.listing());
        let total: i64 = rows(table).iter().map(|row| row.1).sum();
        assert_eq!(
            total,
            (self.d as i64 + 1) * i64::from(self.fineness) * readings.len() as i64
        );
        let answers = table.answers(&self.queries());
        assert_eq!(answers, never_given.answers(&self.queries()));
        assert_eq!(answers, store.answers(&self.queries()));
    }
}

/// A point's key, mass and value sum.
type Row = (Vec<i32>, i64, i64);

/// The points in stored order.
fn rows(table: &Table) -> Vec<Row> {
    let d = table.head.d;
    let row = |i: usize| {
        let key = table.keys[d * i..d * (i + 1)].to_vec();
        (key, table.sums[2 * i], table.sums[2 * i + 1])
    };
    (0..table.head.points).map(row).collect()
}

/// The points without those of one reading, `parts`, which come in ascending remainder.
fn rows_without(mut rows: Vec<Row>, parts: &[Row]) -> Vec<Row> {
    let place = |rows: &[Row], key: &[i32]| rows.iter().position(|row| row.0 == key).expect("the point is stored");
    for (key, mass, value_sum) in parts {
        let place = place(&rows, key);
        rows[place].1 -= mass;
        rows[place].2 -= value_sum;
    }
    for (key, ..) in parts {
        let place = place(&rows, key);
        if rows[place].1 == 0 {
            rows.swap_remove(place);
        }
    }
    rows
}

/// The index of entering a table's points afresh by number: a merge appends them so.
fn index_afresh(table: &Table) -> Vec<u16> {
    let mut fresh = Table::fresh(table.head.d, table.head.fineness, CAPACITY, ROOM);
    assert_eq!(fresh.merge(table).number, 0);
    fresh.index
}

/// The memory after a withdrawal from `before` of the one reading that `single` holds. Keys, sums and book are 0 where
/// something was vacated, and past the old ends as they were.
fn assert_memory(after: &Table, before: &Table, single: &Table) {
    let expected = rows_without(rows(before), &rows(single));
    assert_eq!(rows(after), expected);
    let vacated = |new: usize, old: usize, width: usize| (width * new..width * old, width * old..);
    let (points, d) = (before.head.points, before.head.d);
    let (zeros, spare) = vacated(expected.len(), points, d);
    assert!(after.keys[zeros].iter().all(|&number| number == 0));
    assert_eq!(after.keys[spare.clone()], before.keys[spare]);
    let (zeros, spare) = vacated(expected.len(), points, 2);
    assert!(after.sums[zeros].iter().all(|&number| number == 0));
    assert_eq!(after.sums[spare.clone()], before.sums[spare]);
    let readings = before.head.readings;
    let (zeros, spare) = vacated(readings - 1, readings, d + 3);
    assert!(after.book[zeros].iter().all(|&number| number == 0));
    assert_eq!(after.book[spare.clone()], before.book[spare]);
    assert_eq!(after.index, index_afresh(after));
}

/// Withdraws so many readings one by one. Tells how many points left and how many of the readings' points stayed.
fn withdraw_some(random: &mut Random, case: &Case, withdrawals: usize) -> (usize, usize) {
    let split = random.below(READINGS + 1);
    let mut table = case.merged_table(split);
    let mut others = case.readings.clone();
    let (mut left, mut stayed) = (0, 0);
    for _ in 0..withdrawals {
        let reading = others.remove(random.below(others.len()));
        let (before, single) = (table.clone(), case.table_of(std::slice::from_ref(&reading)));
        assert_eq!(table.withdraw(reading[0]).number, 0);
        assert_memory(&table, &before, &single);
        case.assert_holds_only(&table, &others);
        let gone = before.head.points - table.head.points;
        left += gone;
        stayed += single.head.points - gone;
    }
    (left, stayed)
}

#[test]
fn a_table_is_as_if_never_given_what_was_withdrawn() {
    let mut random = Random(2_024);
    for d in 1..=5 {
        for fineness in [1, 4, 64] {
            let case = Case::new(&mut random, d, fineness);
            let (left, stayed) = withdraw_some(&mut random, &case, 8);
            assert!(
                left > 0 && stayed > 0,
                "d = {d}, S = {fineness}: {left} left, {stayed} stayed"
            );
        }
    }
}

#[test]
fn all_readings_may_be_withdrawn() {
    let mut random = Random(7);
    for d in [1, 3] {
        let case = Case::new(&mut random, d, 3);
        withdraw_some(&mut random, &case, READINGS);
    }
}

#[test]
fn a_withdrawal_before_the_merge_counts_as_one_after_it() {
    let mut random = Random(88);
    for d in 1..=5 {
        let case = Case::new(&mut random, d, 5);
        let (left, right) = case.readings.split_at(10);
        let (mut target, mut source) = (case.table_of(left), case.table_of(right));
        assert_eq!(source.withdraw(right[4][0]).number, 0);
        assert_eq!(target.withdraw(left[9][0]).number, 0);
        assert_eq!(target.merge(&source).number, 0);
        let others = [&left[..9], &right[..4], &right[5..]].concat();
        case.assert_holds_only(&target, &others);
        // Made in the source only after the merge, a withdrawal does not count in the target.
        let (mut target, mut source) = (case.table_of(left), case.table_of(right));
        assert_eq!(target.merge(&source).number, 0);
        assert_eq!(source.withdraw(right[4][0]).number, 0);
        case.assert_holds_only(&target, &case.readings);
    }
}

#[test]
fn a_withdrawn_number_may_be_entered_again() {
    let mut random = Random(5_005);
    for d in 1..=5 {
        let case = Case::new(&mut random, d, 2);
        let mut table = case.merged_table(READINGS / 2);
        let mut others = case.readings.clone();
        let withdrawn = others.remove(random.below(READINGS));
        assert_eq!(table.enter(&withdrawn).number, 20);
        assert_eq!(table.withdraw(withdrawn[0]).number, 0);
        assert_eq!(table.enter(&withdrawn).taken, 1);
        others.push(withdrawn);
        case.assert_holds_only(&table, &others);
    }
}
