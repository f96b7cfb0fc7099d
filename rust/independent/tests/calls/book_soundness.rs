//! What ticket 8 adds to soundness. Each table here that is refused keeps all of document 01's clauses, so that only the
//! book can refuse it; `soundness.rs` has unit tests of those clauses themselves.

use crate::table::{index_of, Table};

/// Refused with 3 by every call that takes a table, and from both sides of a merge, all without a change.
fn refused_for_its_book(table: &Table) -> bool {
    let mut tried = table.clone();
    let mut other = Table::fresh(1, 2, 8, 3);
    let numbers = [
        tried.withdraw(7).number,
        tried.withdraw(99).number,
        tried.enter(&[]).number,
        tried.merge(&other).number,
        other.merge(table).number,
        tried.list().err().unwrap_or(0),
        tried.filter(&[]).number,
    ];
    assert_eq!(tried, *table);
    assert_eq!(other, Table::fresh(1, 2, 8, 3));
    numbers == [3; 7]
}

fn worked_with(change: impl Fn(&mut Table)) -> Table {
    let mut table = Table::worked();
    change(&mut table);
    table
}

fn refused_with(change: impl Fn(&mut Table)) -> bool {
    refused_for_its_book(&worked_with(change))
}

#[test]
fn the_worked_table_is_sound_whatever_stands_past_its_readings_and_points() {
    let mut table = Table::worked();
    assert!(table.is_sound());
    table.keys[2..].fill(i32::MIN);
    table.sums[4..].fill(i64::MIN);
    table.book[8..].fill(i32::MIN);
    assert!(table.is_sound());
    table.book[8..].copy_from_slice(&[7, 3, -3, 10]);
    assert!(table.is_sound());
}

#[test]
fn sums_off_by_one_at_two_points() {
    assert!(refused_with(|table| table.sums[..4].copy_from_slice(&[3, 20, 5, 36])));
    assert!(refused_with(|table| table.sums[..4].copy_from_slice(&[2, 21, 6, 35])));
    assert!(refused_with(|table| table.sums[3] = 35));
}

#[test]
fn the_pairs_at_each_others_points() {
    assert!(refused_with(|table| table.sums[..4].copy_from_slice(&[6, 36, 2, 20])));
}

#[test]
fn equal_numbers() {
    assert!(refused_with(|table| table.book[4] = 7));
    assert!(worked_with(|table| table.book[4] = 8).is_sound());
}

#[test]
fn a_book_of_other_readings() {
    assert!(refused_with(|table| table.book[3] = 11));
    assert!(refused_with(|table| table.book[5..7].copy_from_slice(&[3, -3])));
    // In another order of entry the sums are the same.
    let turned_round = [-3, 2, -2, 4, 7, 3, -3, 10];
    assert!(worked_with(|table| table.book[..8].copy_from_slice(&turned_round)).is_sound());
}

#[test]
fn a_touched_point_that_is_missing() {
    // All of the mass and of the value sum is at (1, -1), and (2, -2) is not stored.
    let missing = |table: &mut Table| {
        table.head.points = 1;
        table.keys[0] = 1;
        table.sums[..2].copy_from_slice(&[8, 56]);
        table.index = index_of(16, &[(3, 1)]);
    };
    assert!(refused_with(missing));
}

#[test]
fn a_stored_point_that_no_reading_touches() {
    let too_many = |table: &mut Table| {
        table.head.points = 3;
        table.keys[2] = 4;
        table.sums[2..6].copy_from_slice(&[5, 36, 1, 0]);
        table.index[12] = 3;
    };
    assert!(refused_with(too_many));
}

#[test]
fn more_readings_than_the_room() {
    let with_room = |room: usize| {
        worked_with(|table| {
            table.head.room = room;
            table.book.truncate(4 * room);
        })
    };
    assert!(with_room(2).is_sound());
    assert!(refused_for_its_book(&with_room(1)));
}

/// One point (1, -1) with two readings at (2, -2), the first of this value and the second of value 0.
fn two_at_one_point(value: i32) -> Table {
    let mut table = Table::fresh(1, 2, 8, 3);
    assert_eq!(table.enter(&[7, 2, -2, 0, 8, 2, -2, 0]).taken, 2);
    table.book[3] = value;
    table.sums[1] = 4 * i64::from(value);
    table
}

#[test]
fn a_value_beyond_its_limit_that_another_reading_makes_up_for() {
    for value in [1_000_000, -1_000_000] {
        assert!(two_at_one_point(value).is_sound());
    }
    for value in [1_000_001, -1_000_001] {
        assert!(refused_for_its_book(&two_at_one_point(value)), "{value}");
    }
}

#[test]
fn a_coordinate_beyond_its_limit() {
    // With S = 64 the position (x, -x) is between the points 15625 and 15626: W is 128, and the weight of 15625 is
    // 128 - 2(x - 1000000), the rest being that of 15626. Both points are well within their own limits.
    let beyond = |x: i32| {
        let mut table = Table::fresh(1, 64, 8, 3);
        assert_eq!(table.enter(&[7, 1_000_000, -1_000_000, 0]).taken, 1);
        let weight = 2 * i64::from(x - 1_000_000);
        table.head.points = 2;
        table.keys[..2].copy_from_slice(&[15_625, 15_626]);
        table.sums[..4].copy_from_slice(&[128 - weight, 0, weight, 0]);
        // The homes are 3 times 15625 and 3 times 15626, modulo 16.
        table.index = index_of(16, &[(11, 1), (14, 2)]);
        table.book[1..3].copy_from_slice(&[x, -x]);
        table
    };
    assert!(refused_for_its_book(&beyond(1_000_001)));
    assert!(refused_for_its_book(&beyond(1_000_063)));
    // The same table with its reading moved one cell back is sound: 999937 is 63 below a million.
    let mut within = beyond(1_000_001);
    within.keys[..2].copy_from_slice(&[15_624, 15_625]);
    within.index = index_of(16, &[(8, 1), (11, 2)]);
    within.book[1..3].copy_from_slice(&[999_937, -999_937]);
    assert!(within.is_sound());
}

#[test]
fn a_reading_off_the_hyperplane() {
    assert!(refused_with(|table| table.book[1] = 4));
    assert!(refused_with(|table| table.book[1..3].fill(i32::MIN)));
    // d = 2: the spread of (2,2,-3) still gives the point (1,1,-2) a weight.
    let mut plane = Table::fresh(2, 2, 8, 3);
    assert_eq!(plane.enter(&[7, 2, 2, -4, 0]).taken, 1);
    assert!(plane.is_sound());
    plane.book[3] = -3;
    assert!(refused_for_its_book(&plane));
}
