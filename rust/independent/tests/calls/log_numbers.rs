//! Numbers of readings in a log: those that kinds 71 to 75 bring, and the lowest ones not held that the others get.

use independent::report;

use crate::table::Table;
use crate::worked_log::WORKED_LOG;

/// The item of these numbers.
fn item(kind: u8, numbers: &[i32]) -> Vec<u8> {
    let bytes = numbers.iter().flat_map(|number| number.to_le_bytes());
    [kind].into_iter().chain(bytes).collect()
}

/// A log of d = 1, S = 2, C = 8 and readings at (2, -2), each with this number or, at `None`, without one.
fn log_of(numbers: &[Option<i32>]) -> Vec<u8> {
    let reading = |number: &Option<i32>| match number {
        Some(number) => item(0x71, &[*number, 2, -2, 4]),
        None => item(0x11, &[2, -2, 4]),
    };
    let readings: Vec<Vec<u8>> = numbers.iter().map(reading).collect();
    [WORKED_LOG[..5].to_vec(), readings.concat()].concat()
}

/// The number and the offset of loading such a log into a table of this room, and the numbers that the table holds.
fn loaded(room: usize, numbers: &[Option<i32>]) -> (u8, usize, Vec<i32>) {
    let mut table = Table::lent(1, 8, room);
    let loaded = table.load(&log_of(numbers), room);
    (loaded.number, loaded.offset, table.numbers())
}

#[test]
fn a_numbered_reading_is_the_number_before_the_old_body() {
    for d in 1..=5 {
        let position: Vec<i32> = [30, -30].into_iter().chain([0; 4]).take(d + 1).collect();
        let numbers = [&[-9], position.as_slice(), &[12]].concat();
        let settings = [0x01, d as u8, 2, 8, 0].to_vec();
        let log = [settings, item(0x70 + d as u8, &numbers)].concat();
        let mut table = Table::lent(d, 8, 2);
        let loaded = table.load(&log, 2);
        assert_eq!((loaded.number, loaded.offset), (0, 5 + 1 + 4 * (d + 3)));
        let mut expected = Table::fresh(d, 2, 8, 2);
        assert_eq!(expected.enter(&numbers).taken, 1);
        assert_eq!(table, expected);
    }
}

#[test]
fn unnumbered_readings_get_the_lowest_number_not_held() {
    assert_eq!(loaded(4, &[None, None, None]), (0, 44, vec![0, 1, 2]));
    let given = [Some(1), None, Some(-4), None, Some(i32::MIN), None];
    assert_eq!(
        loaded(6, &given),
        (0, 5 + 3 * 17 + 3 * 13, vec![1, 0, -4, 2, i32::MIN, 3])
    );
    let given = [Some(2), Some(0), Some(3), None, None];
    assert_eq!(loaded(5, &given), (0, 5 + 3 * 17 + 2 * 13, vec![2, 0, 3, 1, 4]));
}

#[test]
fn a_later_number_may_be_held_already() {
    assert_eq!(loaded(4, &[None, None, Some(1)]), (20, 31, vec![0, 1]));
    assert_eq!(loaded(4, &[Some(5), None, Some(5)]), (20, 35, vec![5, 0]));
    // The table holds the readings before that place, in the log's order.
    assert_eq!(loaded(4, &[None, Some(0), None]), (20, 18, vec![0]));
}

#[test]
fn twenty_comes_before_seven_and_seven_above_the_room() {
    assert_eq!(loaded(2, &[None, None, Some(1)]), (20, 31, vec![0, 1]));
    assert_eq!(loaded(2, &[None, None, Some(2)]), (7, 31, vec![0, 1]));
    assert_eq!(loaded(2, &[None, None, None]), (7, 31, vec![0, 1]));
    assert_eq!(loaded(1, &[Some(-1), None]), (7, 22, vec![-1]));
}

#[test]
fn a_reading_is_judged_4_5_6_20() {
    let after_worked = |numbers: [i32; 4]| {
        let log = [&WORKED_LOG[..31], &item(0x71, &numbers)].concat();
        let loaded = Table::lent(1, 8, 2).load(&log, 2);
        (loaded.number, loaded.offset)
    };
    assert_eq!(after_worked([1, 1_000_001, 0, 1_000_001]), (4, 31));
    assert_eq!(after_worked([1, 41, -40, 1_000_001]), (5, 31));
    assert_eq!(after_worked([1, 41, -41, 1_000_001]), (6, 31));
    assert_eq!(after_worked([1, 41, -41, 0]), (20, 31));
    assert_eq!(after_worked([2, 41, -41, 0]), (7, 31));
}

#[test]
fn the_report_says_nothing_of_numbers_but_20() {
    let text = |numbers: &[Option<i32>]| String::from_utf8(report(&log_of(numbers))).expect("plain text");
    let two = "HEAD 1 2 2 1\nPOINT 1 -1 8 32\n";
    assert_eq!(text(&[None, None]), two);
    assert_eq!(text(&[Some(-7), Some(i32::MAX)]), two);
    assert_eq!(text(&[Some(3), Some(3)]), "REFUSED 20 22\n");
    assert_eq!(text(&[None, Some(0)]), "REFUSED 20 18\n");
}

#[test]
fn a_cut_numbered_reading_is_15_and_one_of_another_dimension_14() {
    let whole = log_of(&[Some(7)]);
    for length in 6..whole.len() {
        let loaded = Table::lent(1, 8, 1).load(&whole[..length], 1);
        assert_eq!((loaded.number, loaded.offset), (15, 5), "{length}");
    }
    let mut other = whole.clone();
    other[5] = 0x72;
    let loaded = Table::lent(1, 8, 1).load(&other, 1);
    assert_eq!((loaded.number, loaded.offset), (14, 5));
}
