//! Tables that come together in other orders, and tables that are stored and taken up again. Their points and answers
//! are compared with each other: the order in which readings and tables come does not matter.

use vimrothi::Table;

/// Five readings of dimension 2, around one place so that they share points. The numbers are in no order.
const READINGS: [[i32; 5]; 5] = [
    [7, 3, -1, -2, 120],
    [-1, 4, -2, -2, 80],
    [i32::MAX, 1, 1, -2, -35],
    [i32::MIN, 2, 2, -4, 7],
    [0, 5, -3, -2, 1_000_000],
];

const QUERIES: [i32; 9] = [3, -1, -2, 2, 0, -2, 4, -3, -1];

/// A table of these readings.
fn table(capacity: usize, readings: &[[i32; 5]]) -> Table {
    let mut table = Table::fresh(2, 2, capacity, 5).unwrap();
    table.enter(&readings.concat()).unwrap();
    table
}

/// Tests that two tables have the same points and answers.
fn same(one: &Table, other: &Table) {
    assert_eq!(one.readings_len(), other.readings_len());
    assert_eq!(one.points(), other.points());
    assert_eq!(one.filter(&QUERIES), other.filter(&QUERIES));
}

#[test]
fn readings_may_come_in_any_order_one_by_one_or_together() {
    let together = table(64, &READINGS);
    let mut backwards = Table::fresh(2, 2, 100, 4096).unwrap();
    for reading in READINGS.iter().rev() {
        backwards.enter_one(reading[0], &reading[1..4], reading[4]).unwrap();
    }
    same(&together, &backwards);
    assert_ne!(
        together.into_parts().1,
        backwards.into_parts().1,
        "stored in another order"
    );
}

#[test]
fn tables_may_be_merged_in_any_order() {
    let parts = [
        table(64, &READINGS[..2]),
        table(32, &READINGS[2..3]),
        table(50, &READINGS[3..]),
    ];
    for [first, second, third] in [[0, 1, 2], [2, 0, 1], [1, 2, 0], [2, 1, 0]] {
        let mut merged = parts[first].clone();
        merged.merge(&parts[second]).unwrap();
        merged.merge(&parts[third]).unwrap();
        same(&merged, &table(64, &READINGS));
        // The book is in order of entry, merged ones behind.
        let books = [first, second, third].map(|part| parts[part].readings());
        assert_eq!(merged.readings(), books.concat());
    }
}

#[test]
fn a_clone_is_a_table_of_its_own() {
    let kept = table(64, &READINGS[..4]);
    let mut grown = kept.clone();
    grown.enter_one(0, &[5, -3, -2], 1_000_000).unwrap();
    assert_eq!((kept.readings_len(), grown.readings_len()), (4, 5));
    same(&kept, &table(64, &READINGS[..4]));
}

#[test]
fn stored_parts_make_the_same_table_and_can_go_on() {
    let (head, keys, sums, index, book) = table(64, &READINGS[..4]).into_parts();
    let mut again = Table::from_parts(head, keys, sums, index, book).unwrap();
    assert_eq!(again.head(), head);
    again.enter(&READINGS[4]).unwrap();
    same(&again, &table(64, &READINGS));
}

#[test]
fn points_are_ascending_and_their_masses_sum_to_the_weights() {
    let table = table(64, &READINGS);
    let points = table.points();
    assert_eq!(points.len(), table.points_len());
    assert!(points.windows(2).all(|pair| pair[0].coordinates < pair[1].coordinates));
    assert!(points.iter().all(|point| point.coordinates.iter().sum::<i32>() == 0));
    // W = (d + 1)·S = 6 for each of the five readings.
    assert_eq!(points.iter().map(|point| point.mass).sum::<i64>(), 6 * 5);
}

#[test]
fn the_smallest_and_the_largest_settings_work() {
    for (d, fineness, capacity, room) in [(1, 1, 1, 1), (5, 64, 8192, 4096)] {
        let mut table = Table::fresh(d, fineness, capacity, room).unwrap();
        let origin = vec![0; d + 1];
        table.enter_one(7, &origin, -42).unwrap();
        assert_eq!(table.answer_at(&origin), Ok(-42));
        assert_eq!(table.points_len(), 1);
        table.withdraw(7).unwrap();
        assert_eq!((table.readings_len(), table.points_len()), (0, 0));
    }
}

#[test]
fn a_table_is_shown_by_its_head() {
    let shown = format!("{:?}", table(64, &READINGS[..1]));
    assert_eq!(
        shown,
        "Table { head: Head { d: 2, fineness: 2, capacity: 64, room: 5, readings: 1, points: 3 }, .. }"
    );
}
