//! What fresh, enter, merge, list, filter and load leave in lent memory, number for number.

use independent::{fresh, load, Head};

use crate::table::{index_of, many_at, Table};
use crate::worked_log::WORKED_LOG;

#[test]
fn fresh_fills_four_slices_with_0() {
    let table = Table::fresh(2, 3, 4, 2);
    let head = Head {
        d: 2,
        fineness: 3,
        capacity: 4,
        room: 2,
        readings: 0,
        points: 0,
    };
    assert_eq!(table.head, head);
    assert_eq!((table.keys, table.sums), (vec![0; 8], vec![0; 8]));
    assert_eq!((table.index, table.book), (vec![0; 8], vec![0; 10]));
}

/// A refused fresh call hands back what it was given, with n and m 0, and leaves all slices as they were.
fn fresh_refused([d, capacity, room]: [usize; 3], fineness: u32, lengths: [usize; 4]) -> u8 {
    let (mut keys, mut sums) = (vec![5; lengths[0]], vec![5; lengths[1]]);
    let (mut index, mut book) = (vec![5; lengths[2]], vec![5; lengths[3]]);
    let answer = fresh(d, fineness, capacity, room, &mut keys, &mut sums, &mut index, &mut book);
    let given = Head {
        d,
        fineness,
        capacity,
        room,
        readings: 0,
        points: 0,
    };
    assert_eq!(answer.head, given);
    assert!(keys.iter().chain(&book).all(|&number| number == 5));
    assert!(sums.iter().all(|&number| number == 5) && index.iter().all(|&number| number == 5));
    answer.number
}

#[test]
fn fresh_is_refused_with_1_then_2() {
    for settings in [[0, 4, 2], [6, 4, 2], [2, 0, 2], [2, 8_193, 2], [2, 4, 0], [2, 4, 4_097]] {
        assert_eq!(fresh_refused(settings, 3, [8, 8, 8, 10]), 1, "{settings:?}");
    }
    assert_eq!(fresh_refused([2, 4, 2], 65, [8, 8, 8, 10]), 1);
    assert_eq!(fresh_refused([usize::MAX; 3], u32::MAX, [0; 4]), 1);
    for lengths in [[7, 8, 8, 10], [8, 9, 8, 10], [8, 8, 7, 10], [8, 8, 8, 9], [8, 8, 8, 11]] {
        assert_eq!(fresh_refused([2, 4, 2], 3, lengths), 2, "{lengths:?}");
    }
}

#[test]
fn enter_writes_new_points_and_entries_and_nothing_past_them() {
    let table = Table::worked();
    assert_eq!((table.head.room, table.head.readings, table.head.points), (3, 2, 2));
    // Key 2 comes first: its remainder is 0. Home places are 6 and 3.
    assert_eq!(table.keys, [2, 1, 77, 77, 77, 77, 77, 77]);
    assert_eq!(table.sums[..4], [2, 20, 6, 36]);
    assert_eq!(table.sums[4..], [-77; 12]);
    assert_eq!(table.index, index_of(16, &[(6, 1), (3, 2)]));
    assert_eq!(table.book, [7, 3, -3, 10, -3, 2, -2, 4, 9, 9, 9, 9]);
}

#[test]
fn enter_stops_at_the_first_refused_reading_and_has_nothing_of_it() {
    let refused = [
        ([8, 1_000_001, -1, 0], 4),
        ([8, 5, -4, 2_000_000], 5),
        ([8, 5, -5, -1_000_001], 6),
        ([7, 5, -5, 0], 20),
        ([8, 41, -41, 0], 8),
    ];
    for (reading, number) in refused {
        let mut table = Table::fresh_with_spare(1, 2, 3, 3);
        let list = [&[7, 3, -3, 10][..], &reading, &[9, 2, -2, 4]].concat();
        let entered = table.enter(&list);
        assert_eq!((entered.taken, entered.number), (1, number), "{reading:?}");
        let mut expected = Table::fresh_with_spare(1, 2, 3, 3);
        expected.enter(&[7, 3, -3, 10]);
        assert_eq!(table, expected);
        assert_eq!(table.book, [7, 3, -3, 10, 9, 9, 9, 9, 9, 9, 9, 9]);
    }
}

#[test]
fn a_full_book_refuses_with_7_after_a_readings_own_numbers() {
    let mut table = Table::fresh(1, 1, 2, 4_096);
    assert_eq!(table.enter(&many_at(&[0, 0], -3, 4_096)).taken, 4_096);
    let before = table.clone();
    for (reading, number) in [
        ([4_096, 0, 0, 0], 7),
        ([4_096, 9, -9, 0], 7),
        ([4_095, 0, 0, 0], 20),
        ([-1, 0, 0, 1_000_001], 6),
        ([-1, 1, 0, 0], 5),
    ] {
        assert_eq!(table.enter(&reading).number, number);
        assert_eq!(table, before);
    }
    assert_eq!(table.withdraw(2_000).number, 0);
    assert_eq!(table.sums, [8_190, -24_570, 0, 0]);
    assert_eq!(table.book[4 * 4_094..], [4_095, 0, 0, -3, 0, 0, 0, 0]);
    assert_eq!(table.enter(&[2_000, 0, 0, 0]).taken, 1);
}

#[test]
fn merge_appends_new_points_and_entries_in_the_sources_order() {
    let mut source = Table::fresh(1, 2, 4, 2);
    assert_eq!(source.enter(&[9, 40, -40, 7, 2, 3, -3, 1]).taken, 2); // points 20, 2, 1
    let mut target = Table::fresh_with_spare(1, 2, 8, 4);
    assert_eq!(target.enter(&[5, 2, -2, 4]).taken, 1); // point 1
    let unread = source.clone();
    assert_eq!(target.merge(&source).number, 0);
    assert_eq!(source, unread);
    assert_eq!((target.head.room, target.head.readings, target.head.points), (4, 3, 3));
    assert_eq!(target.keys, [1, 20, 2, 77, 77, 77, 77, 77]);
    assert_eq!(target.sums[..6], [6, 18, 4, 28, 2, 2]);
    assert_eq!(target.sums[6..], [-77; 10]);
    // Home places: 3, 60 modulo 16 = 12, and 6.
    assert_eq!(target.index, index_of(16, &[(3, 1), (12, 2), (6, 3)]));
    assert_eq!(target.book[..8], [5, 2, -2, 4, 9, 40, -40, 7]);
    assert_eq!(target.book[8..], [2, 3, -3, 1, 9, 9, 9, 9]);
}

#[test]
fn a_merge_may_fill_the_targets_room_and_the_sources_may_be_any() {
    let worked = Table::worked();
    let mut target = Table::fresh(1, 2, 8, 2);
    assert_eq!(target.merge(&worked).number, 0);
    assert_eq!(target.numbers(), [7, -3]);
    assert_eq!(target.merge(&Table::fresh(1, 2, 1, 4_096)).number, 0);
    let mut greater = Table::fresh(1, 2, 2, 4_096);
    assert_eq!(greater.merge(&target).number, 0);
    assert_eq!(greater.listing(), worked.listing());
}

#[test]
fn list_fills_the_rest_with_0() {
    assert_eq!(Table::worked().list(), Ok(vec![1, 0, 0, 0, 0, 0, 0, 0]));
    let mut three = Table::fresh(1, 1, 4, 3);
    three.enter(&[1, 3, -3, 0, 2, -3, 3, 0, 3, 0, 0, 0]);
    assert_eq!(three.list(), Ok(vec![1, 2, 0, 0]));
}

#[test]
fn filter_leaves_blurred_pairs_in_stored_order() {
    let filtered = Table::worked().filter(&[3, -3, 100, -100, 1_000_001, 0, 5, -4]);
    assert_eq!(filtered.number, 0);
    assert_eq!(filtered.first[..4], [34, 244, 38, 260]);
    assert_eq!(filtered.first[4..], [0; 12]);
    assert_eq!(filtered.second, [0; 16]);
    assert_eq!(filtered.values, [7, 0, 0, 0]);
    assert_eq!(filtered.codes, [0, 10, 4, 5]);
}

#[test]
fn filter_without_queries_or_points_still_clears_the_sheets() {
    let filtered = Table::worked().filter(&[]);
    assert_eq!((filtered.number, &filtered.first[..4]), (0, &[34, 244, 38, 260][..]));
    assert_eq!(filtered.second, [0; 16]);
    let empty = Table::fresh(1, 2, 8, 1).filter(&[0, 0]);
    assert_eq!((empty.number, empty.values, empty.codes), (0, vec![0], vec![10]));
    assert_eq!((empty.first, empty.second), (vec![0; 16], vec![0; 16]));
}

#[test]
fn a_refused_filter_writes_nothing() {
    let mut unsound = Table::worked();
    unsound.book[3] += 1;
    let filtered = unsound.filter(&[3, -3]);
    assert_eq!(filtered.number, 3);
    assert_eq!((filtered.first, filtered.second), (vec![5; 16], vec![6; 16]));
    assert_eq!((filtered.values, filtered.codes), (vec![7], vec![8]));
}

#[test]
fn loading_holds_exactly_the_readings_before_the_refusal() {
    let mut log = WORKED_LOG;
    log[18] = 0x99;
    let mut table = Table::lent(1, 8, 3);
    let loaded = table.load(&log, 3);
    assert_eq!((loaded.number, loaded.offset), (12, 18));
    let mut expected = Table::fresh(1, 2, 8, 3);
    expected.enter(&[0, 3, -3, 10]);
    assert_eq!(table, expected);
}

#[test]
fn loading_without_accepted_settings_room_or_slices_leaves_memory() {
    let before = Table::lent(1, 8, 3);
    let mut table = before.clone();
    let mut bad_settings = WORKED_LOG;
    bad_settings[1] = 6;
    let mut refused = |log: &[u8], room: usize, number: u8| {
        let loaded = table.load(log, room);
        assert_eq!(
            (loaded.number, loaded.offset, loaded.head),
            (number, 0, Head::default())
        );
        assert_eq!(table, before);
    };
    refused(&bad_settings, 3, 1);
    for room in [0, 4_097, usize::MAX] {
        refused(&WORKED_LOG, room, 1);
        // The form of the first item is told before the room.
        refused(&WORKED_LOG[..4], room, 15);
        refused(&WORKED_LOG[5..], room, 13);
        refused(&[0x99], room, 12);
    }
    for room in [2, 4] {
        refused(&WORKED_LOG, room, 2);
    }
    let short = load(
        &WORKED_LOG,
        3,
        &mut table.keys[..7],
        &mut table.sums,
        &mut table.index,
        &mut table.book,
    );
    assert_eq!((short.number, short.offset, short.head), (2, 0, Head::default()));
    assert_eq!(table, before);
}
