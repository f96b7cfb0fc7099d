//! The refusals of the calls in their order, for tables of any numbers at all, and that a refused call has changed
//! nothing.

use independent::{enter, filter, fresh, list, merge, withdraw, Head};

use crate::table::{many_at, Table};

/// Settings so great that any product of them would overflow.
const GREATEST: Head = Head {
    d: usize::MAX,
    fineness: u32::MAX,
    capacity: usize::MAX,
    room: usize::MAX,
    readings: usize::MAX,
    points: usize::MAX,
};

#[test]
fn settings_out_of_range_are_1_before_any_length() {
    let most = usize::MAX;
    let answer = fresh(most, u32::MAX, most, most, &mut [], &mut [], &mut [], &mut []);
    assert_eq!((answer.number, answer.head.room, answer.head.points), (1, most, 0));
    let entered = enter(GREATEST, &mut [], &mut [], &mut [], &mut [], &[1]);
    assert_eq!((entered.taken, entered.number, entered.head), (0, 1, GREATEST));
    let answer = withdraw(GREATEST, &mut [], &mut [], &mut [], &mut [], 1);
    assert_eq!((answer.number, answer.head), (1, GREATEST));
    let (keys, sums, index, book) = (&mut [], &mut [], &mut [], &mut []);
    let answer = merge(GREATEST, keys, sums, index, book, GREATEST, &[], &[], &[], &[]);
    assert_eq!((answer.number, answer.head), (1, GREATEST));
    assert_eq!(list(GREATEST, &[], &[], &[], &[], &mut []), 1);
    let filtered = filter(GREATEST, &[], &[], &[], &[], &mut [], &mut [], &[1], &mut [], &mut []);
    assert_eq!(filtered, 1);
}

/// Makes the change in a worked table, and looks whether every call refuses it with this number and leaves it.
fn refused_with(number: u8, change: impl Fn(&mut Table)) {
    let mut table = Table::worked();
    change(&mut table);
    let before = table.clone();
    // 99 is not held and (41, -41) would be new: 19 and all numbers of a reading come later.
    for withdrawn in [7, 99] {
        assert_eq!(table.withdraw(withdrawn).number, number);
        assert_eq!(table, before);
    }
    for list in [&[][..], &[1, 41, -41, 0]] {
        let entered = table.enter(list);
        assert_eq!((entered.taken, entered.number), (0, number));
        assert_eq!(table, before);
    }
    let mut target = Table::fresh(1, 2, 8, 3);
    assert_eq!(target.merge(&table).number, number);
    assert_eq!(table.list(), Err(number));
    assert_eq!(table.filter(&[]).number, number);
    assert_eq!((target, table), (Table::fresh(1, 2, 8, 3), before));
}

#[test]
fn each_setting_counts() {
    refused_with(1, |table| table.head.d = 0);
    refused_with(1, |table| table.head.d = 6);
    refused_with(1, |table| table.head.fineness = 0);
    refused_with(1, |table| table.head.fineness = 65);
    refused_with(1, |table| table.head.capacity = 0);
    refused_with(1, |table| table.head.capacity = 8_193);
    refused_with(1, |table| table.head.room = 0);
    refused_with(1, |table| table.head.room = 4_097);
}

#[test]
fn each_of_the_four_lengths_counts_before_soundness() {
    let unsound = |table: &mut Table| table.sums[0] += 1;
    refused_with(3, unsound);
    let changes: [fn(&mut Table); 7] = [
        |table| table.keys.push(0),
        |table| table.sums.truncate(15),
        |table| table.index.push(0),
        |table| table.book.truncate(11),
        |table| table.book.push(9),
        |table| table.book.extend([9; 4]),
        |table| table.head.room = 4,
    ];
    for change in changes {
        refused_with(2, change);
        refused_with(2, |table| {
            unsound(table);
            change(table);
        });
    }
}

#[test]
fn a_list_that_is_not_whole_entries_is_2_before_3() {
    let mut table = Table::worked();
    let before = table.clone();
    assert_eq!(table.enter(&[1, 3, -3]).number, 2);
    assert_eq!(table, before);
    table.sums[0] += 1;
    assert_eq!(table.enter(&[1, 3, -3, 10, 2]).number, 2);
    assert_eq!(table.enter(&[]).number, 3);
    let entered = Table::worked().enter(&[]);
    assert_eq!((entered.taken, entered.number), (0, 0));
}

#[test]
fn a_list_of_another_length_is_2() {
    let table = Table::worked();
    let (keys, sums, index) = (&table.keys, &table.sums, &table.index);
    for length in [7, 9] {
        let mut points = vec![3; length];
        assert_eq!(list(table.head, keys, sums, index, &table.book, &mut points), 2);
        assert_eq!(points, vec![3; length]);
    }
}

#[test]
fn each_of_filters_lengths_counts() {
    let table = Table::worked();
    let number = |[first, second, queries, values, codes]: [usize; 5]| {
        filter(
            table.head,
            &table.keys,
            &table.sums,
            &table.index,
            &table.book,
            &mut vec![0; first],
            &mut vec![0; second],
            &vec![0; queries],
            &mut vec![0; values],
            &mut vec![0; codes],
        )
    };
    assert_eq!(number([16, 16, 4, 2, 2]), 0);
    let wrong = [
        [15, 16, 4, 2, 2],
        [16, 17, 4, 2, 2],
        [16, 16, 5, 2, 2],
        [16, 16, 4, 3, 2],
        [16, 16, 4, 2, 1],
    ];
    for lengths in wrong {
        assert_eq!(number(lengths), 2, "{lengths:?}");
    }
}

#[test]
fn counts_beyond_their_limits_are_3() {
    refused_with(3, |table| table.head.points = 9);
    refused_with(3, |table| table.head.points = usize::MAX);
    refused_with(3, |table| table.head.readings = 4);
    refused_with(3, |table| table.head.readings = 4_097);
    refused_with(3, |table| table.head.readings = usize::MAX);
}

#[test]
fn a_number_that_is_not_held_is_19() {
    let mut table = Table::worked();
    let before = table.clone();
    // 9 stands in the spare third entry, and 3, -2 and 4 stand in the book only as coordinates and value.
    for number in [0, 9, 3, -2, 4, i32::MIN] {
        let answer = table.withdraw(number);
        assert_eq!((answer.number, answer.head), (19, before.head), "{number}");
        assert_eq!(table, before);
    }
    assert_eq!(Table::fresh(1, 2, 8, 1).withdraw(0).number, 19);
    assert_eq!(table.withdraw(7).number, 0);
    assert_eq!(table.withdraw(7).number, 19);
}

#[test]
fn a_reading_is_judged_4_5_6_20_7_8() {
    // Both the book and the capacity are full, and 7 is held.
    let mut full = Table::fresh(1, 2, 2, 2);
    assert_eq!(full.enter(&[7, 3, -3, 10, -3, 2, -2, 4]).taken, 2);
    let before = full.clone();
    let cases = [
        ([7, 1_000_001, 0, 1_000_001], 4),
        ([7, 41, -40, 1_000_001], 5),
        ([7, 41, -41, 1_000_001], 6),
        ([7, 41, -41, 0], 20),
        ([-3, 3, -3, 0], 20),
        ([8, 41, -41, 0], 7),
        ([8, 3, -3, 0], 7),
    ];
    for (reading, number) in cases {
        let entered = full.enter(&reading);
        assert_eq!((entered.taken, entered.number), (0, number), "{reading:?}");
        assert_eq!(full, before);
    }
    let mut with_room = Table::fresh(1, 2, 2, 3);
    assert_eq!(with_room.merge(&full).number, 0);
    assert_eq!(with_room.enter(&[7, 41, -41, 0]).number, 20);
    assert_eq!(with_room.enter(&[8, 41, -41, 0]).number, 8);
    assert_eq!(with_room.enter(&[8, 3, -3, 0]).number, 0);
}

#[test]
fn a_number_taken_before_in_the_same_list_is_held() {
    let mut table = Table::worked();
    let entered = table.enter(&[1, 2, -2, 4, 1, 2, -2, 4]);
    assert_eq!((entered.taken, entered.number), (1, 20));
    assert_eq!(table.numbers(), [7, -3, 1]);
    // A refused reading's number is not held: the list is entered again from there.
    let mut table = Table::fresh(1, 2, 3, 3);
    assert_eq!(table.enter(&[1, 2, -2, 4, 2, 0, 1, 0]).number, 5);
    assert_eq!(table.enter(&[2, 0, 0, 0]).number, 0);
}

#[test]
fn what_stands_past_the_book_is_not_held() {
    let mut table = Table::worked();
    table.book[8] = 0;
    assert_eq!(table.enter(&[0, 2, -2, 4]).number, 0);
    assert_eq!(table.numbers(), [7, -3, 0]);
}

#[derive(Clone, Copy)]
enum Fault {
    None,
    Settings,
    Room,
    Length,
    BookLength,
    Unsound,
    BookUnsound,
}

/// The table of one reading under this number, with a fault.
fn faulty(number: i32, fault: Fault) -> Table {
    let mut table = Table::fresh(1, 2, 8, 3);
    assert_eq!(table.enter(&[number, 3, -3, 10]).taken, 1);
    match fault {
        Fault::None => {}
        Fault::Settings => table.head.fineness = 65,
        Fault::Room => table.head.room = 4_097,
        Fault::Length => table.keys.push(0),
        Fault::BookLength => table.book.push(0),
        Fault::Unsound => table.sums[0] = 0,
        Fault::BookUnsound => table.book[3] = 11,
    }
    table
}

#[test]
fn merge_tests_number_by_number_the_target_before_the_source() {
    let cases = [
        (Fault::None, Fault::None, 0),
        (Fault::Length, Fault::Settings, 1),
        (Fault::BookLength, Fault::Room, 1),
        (Fault::Settings, Fault::Length, 1),
        (Fault::Room, Fault::BookLength, 1),
        (Fault::Unsound, Fault::BookLength, 2),
        (Fault::BookUnsound, Fault::Length, 2),
        (Fault::BookLength, Fault::Unsound, 2),
        (Fault::Length, Fault::BookUnsound, 2),
        (Fault::BookUnsound, Fault::None, 3),
        (Fault::None, Fault::BookUnsound, 3),
        (Fault::Unsound, Fault::None, 3),
        (Fault::None, Fault::Unsound, 3),
    ];
    for (target, source, number) in cases {
        let mut target = faulty(1, target);
        let before = target.clone();
        assert_eq!(target.merge(&faulty(2, source)).number, number);
        assert_eq!(target == before, number != 0);
    }
}

#[test]
fn merge_tests_3_9_20_7_8() {
    // The target's book has room for one more and its capacity is full.
    let mut target = Table::fresh(1, 2, 2, 3);
    assert_eq!(target.enter(&[7, 3, -3, 10, -3, 2, -2, 4]).taken, 2);
    let source = |d: usize, fineness: u32, list: &[i32]| {
        let mut source = Table::fresh(d, fineness, 8, 8);
        assert_eq!(source.enter(list).number, 0);
        source
    };
    let mut unsound = source(2, 2, &[7, 2, 2, -4, 0]);
    unsound.book[0] += 1;
    unsound.book[4] += 1;
    let cases = [
        (unsound, 3),
        (source(1, 3, &[7, 3, -3, 0, 8, 9, -9, 0]), 9),
        (source(2, 2, &[7, 2, 2, -4, 0, 8, 4, 4, -8, 0]), 9),
        (source(1, 2, &[8, 41, -41, 0, 7, 81, -81, 0]), 20),
        (source(1, 2, &[-3, 3, -3, 0]), 20),
        (source(1, 2, &[8, 41, -41, 0, 9, 81, -81, 0]), 7),
        (source(1, 2, &[8, 41, -41, 0]), 8),
        (source(1, 2, &[8, 3, -3, 0]), 0),
    ];
    for (source, number) in cases {
        let mut merged = target.clone();
        let unread = source.clone();
        let answer = merged.merge(&source);
        assert_eq!(answer.number, number);
        assert_eq!(merged == target, number != 0);
        assert_eq!(source, unread);
    }
}

#[test]
fn the_room_of_a_merge_is_the_targets() {
    let worked = Table::worked();
    let mut small = Table::fresh(1, 2, 8, 1);
    assert_eq!(small.merge(&worked).number, 7);
    assert_eq!(small, Table::fresh(1, 2, 8, 1));
    // A table merged into itself would hold each number twice.
    assert_eq!(worked.clone().merge(&worked).number, 20);
    let empty = Table::fresh(1, 2, 8, 1);
    assert_eq!(empty.clone().merge(&empty).number, 0);
}

#[test]
fn a_merge_up_to_4096_readings_is_taken() {
    let mut target = Table::fresh(1, 2, 2, 4_096);
    assert_eq!(target.enter(&many_at(&[2, -2], 4, 4_094)).taken, 4_094);
    let mut source = Table::fresh(1, 2, 8, 2);
    assert_eq!(source.enter(&[-1, 3, -3, 10, -2, 2, -2, 4]).taken, 2);
    assert_eq!(target.merge(&source).number, 0);
    assert_eq!((target.head.readings, target.head.points), (4_096, 2));
    let mut one = Table::fresh(1, 2, 8, 1);
    assert_eq!(one.enter(&[-3, 2, -2, 4]).taken, 1);
    let full = target.clone();
    assert_eq!((target.merge(&one).number, target), (7, full));
}
