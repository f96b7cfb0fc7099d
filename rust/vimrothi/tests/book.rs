//! The book of a table and taking a reading back. A table that a reading was withdrawn from is compared with one that
//! was never given it: points, answers and the readings that are left. A book that was changed from outside is refused.

use vimrothi::{numbers, Head, Reading, Table};

/// Twelve readings of dimension d around the origin, so that many share points: their numbers are in no order.
fn readings(d: usize) -> Vec<Reading> {
    let mut state = 7 * d as i32;
    let mut draw = |reach: i32| {
        state = (state * 1_103 + 12_345) % 65_536;
        state % (2 * reach + 1) - reach
    };
    let numbers = [40, -3, 0, 7, i32::MAX, 12, -40, 1, i32::MIN, 4_099, 8_198, 2];
    let reading = |number| {
        let mut position: Vec<i32> = (0..d).map(|_| draw(5)).collect();
        position.push(-position.iter().sum::<i32>());
        Reading::new(number, position, draw(1_000))
    };
    numbers.map(reading).to_vec()
}

/// A table with these readings, of fineness 3.
fn table<'a>(d: usize, readings: impl IntoIterator<Item = &'a Reading>) -> Table {
    let mut table = Table::fresh(d, 3, 200, 20).unwrap();
    table.enter_all(readings).unwrap();
    table
}

/// The readings but one.
fn others(readings: &[Reading], left_out: usize) -> Vec<Reading> {
    [&readings[..left_out], &readings[left_out + 1..]].concat()
}

/// Tests that two tables hold the same readings in the same order, and have the same points and answers.
fn same(one: &Table, other: &Table) {
    assert_eq!(one.head(), other.head());
    assert_eq!(one.readings(), other.readings());
    assert_eq!(one.points(), other.points());
    let queries: Vec<i32> = readings(one.d())
        .into_iter()
        .flat_map(|reading| reading.position)
        .collect();
    assert_eq!(one.filter(&queries), other.filter(&queries));
}

#[test]
fn a_book_has_the_readings_in_order_of_entry() {
    for d in 1..=5 {
        let all = readings(d);
        let mut table = table(d, &all[..4]);
        assert_eq!(table.readings(), all[..4]);
        table.enter_all(&all[4..]).unwrap();
        assert_eq!(table.readings(), all);
    }
}

#[test]
fn a_withdrawn_reading_is_forgotten_wherever_it_stands() {
    for d in 1..=5 {
        let all = readings(d);
        for place in 0..all.len() {
            let mut left = table(d, &all);
            left.withdraw(all[place].number).unwrap();
            same(&left, &table(d, &others(&all, place)));
        }
    }
}

#[test]
fn a_withdrawn_reading_can_come_back_and_then_stands_last() {
    for d in 1..=5 {
        let all = readings(d);
        for place in 0..all.len() {
            let mut back = table(d, &all);
            back.withdraw(all[place].number).unwrap();
            back.enter_all([&all[place]]).unwrap();
            let behind = [others(&all, place), vec![all[place].clone()]].concat();
            same(&back, &table(d, &behind));
        }
    }
}

#[test]
fn readings_are_withdrawn_one_after_the_other_in_any_order_down_to_none() {
    for d in 1..=5 {
        let all = readings(d);
        // 5 and 12 have no common divisor, so this goes through all of them.
        let order: Vec<usize> = (0..all.len()).map(|i| 5 * i % all.len()).collect();
        let mut left = table(d, &all);
        for gone in 1..=order.len() {
            left.withdraw(all[order[gone - 1]].number).unwrap();
            let rest = (0..all.len()).filter(|place| !order[..gone].contains(place));
            same(&left, &table(d, rest.map(|place| &all[place])));
        }
        // What points and readings vacate is 0, so the memory is that of a fresh table.
        let fresh = Table::fresh(d, 3, 200, 20).unwrap();
        assert_eq!(left.into_parts(), fresh.into_parts());
    }
}

#[test]
fn a_merged_reading_is_withdrawn_from_the_whole() {
    for d in 1..=5 {
        let all = readings(d);
        let (mut ours, mut theirs) = (table(d, &all[..5]), table(d, &all[5..]));
        let mut whole = ours.clone();
        whole.merge(&theirs).unwrap();
        same(&whole, &table(d, &all));
        whole.withdraw(all[2].number).unwrap();
        whole.withdraw(all[8].number).unwrap();
        // Withdrawn in the parts before they are merged, they are not in the whole either.
        ours.withdraw(all[2].number).unwrap();
        theirs.withdraw(all[8].number).unwrap();
        ours.merge(&theirs).unwrap();
        same(&whole, &ours);
        // A withdrawal from a part that is merged already does not reach the whole.
        theirs.withdraw(all[5].number).unwrap();
        assert!(whole.readings().contains(&all[5]));
    }
}

#[test]
fn a_table_withdrawn_from_can_be_stored_and_go_on() {
    let all = readings(3);
    let mut left = table(3, &all[..8]);
    left.withdraw(all[0].number).unwrap();
    let (head, keys, sums, index, book) = left.into_parts();
    let mut again = Table::from_parts(head, keys, sums, index, book).unwrap();
    again.enter_all(&all[8..]).unwrap();
    same(&again, &table(3, &all[1..]));
}

/// What becomes of a table whose parts were changed: the number of the refusal, or 0.
fn judged(changed: impl FnOnce(&mut Head, &mut Vec<i64>, &mut Vec<i32>)) -> u8 {
    let (mut head, keys, mut sums, index, mut book) = table(3, &readings(3)).into_parts();
    changed(&mut head, &mut sums, &mut book);
    match Table::from_parts(head, keys, sums, index, book) {
        Ok(_) => numbers::DONE,
        Err(refusal) => refusal.number(),
    }
}

/// The numbers of an entry of dimension 3.
const WIDTH: usize = 6;

#[test]
fn a_book_that_is_not_the_tables_is_3() {
    for entry in (0..12).map(|place| place * WIDTH) {
        for place in entry + 1..entry + WIDTH {
            assert_eq!(
                judged(|_, _, book| book[place] += 1),
                3,
                "a coordinate or the value is another"
            );
        }
        let position = |book: &mut [i32], first: i32| {
            book[entry + 1] += first;
            book[entry + 2] -= first;
        };
        assert_eq!(judged(|_, _, book| position(book, 1)), 3, "another position");
        assert_eq!(
            judged(|_, _, book| position(book, 2_000_000)),
            3,
            "a coordinate beyond the limit"
        );
        assert_eq!(
            judged(|_, _, book| book[entry + 5] = i32::MIN),
            3,
            "a value beyond the limit"
        );
        let twin = (entry + WIDTH) % (12 * WIDTH);
        assert_eq!(judged(|_, _, book| book[twin] = book[entry]), 3, "two of one number");
    }
    assert_eq!(judged(|_, sums, _| sums[1] += 1), 3, "a value sum is another");
    // The masses still sum to W·n.
    assert_eq!(judged(|_, sums, _| (sums[0], sums[2]) = (sums[0] + 1, sums[2] - 1)), 3);
}

#[test]
fn a_count_that_is_not_the_books_is_3() {
    for count in [0, 11, 13, 20, 21, 4_096, usize::MAX] {
        assert_eq!(judged(|head, _, _| head.readings = count), 3, "{count} readings");
    }
}

#[test]
fn what_the_book_leaves_free_is_free() {
    assert_eq!(judged(|_, _, _| ()), 0);
    assert_eq!(judged(|_, _, book| book[0] = 5), 0, "another number that no other has");
    assert_eq!(
        judged(|_, _, book| book[..2 * WIDTH].rotate_left(WIDTH)),
        0,
        "two readings in the other order"
    );
    assert_eq!(
        judged(|_, _, book| book[12 * WIDTH..].fill(i32::MIN)),
        0,
        "past the last reading"
    );
}

#[test]
fn a_book_of_another_length_is_2() {
    assert_eq!(judged(|_, _, book| book.truncate(20 * WIDTH - 1)), 2);
    assert_eq!(judged(|_, _, book| book.push(0)), 2);
    assert_eq!(judged(|head, _, _| head.room = 12), 2);
    assert_eq!(
        judged(|head, _, book| (head.room, *book) = (12, book[..12 * WIDTH].to_vec())),
        0
    );
    assert_eq!(
        judged(|head, _, book| (head.room, *book) = (11, book[..11 * WIDTH].to_vec())),
        3
    );
    assert_eq!(judged(|head, _, _| head.room = 4_097), 1);
}
