//! Every kind of refusal, met through the safe crate: its number, its place and what it says. 11 is never met on a
//! sound table, and 16 is only printed, so of these two the words are tested.

use std::collections::HashSet;
use std::error::Error;
use std::ops::Range;

use vimrothi::{numbers, report, words, Head, LoadRefusal, Place, Reading, Refusal, Table};

/// Tests a refusal against a number, a place and the words that it is shown with.
fn met<T: std::fmt::Debug>(refused: Result<T, Refusal>, number: u8, place: Place, shown: &str) {
    let refusal = refused.unwrap_err();
    assert_eq!((refusal.number(), refusal.place()), (number, place));
    assert_eq!(refusal.to_string(), shown);
    assert_eq!(refusal.words(), words(number));
}

/// A table of dimension 1 and fineness 2, with the greatest room.
fn table(capacity: usize) -> Table {
    Table::fresh(1, 2, capacity, 4096).unwrap()
}

/// Readings of these numbers, all 4 at one position, as a list in the book's form.
fn readings(numbers: Range<i32>) -> Vec<i32> {
    numbers.flat_map(|number| [number, 2, -2, 4]).collect()
}

/// A table with readings of these numbers.
fn holding(numbers: Range<i32>) -> Table {
    let mut table = table(8);
    table.enter(&readings(numbers)).unwrap();
    table
}

/// The settings of dimension 1, fineness 2 and capacity 1, and then these bytes.
fn log(items: &[u8]) -> Vec<u8> {
    [b"\x01\x01\x02\x01\x00", items].concat()
}

#[test]
fn settings_out_of_range_are_1_and_take_no_memory() {
    let shown = "refused with 1: d, S, C or B out of range";
    let most = usize::MAX;
    for (d, fineness, capacity) in [
        (0, 2, 8),
        (6, 2, 8),
        (1, 0, 8),
        (1, 65, 8),
        (1, 2, 0),
        (1, 2, 8193),
        (1, 2, most),
    ] {
        met(Table::fresh(d, fineness, capacity, 4), 1, Place::WholeCall, shown);
    }
    for room in [0, 4097, most] {
        met(Table::fresh(1, 2, 8, room), 1, Place::WholeCall, shown);
    }
    met(Table::fresh(most, u32::MAX, most, most), 1, Place::WholeCall, shown);
}

#[test]
fn lists_that_are_not_whole_items_are_2() {
    let shown = "refused with 2: a lent slice has another length than the settings give, or a list isn't whole items";
    let mut table = holding(0..1);
    // Without its number a reading is no whole item.
    met(table.enter(&[2, -2, 4]), 2, Place::WholeCall, shown);
    met(table.enter(&[1, 2, -2, 4, 2]), 2, Place::WholeCall, shown);
    met(table.filter(&[2, -2, 4]), 2, Place::WholeCall, shown);
    // Two positions, or a reading and a half of another, are not one position.
    met(table.answer_at(&[2, -2, 2, -2]), 2, Place::WholeCall, shown);
    met(table.enter_one(1, &[2, -2, 4, 2, 2, -2], 4), 2, Place::WholeCall, shown);
    met(table.enter_one(1, &[], 4), 2, Place::WholeCall, shown);
    assert_eq!(table.readings_len(), 1);
}

#[test]
fn parts_are_refused_with_1_2_and_3() {
    let (head, keys, sums, index, book) = holding(0..1).into_parts();
    let again = |head: Head, sums: Vec<i64>| Table::from_parts(head, keys.clone(), sums, index.clone(), book.clone());
    assert_eq!(again(head, sums.clone()).unwrap().head(), head);

    let (mut wild, mut roomless) = (head, head);
    wild.d = usize::MAX;
    roomless.room = 0;
    for out_of_range in [wild, roomless] {
        met(
            again(out_of_range, sums.clone()),
            1,
            Place::WholeCall,
            "refused with 1: d, S, C or B out of range",
        );
    }
    assert_eq!(again(head, sums[1..].to_vec()).unwrap_err().number(), 2);
    let mut narrow = head;
    narrow.room -= 1;
    assert_eq!(again(narrow, sums.clone()).unwrap_err().number(), 2);
    let unsound = "refused with 3: the table is not sound";
    let miscounted = head.with_counts(2, head.points);
    met(again(miscounted, sums.clone()), 3, Place::WholeCall, unsound);
    met(again(head, vec![i64::MAX; sums.len()]), 3, Place::WholeCall, unsound);
}

#[test]
fn readings_are_refused_with_4_5_and_6() {
    let refused = [
        (
            [0, 1_000_001, 0, 4],
            4,
            "refused with 4 at reading 1: a coordinate is beyond ±1,000,000",
        ),
        (
            [0, 5, -4, 4],
            5,
            "refused with 5 at reading 1: the coordinates don't sum to 0",
        ),
        (
            [0, 2, -2, -1_000_001],
            6,
            "refused with 6 at reading 1: a value is beyond ±1,000,000",
        ),
    ];
    for (reading, number, shown) in refused {
        let mut table = table(8);
        // Its number is held, by the reading before it; 20 comes after these.
        let list = [&[0, 2, -2, 4], &reading[..], &[1, 2, -2, 4]].concat();
        met(table.enter(&list), number, Place::Reading(1), shown);
        assert_eq!(table.readings_len(), 1);
    }
}

#[test]
fn a_number_that_is_held_is_20() {
    let mut held = holding(0..3);
    let shown = "refused with 20 at reading 1: number held already";
    met(held.enter(&[3, 2, -2, 4, 2, 3, -3, 4]), 20, Place::Reading(1), shown);
    // The numbers of the same list count.
    met(held.enter(&[-1, 2, -2, 4, -1, 2, -2, 4]), 20, Place::Reading(1), shown);
    let shown = "refused with 20 at reading 0: number held already";
    met(held.enter_one(0, &[2, -2], 4), 20, Place::Reading(0), shown);
    let numbers: Vec<i32> = held.readings().iter().map(|reading| reading.number).collect();
    assert_eq!((numbers, held.points_len()), (vec![0, 1, 2, 3, -1], 1));

    // 20 comes before 7 and 8: the book is full, and the new points have no room.
    let mut full = Table::fresh(1, 2, 1, 1).unwrap();
    full.enter_one(0, &[2, -2], 4).unwrap();
    met(full.enter_one(0, &[3, -3], 4), 20, Place::Reading(0), shown);
    let shown = "refused with 7 at reading 0: more than B readings would be held";
    met(full.enter_one(1, &[3, -3], 4), 7, Place::Reading(0), shown);
}

#[test]
fn a_reading_too_many_is_7() {
    for room in [1, 3, 4096] {
        let mut full = Table::fresh(1, 2, 8, room).unwrap();
        let shown = format!("refused with 7 at reading {room}: more than B readings would be held");
        met(full.enter(&readings(0..4097)), 7, Place::Reading(room), &shown);
        assert_eq!((full.readings_len(), full.room()), (room, room));
        let shown = "refused with 7 at reading 0: more than B readings would be held";
        met(full.enter_one(-1, &[2, -2], 4), 7, Place::Reading(0), shown);
        // What is withdrawn leaves room.
        full.withdraw(0).unwrap();
        full.enter_one(-1, &[2, -2], 4).unwrap();
    }
}

#[test]
fn a_point_too_many_is_8() {
    let mut small = table(1);
    // (2, -2) has one point of weight above 0, (3, -3) has two.
    let shown = "refused with 8 at reading 1: more than C points would be stored";
    met(small.enter(&[0, 2, -2, 4, 1, 3, -3, 10]), 8, Place::Reading(1), shown);
    assert_eq!((small.readings_len(), small.points_len()), (1, 1));
}

#[test]
fn merges_are_refused_with_9_20_7_and_8_and_change_nothing() {
    let shown = "refused with 9: merge: d or S differ";
    for (d, fineness) in [(2, 2), (1, 3)] {
        let mut other = Table::fresh(d, fineness, 8, 4).unwrap();
        // It has a number of the target's, and 9 comes before 20.
        other.enter_one(0, &vec![0; d + 1], 4).unwrap();
        met(holding(0..1).merge(&other), 9, Place::WholeCall, shown);
    }

    let mut full = holding(0..4000);
    let points = full.points();
    let shown = "refused with 20: number held already";
    met(full.merge(&holding(3999..4500)), 20, Place::WholeCall, shown);
    let shown = "refused with 7: more than B readings would be held";
    met(full.merge(&holding(4000..4097)), 7, Place::WholeCall, shown);
    assert_eq!((full.readings_len(), full.points()), (4000, points));
    full.merge(&holding(4000..4096)).unwrap();
    assert_eq!(full.readings_len(), 4096);

    let (mut small, mut source) = (table(1), table(8));
    source.enter_one(0, &[3, -3], 10).unwrap();
    let shown = "refused with 8: more than C points would be stored";
    met(small.merge(&source), 8, Place::WholeCall, shown);
    assert_eq!((small.readings_len(), small.points_len()), (0, 0));
}

#[test]
fn a_merge_asks_the_targets_room_and_not_the_sources() {
    let mut narrow = Table::fresh(1, 2, 8, 2).unwrap();
    narrow.merge(&holding(0..2)).unwrap();
    let shown = "refused with 7: more than B readings would be held";
    met(narrow.merge(&holding(2..3)), 7, Place::WholeCall, shown);
    let mut wide = holding(2..3);
    wide.merge(&narrow).unwrap();
    assert_eq!((wide.readings_len(), wide.room()), (3, 4096));
}

#[test]
fn queries_are_refused_with_4_5_and_10() {
    let answers = holding(0..1).filter(&[2, -2, 0, -1_000_001, 5, -4, 100, -100]).unwrap();
    assert_eq!(answers.len(), 4);
    assert_eq!(answers[0], Ok(4));
    let beyond = "refused with 4 at query 1: a coordinate is beyond ±1,000,000";
    met(answers[1], 4, Place::Query(1), beyond);
    met(
        answers[2],
        5,
        Place::Query(2),
        "refused with 5 at query 2: the coordinates don't sum to 0",
    );
    let far = "refused with 10 at query 3: no stored point has weight above 0 for the query";
    met(answers[3], 10, Place::Query(3), far);
}

#[test]
fn items_of_a_log_are_refused_with_12_to_15() {
    let refused = [
        (&b"\x10"[..], 12, "refused with 12 at byte 5: log: kind byte not listed"),
        (b"\x70", 12, "refused with 12 at byte 5: log: kind byte not listed"),
        (b"\x76", 12, "refused with 12 at byte 5: log: kind byte not listed"),
        (
            b"\x01",
            13,
            "refused with 13 at byte 5: log: settings not first, or met again",
        ),
        (
            b"\x12",
            14,
            "refused with 14 at byte 5: log: item of another dimension than the settings",
        ),
        (
            b"\x72",
            14,
            "refused with 14 at byte 5: log: item of another dimension than the settings",
        ),
        (b"\x11\x02\x00", 15, "refused with 15 at byte 5: log: body cut short"),
        // One byte short of a numbered reading, and as long as an unnumbered one.
        (
            b"\x71\x00\x00\x00\x00\x02\x00\x00\x00\xFE\xFF\xFF\xFF\x04\x00\x00",
            15,
            "refused with 15 at byte 5: log: body cut short",
        ),
    ];
    for (items, number, shown) in refused {
        let stopped = Table::load(&log(items), 4).unwrap_err();
        assert_eq!((stopped.number(), stopped.offset()), (number, 5));
        assert_eq!(stopped.to_string(), shown);
        assert_eq!(stopped.table().unwrap().readings_len(), 0);
        met(Err::<Table, _>(stopped.refusal()), number, Place::Byte(5), shown);
    }
}

#[test]
fn contents_of_a_log_are_refused_with_their_own_numbers() {
    let stopped = Table::load(b"\x01\x01\x41\x01\x00", 4).unwrap_err();
    met(
        Err::<Table, _>(stopped.into()),
        1,
        Place::Byte(0),
        "refused with 1 at byte 0: d, S, C or B out of range",
    );

    let wide = b"\x11\x03\x00\x00\x00\xFD\xFF\xFF\xFF\x0A\x00\x00\x00";
    let stopped = Table::load(&log(&[UNNUMBERED, wide].concat()), 4).unwrap_err();
    assert_eq!(
        stopped.to_string(),
        "refused with 8 at byte 18: more than C points would be stored"
    );
    let kept = stopped.into_table().unwrap();
    assert_eq!((kept.readings_len(), kept.points()), (1, holding(0..1).points()));

    let stopped = Table::load(&log(&UNNUMBERED.repeat(3)), 2).unwrap_err();
    assert_eq!(
        stopped.to_string(),
        "refused with 7 at byte 31: more than B readings would be held"
    );
}

/// 4 at (2, -2), without a number.
const UNNUMBERED: &[u8] = b"\x11\x02\x00\x00\x00\xFE\xFF\xFF\xFF\x04\x00\x00\x00";

/// The same, with a number.
fn numbered(number: i32) -> Vec<u8> {
    [&[0x71][..], &number.to_le_bytes(), &UNNUMBERED[1..]].concat()
}

#[test]
fn unnumbered_readings_of_a_log_get_the_lowest_numbers_that_are_not_held() {
    let numbers = |items: &[Vec<u8>]| -> Vec<i32> {
        let table = Table::load(&log(&items.concat()), 100).unwrap();
        table.readings().iter().map(|reading| reading.number).collect()
    };
    let one = || UNNUMBERED.to_vec();
    assert_eq!(numbers(&[one(), one(), one()]), [0, 1, 2]);
    assert_eq!(numbers(&[numbered(1), one(), one(), one()]), [1, 0, 2, 3]);
    assert_eq!(
        numbers(&[numbered(2), one(), numbered(-1), one(), one()]),
        [2, 0, -1, 1, 3]
    );
}

#[test]
fn a_number_that_a_log_has_twice_is_20() {
    let items = [&numbered(7)[..], UNNUMBERED, &numbered(7)].concat();
    let stopped = Table::load(&log(&items), 100).unwrap_err();
    assert_eq!(stopped.to_string(), "refused with 20 at byte 35: number held already");
    let kept = stopped.into_table().unwrap();
    assert_eq!(
        kept.readings(),
        [Reading::new(7, [2, -2], 4), Reading::new(0, [2, -2], 4)]
    );
    // A reading without a number has got 0 when one of that number is met.
    let stopped = Table::load(&log(&[UNNUMBERED, &numbered(0)].concat()), 100).unwrap_err();
    assert_eq!((stopped.number(), stopped.offset()), (numbers::NUMBER_HELD, 18));
}

#[test]
fn tables_of_two_unnumbered_logs_cannot_be_merged() {
    let load = |items: &[u8]| Table::load(&log(items), 100).unwrap();
    let mut ours = load(UNNUMBERED);
    let shown = "refused with 20: number held already";
    met(ours.merge(&load(UNNUMBERED)), 20, Place::WholeCall, shown);
    ours.merge(&load(&numbered(1))).unwrap();
    assert_eq!(ours.readings_len(), 2);
}

#[test]
fn a_number_that_is_not_held_is_19() {
    let mut table = holding(0..3);
    let before = table.clone().into_parts();
    let shown = "refused with 19: number not held";
    for number in [-1, 3, i32::MIN, i32::MAX] {
        met(table.withdraw(number), 19, Place::WholeCall, shown);
    }
    assert_eq!(table.clone().into_parts(), before);
    table.withdraw(1).unwrap();
    met(table.withdraw(1), 19, Place::WholeCall, shown);
    met(
        Table::fresh(1, 2, 8, 4).unwrap().withdraw(0),
        19,
        Place::WholeCall,
        shown,
    );
}

#[test]
fn many_readings_are_entered_by_one_call() {
    let mut table = table(8);
    // Refused as a whole, none is taken, not even those before the one that is no position.
    let shown = "refused with 2: a lent slice has another length than the settings give, or a list isn't whole items";
    let ragged = [Reading::new(0, [2, -2], 4), Reading::new(1, [2, -2, 0], 4)];
    met(table.enter_all(&ragged), 2, Place::WholeCall, shown);
    assert_eq!(table.readings_len(), 0);

    let positions = [[2, -2], [2, -2], [5, -4], [2, -2]];
    let readings = (0..)
        .zip(positions)
        .map(|(number, position)| Reading::new(number, position, 4));
    let shown = "refused with 5 at reading 2: the coordinates don't sum to 0";
    met(table.enter_all(readings), 5, Place::Reading(2), shown);
    assert_eq!(table.points(), holding(0..2).points());
    table.enter_all::<Reading>([]).unwrap();
    assert_eq!(table.readings_len(), 2);
}

#[test]
fn every_number_has_words() {
    let numbers = || (0..=16).chain(19..=20);
    let told: HashSet<&str> = numbers().map(words).collect();
    assert_eq!(told.len(), 19, "each of 0 to 16, 19 and 20 has words of its own");
    assert!(!told.contains(words(17)));
    assert!((17..=255).all(|number| (words(number) == words(17)) != numbers().any(|known| known == number)));
    assert_eq!(words(numbers::NO_MASS_MET), "one has, but the blurred mass sum is 0");
    assert_eq!(
        words(numbers::PROGRAM_LIMIT),
        "program: log over 16,384 bytes, or C over 512"
    );
}

#[test]
fn the_programs_own_number_is_printed() {
    assert_eq!(report(b"\x01\x01\x02\x01\x02"), b"REFUSED 16 0\n");
    assert_eq!(report(&[0; 16_385]), b"REFUSED 16 16384\n");
}

#[test]
fn refusals_are_errors_that_pass_a_question_mark() {
    fn loaded(log: &[u8]) -> Result<Table, Box<dyn Error>> {
        Ok(Table::load(log, 4096)?)
    }
    fn merged(log: &[u8]) -> Result<Table, Refusal> {
        let mut table = Table::load(log, 4096)?;
        table.merge(&Table::fresh(1, 2, 8, 4)?)?;
        Ok(table)
    }
    assert!(loaded(b"").unwrap_err().is::<LoadRefusal>());
    assert_eq!(merged(b"").unwrap_err().place(), Place::Byte(0));
    assert_eq!(merged(&log(b"")).unwrap().head(), table(1).head());
}
