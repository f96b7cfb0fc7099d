//! Document 01's worked log and its small numbers, through the safe crate. What is expected is copied from the
//! document, or counted from its item lengths.

use vimrothi::{report, Head, Place, Point, Reading, Table};

/// The 49 bytes of the document: settings at 0, readings at 5 and 18, queries at 31 and 40.
const WORKED: &[u8] = b"\x01\x01\x02\x08\x00\
    \x11\x03\x00\x00\x00\xFD\xFF\xFF\xFF\x0A\x00\x00\x00\
    \x11\x02\x00\x00\x00\xFE\xFF\xFF\xFF\x04\x00\x00\x00\
    \x21\x04\x00\x00\x00\xFC\xFF\xFF\xFF\
    \x21\x64\x00\x00\x00\x9C\xFF\xFF\xFF";

const PRINTED: &str = "HEAD 1 2 2 2\nPOINT 1 -1 6 36\nPOINT 2 -2 2 20\nANSWER 7 0\nANSWER 0 10\n";

/// Where the items of the worked log start.
const STARTS: [usize; 5] = [0, 5, 18, 31, 40];

fn point(coordinates: &[i32], mass: i64, value_sum: i64) -> Point {
    Point {
        coordinates: coordinates.to_vec(),
        mass,
        value_sum,
    }
}

/// The points that one reading of value 1 leaves in a fresh table: its lattice points and their weights.
fn weights(fineness: u32, position: &[i32]) -> Vec<Point> {
    let mut table = Table::fresh(position.len() - 1, fineness, 8, 1).unwrap();
    table.enter_one(0, position, 1).unwrap();
    table.points()
}

#[test]
fn the_report_is_the_documents() {
    assert_eq!(WORKED.len(), 49);
    assert_eq!(String::from_utf8(report(WORKED)).unwrap(), PRINTED);
}

#[test]
fn the_loaded_table_is_the_documents() {
    let table = Table::load(WORKED, 3).unwrap();
    assert_eq!(table.head(), Head::new(1, 2, 8, 3).with_counts(2, 2));
    assert_eq!((table.d(), table.fineness(), table.capacity()), (1, 2, 8));
    assert_eq!((table.room(), table.readings_len(), table.points_len()), (3, 2, 2));
    // The log's readings have no numbers: they get 0 and 1.
    let readings = [Reading::new(0, [3, -3], 10), Reading::new(1, [2, -2], 4)];
    assert_eq!(table.readings(), readings);
    assert_eq!(table.points(), [point(&[1, -1], 6, 36), point(&[2, -2], 2, 20)]);
}

#[test]
fn the_answers_are_the_documents() {
    let table = Table::load(WORKED, 2).unwrap();
    let answers = table.filter(&[4, -4, 100, -100, 3, -3]).unwrap();
    let refusal = answers[1].unwrap_err();
    assert_eq!((answers[0], answers[2]), (Ok(7), Ok(7)));
    assert_eq!((refusal.number(), refusal.place()), (10, Place::Query(1)));
    assert_eq!(table.answer_at(&[3, -3]), Ok(7));
    assert_eq!(table.answer_at(&[100, -100]).unwrap_err().place(), Place::Query(0));
}

#[test]
fn the_memory_is_the_documents() {
    let (_, keys, sums, index, book) = Table::load(WORKED, 3).unwrap().into_parts();
    assert_eq!((keys.len(), sums.len(), index.len()), (8, 16, 16));
    assert_eq!(book, [0, 3, -3, 10, 1, 2, -2, 4, 0, 0, 0, 0]);
    // The first reading appends its points in ascending remainder: key 2 leaves 0 on division by 2, key 1 leaves 1.
    assert_eq!((&keys[..2], &sums[..4]), (&[2, 1][..], &[2, 20, 6, 36][..]));
    // The home of key 1 is 3 and of key 2 it is 6; index i + 1 names point i.
    assert_eq!((index[3], index[6]), (2, 1));
    assert_eq!(index.iter().filter(|&&entry| entry != 0).count(), 2);
}

#[test]
fn the_weights_are_the_documents() {
    let three = [
        point(&[0, 0, 0], 1, 1),
        point(&[1, 1, -2], 1, 1),
        point(&[2, -1, -1], 4, 4),
    ];
    assert_eq!(weights(2, &[3, -1, -2]), three);
    let even = [
        point(&[0, 0, 0], 1, 1),
        point(&[1, 1, -2], 1, 1),
        point(&[2, -1, -1], 1, 1),
    ];
    assert_eq!(weights(1, &[1, 0, -1]), even);
    assert_eq!(
        weights(2, &[1, 1, -2]),
        [point(&[0, 0, 0], 3, 3), point(&[1, 1, -2], 3, 3)]
    );
    assert_eq!(weights(2, &[2, 2, -4]), [point(&[1, 1, -2], 6, 6)]);
}

#[test]
fn a_log_cut_between_items_loads() {
    for (&cut, readings) in STARTS[1..].iter().zip([0, 1, 2, 2]) {
        let table = Table::load(&WORKED[..cut], 2).unwrap();
        assert_eq!(table.readings_len(), readings, "cut at {cut}");
    }
}

#[test]
fn a_log_cut_inside_an_item_tells_where_and_keeps_what_was_before() {
    for cut in (1..WORKED.len()).filter(|cut| !STARTS.contains(cut)) {
        let start = *STARTS.iter().rfind(|&&start| start < cut).unwrap();
        let stopped = Table::load(&WORKED[..cut], 2).unwrap_err();
        assert_eq!((stopped.number(), stopped.offset()), (15, start), "cut at {cut}");
        let kept = stopped.into_table().map(Table::into_parts);
        let before = Table::load(&WORKED[..start], 2).ok().map(Table::into_parts);
        assert_eq!(kept, before, "cut at {cut}");
    }
}

#[test]
fn a_log_without_accepted_settings_leaves_no_table() {
    let stopped = Table::load(b"", 2).unwrap_err();
    assert_eq!((stopped.number(), stopped.offset()), (13, 0));
    assert!(stopped.table().is_none());
    for (log, room) in [
        (b"\x01\x06\x02\x08\x00", 2),
        (b"\x01\x01\x02\x08\x00", 0),
        (b"\x01\x01\x02\x08\x00", 4097),
    ] {
        let stopped = Table::load(log, room).unwrap_err();
        assert_eq!((stopped.number(), stopped.offset()), (1, 0));
        assert!(stopped.into_table().is_none());
    }
}
