//! Document 01's worked log of 49 bytes: its output, its table after loading, and its answers.

use independent::{report, Head};

use crate::table::Table;

/// The worked log's bytes.
pub const WORKED_LOG: [u8; 49] = [
    0x01, 0x01, 0x02, 0x08, 0x00, // settings: d = 1, S = 2, C = 8
    0x11, 0x03, 0x00, 0x00, 0x00, 0xFD, 0xFF, 0xFF, 0xFF, 0x0A, 0x00, 0x00, 0x00, // reading (3, -3), 10
    0x11, 0x02, 0x00, 0x00, 0x00, 0xFE, 0xFF, 0xFF, 0xFF, 0x04, 0x00, 0x00, 0x00, // reading (2, -2), 4
    0x21, 0x04, 0x00, 0x00, 0x00, 0xFC, 0xFF, 0xFF, 0xFF, // query (4, -4)
    0x21, 0x64, 0x00, 0x00, 0x00, 0x9C, 0xFF, 0xFF, 0xFF, // query (100, -100)
];

const WORKED_OUTPUT: &str = "HEAD 1 2 2 2\nPOINT 1 -1 6 36\nPOINT 2 -2 2 20\nANSWER 7 0\nANSWER 0 10\n";

fn text(log: &[u8]) -> String {
    String::from_utf8(report(log)).expect("the report is plain text")
}

#[test]
fn the_output_is_the_documents() {
    assert_eq!(text(&WORKED_LOG), WORKED_OUTPUT);
}

#[test]
fn queries_are_answered_over_all_readings_wherever_they_stand() {
    let [settings, readings, queries] = [0..5, 5..31, 31..49].map(|part| &WORKED_LOG[part]);
    let queries_first = [settings, queries, readings].concat();
    assert_eq!(text(&queries_first), WORKED_OUTPUT);
}

#[test]
fn without_queries_only_head_and_points_are_printed() {
    assert_eq!(
        text(&WORKED_LOG[..31]),
        "HEAD 1 2 2 2\nPOINT 1 -1 6 36\nPOINT 2 -2 2 20\n"
    );
    assert_eq!(text(&WORKED_LOG[..5]), "HEAD 1 2 0 0\n");
}

#[test]
fn a_query_of_a_bad_position_is_refused_only_in_its_answer() {
    let beyond: [u8; 9] = [0x21, 0x41, 0x42, 0x0F, 0x00, 0, 0, 0, 0]; // (1000001, 0)
    let off: [u8; 9] = [0x21, 5, 0, 0, 0, 0xFC, 0xFF, 0xFF, 0xFF]; // (5, -4)
    let log = [&WORKED_LOG[..31], &beyond[..], &off[..]].concat();
    assert!(text(&log).ends_with("20\nANSWER 0 4\nANSWER 0 5\n"));
}

#[test]
fn loading_gives_the_entered_table_with_numbers_from_0_up() {
    let mut table = Table::lent(1, 8, 3);
    let loaded = table.load(&WORKED_LOG, 3);
    assert_eq!((loaded.number, loaded.offset), (0, 49));
    let head = Head {
        d: 1,
        fineness: 2,
        capacity: 8,
        room: 3,
        readings: 2,
        points: 2,
    };
    assert_eq!(loaded.head, head);
    let mut entered = Table::fresh(1, 2, 8, 3);
    assert_eq!(entered.enter(&[0, 3, -3, 10, 1, 2, -2, 4]).taken, 2);
    assert_eq!(table, entered);
}
