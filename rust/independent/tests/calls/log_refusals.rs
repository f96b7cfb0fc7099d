//! The log reader's refusals: which number comes first, and the place that is told.

use independent::{report, Head};

use crate::table::Table;
use crate::worked_log::WORKED_LOG;

/// Loads a log whose settings, if any, are the worked log's.
fn refusal(log: &[u8]) -> (u8, usize) {
    let loaded = Table::lent(1, 8, 4).load(log, 4);
    (loaded.number, loaded.offset)
}

fn worked_with(tail: &[u8]) -> Vec<u8> {
    [&WORKED_LOG[..], tail].concat()
}

#[test]
fn the_first_item_must_be_whole_settings() {
    assert_eq!(refusal(&[]), (13, 0));
    assert_eq!(refusal(&[0x99]), (12, 0));
    assert_eq!(refusal(&[0x00]), (12, 0));
    assert_eq!(refusal(&[0x11]), (13, 0));
    assert_eq!(refusal(&[0x25, 1, 2]), (13, 0));
    assert_eq!(refusal(&[0x73]), (13, 0));
    assert_eq!(refusal(&[0x01]), (15, 0));
    assert_eq!(refusal(&[0x01, 9, 9, 9]), (15, 0));
    assert_eq!(refusal(&[0x01, 0, 2, 8, 0, 0x99]), (1, 0));
    assert_eq!(refusal(&[0x01, 1, 2, 1, 0x20]), (1, 0));
}

#[test]
fn kinds_that_are_not_listed() {
    for kind in [
        0x00, 0x02, 0x0F, 0x10, 0x16, 0x1F, 0x20, 0x26, 0x31, 0x70, 0x76, 0x7F, 0xF1, 0xFF,
    ] {
        assert_eq!(refusal(&worked_with(&[kind])), (12, 49), "{kind:02x}");
    }
}

#[test]
fn later_items_are_judged_in_the_documents_order() {
    assert_eq!(refusal(&worked_with(&[0x01])), (13, 49));
    assert_eq!(refusal(&worked_with(&[0x01, 1, 2, 8, 0])), (13, 49));
    assert_eq!(refusal(&worked_with(&[0x12])), (14, 49));
    assert_eq!(refusal(&worked_with(&[0x25])), (14, 49));
    assert_eq!(refusal(&worked_with(&[0x11])), (15, 49));
    assert_eq!(refusal(&worked_with(&[0x21, 0, 0, 0, 0, 0, 0, 0])), (15, 49));
}

#[test]
fn an_earlier_reading_is_refused_before_a_later_items_form() {
    let mut off = WORKED_LOG;
    off[6] = 4; // (4, -3)
    assert_eq!(refusal(&[&off[..], &[0x99]].concat()), (5, 5));
    let mut far = WORKED_LOG;
    far[8] = 0x7F;
    assert_eq!(refusal(&far), (4, 5));
    let mut value = WORKED_LOG;
    value[30] = 0x80;
    assert_eq!(refusal(&value), (6, 18));
}

#[test]
fn a_query_is_never_refused_for_its_position() {
    assert_eq!(refusal(&worked_with(&[0x21, 0, 0, 0, 0x80, 0, 0, 0, 0x80])), (0, 58));
}

#[test]
fn a_full_table_refuses_the_reading_that_needs_room() {
    let mut small = WORKED_LOG;
    small[3] = 1;
    let loaded = Table::lent(1, 1, 5).load(&small, 5);
    assert_eq!((loaded.number, loaded.offset), (8, 5));
    let head = Head {
        d: 1,
        fineness: 2,
        capacity: 1,
        room: 5,
        readings: 0,
        points: 0,
    };
    assert_eq!(loaded.head, head);
}

#[test]
fn the_program_has_limits_of_its_own() {
    let text = |log: &[u8]| String::from_utf8(report(log)).expect("plain text");
    assert_eq!(text(&[0x99; 16_385]), "REFUSED 16 16384\n");
    assert_eq!(text(&[0x99; 16_384]), "REFUSED 12 0\n");
    assert_eq!(text(&[0x01, 1, 1, 0x00, 0x02]), "HEAD 1 1 0 0\n");
    assert_eq!(text(&[0x01, 1, 1, 0x01, 0x02, 0x99]), "REFUSED 16 0\n");
    assert_eq!(text(&[0x01, 1, 1, 0x01, 0x20]), "REFUSED 1 0\n");
    assert_eq!(text(&[]), "REFUSED 13 0\n");
    assert_eq!(text(&worked_with(&[0x01])), "REFUSED 13 49\n");
}
