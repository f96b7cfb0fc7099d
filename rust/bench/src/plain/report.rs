//! The report: what `dyemap` prints for a log, written into a lent buffer.

use super::filter::{blur, reply};
use super::index::key;
use super::lattice::{MOST_D, PROGRAM_LIMIT, SETTINGS_MISPLACED, SETTINGS_OUT_OF_RANGE};
use super::list::fill;
use super::log::{item_at, load, numbers_of, Item, AFTER_SETTINGS};
use super::table::{in_range, Table};
use super::text::Text;
use vimrothi::calls::REPORT_ROOM;

const MOST_BYTES: usize = 16_384;
const MOST_POINTS: usize = 512;
const BOOK_ROOM: usize = 2048;

/// Writes what `dyemap` prints for a log at the start of the buffer, and answers how many bytes it is: 0, and
/// nothing written, where the buffer is shorter than [`REPORT_ROOM`].
pub fn report(log: &[u8], out: &mut [u8]) -> usize {
    if out.len() < REPORT_ROOM {
        return 0;
    }
    let mut text = Text { out, at: 0 };
    match opening(log) {
        Err((number, offset)) => put_refused(&mut text, number, offset),
        Ok((d, capacity)) => put_log(&mut text, log, d, capacity),
    }
    text.at
}

/// The dimension and the capacity of a log's settings, or the refusal of the log and its offset.
fn opening(log: &[u8]) -> Result<(usize, usize), (u8, usize)> {
    if log.len() > MOST_BYTES {
        return Err((PROGRAM_LIMIT, MOST_BYTES));
    }
    match item_at(log, 0) {
        Item::Settings { d, fineness, capacity } if !in_range(d, fineness, capacity) => Err((SETTINGS_OUT_OF_RANGE, 0)),
        Item::Settings { capacity, .. } if capacity > MOST_POINTS => Err((PROGRAM_LIMIT, 0)),
        Item::Settings { d, capacity, .. } => Ok((d, capacity)),
        Item::Refused(number) => Err((number, 0)),
        _ => Err((SETTINGS_MISPLACED, 0)),
    }
}

fn put_refused(text: &mut Text, number: u8, offset: usize) {
    text.put_line(b"REFUSED", &[i64::from(number), offset as i64]);
}

/// The log loaded into memory of the program's own, and its table or its refusal written.
fn put_log(text: &mut Text, log: &[u8], d: usize, capacity: usize) {
    let mut keys = [0; MOST_D * MOST_POINTS];
    let mut sums = [0; 2 * MOST_POINTS];
    let mut index = [0; 2 * MOST_POINTS];
    let mut book = [0; (MOST_D + 3) * BOOK_ROOM];
    let keys = &mut keys[..d * capacity];
    let sums = &mut sums[..2 * capacity];
    let index = &mut index[..2 * capacity];
    let book = &mut book[..(d + 3) * BOOK_ROOM];
    let loaded = load(log, BOOK_ROOM, keys, sums, index, book);
    if loaded.number != 0 {
        return put_refused(text, loaded.number, loaded.offset);
    }
    let head = loaded.head;
    text.put_line(
        b"HEAD",
        &[
            head.d as i64,
            i64::from(head.fineness),
            head.readings as i64,
            head.points as i64,
        ],
    );
    let table = Table {
        head,
        keys,
        sums,
        index,
        book,
    };
    put_points(text, &table);
    put_answers(text, &table, log);
}

/// The points' lines, in listing order.
fn put_points(text: &mut Text, table: &Table) {
    let head = table.head;
    let mut order = [0; MOST_POINTS];
    fill(table.keys, head.d, head.points, &mut order[..head.capacity]);
    for &point in &order[..head.points] {
        let point = usize::from(point);
        let mut numbers = [0; MOST_D + 3];
        for (number, &coordinate) in numbers.iter_mut().zip(key(table.keys, head.d, point)) {
            *number = i64::from(coordinate);
        }
        numbers[head.d] = -numbers[..head.d].iter().sum::<i64>();
        numbers[head.d + 1] = table.sums[2 * point];
        numbers[head.d + 2] = table.sums[2 * point + 1];
        text.put_line(b"POINT", &numbers[..head.d + 3]);
    }
}

/// The queries' lines, in their order, answered over all readings.
fn put_answers(text: &mut Text, table: &Table, log: &[u8]) {
    let mut first = [0; 2 * MOST_POINTS];
    let mut second = [0; 2 * MOST_POINTS];
    let first = &mut first[..2 * table.head.capacity];
    let second = &mut second[..2 * table.head.capacity];
    blur(table.head, table.keys, table.sums, table.index, first, second);
    let mut offset = AFTER_SETTINGS;
    loop {
        let item = item_at(log, offset);
        if item.width() == 0 {
            return;
        }
        if let Item::Query(body) = item {
            let query = &numbers_of(body)[..=table.head.d];
            let (value, code) = reply(table.head, table.keys, table.index, first, query);
            text.put_line(b"ANSWER", &[i64::from(value), i64::from(code)]);
        }
        offset += item.width();
    }
}
