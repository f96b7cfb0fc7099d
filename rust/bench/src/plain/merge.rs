//! Merging a source table into a target table, all or nothing.

use super::book::entries;
use super::index::find;
use super::lattice::{
    NOT_SOUND, NUMBER_HELD, OTHER_LENGTH, SETTINGS_DIFFER, SETTINGS_OUT_OF_RANGE, TOO_MANY_POINTS, TOO_MANY_READINGS,
};
use super::numbers::Numbers;
use super::soundness::is_sound;
use super::table::{Table, View};
use vimrothi::calls::{Answer, Head};

/// Adds a source table to a target: 1, 2, 3, for each the target before the source; 9, 20, 7, 8.
#[allow(clippy::too_many_arguments)]
pub fn merge(
    head: Head,
    keys: &mut [i32],
    sums: &mut [i64],
    index: &mut [u16],
    book: &mut [i32],
    source: Head,
    source_keys: &[i32],
    source_sums: &[i64],
    source_index: &[u16],
    source_book: &[i32],
) -> Answer {
    let from = View {
        head: source,
        keys: source_keys,
        sums: source_sums,
        index: source_index,
        book: source_book,
    };
    let mut table = Table {
        head,
        keys,
        sums,
        index,
        book,
    };
    let number = refusal_of(table.view(), from);
    if number != 0 {
        return Answer { number, head };
    }
    table.pour(from);
    Answer {
        number: 0,
        head: table.head,
    }
}

impl Table<'_> {
    /// Adds the rows of a source, in its order, and its readings behind those of the book.
    fn pour(&mut self, source: View) {
        let rows = source.keys.chunks_exact(source.head.d).zip(source.sums.chunks_exact(2));
        for (key, pair) in rows.take(source.head.points) {
            self.add_row(key, pair[0], pair[1]);
        }
        let width = self.head.d + 3;
        let numbers = width * source.head.readings;
        self.book[width * self.head.readings..][..numbers].copy_from_slice(&source.book[..numbers]);
        self.head.readings += source.head.readings;
    }
}

fn refusal_of(target: View, source: View) -> u8 {
    let both = [target, source];
    if !both.iter().all(View::in_range) {
        return SETTINGS_OUT_OF_RANGE;
    }
    if !both.iter().all(View::lengths_fit) {
        return OTHER_LENGTH;
    }
    if !both.iter().all(|table| is_sound(*table)) {
        return NOT_SOUND;
    }
    if target.head.d != source.head.d || target.head.fineness != source.head.fineness {
        return SETTINGS_DIFFER;
    }
    if !none_met(target, source) {
        return NUMBER_HELD;
    }
    if target.head.readings + source.head.readings > target.head.room {
        return TOO_MANY_READINGS;
    }
    let keys = source.keys.chunks_exact(source.head.d).take(source.head.points);
    let new = keys
        .filter(|key| find(target.keys, target.index, key).is_none())
        .count();
    if target.head.points + new > target.head.capacity {
        return TOO_MANY_POINTS;
    }
    0
}

/// Whether the target holds none of the source's numbers.
fn none_met(target: View, source: View) -> bool {
    let mut numbers = Numbers::none();
    numbers.add_book(target.book, target.head.d, target.head.readings);
    entries(source.book, source.head.d, source.head.readings).all(|entry| !numbers.holds(entry[0]))
}
