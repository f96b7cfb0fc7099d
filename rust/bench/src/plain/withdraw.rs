//! Taking one reading back from a table, by its number.

use super::book::entries;
use super::index::{find, key, search};
use super::lattice::{MOST_D, NUMBER_NOT_HELD};
use super::simplex::{enclose, Simplex};
use super::soundness::refusal_of;
use super::table::Table;
use vimrothi::calls::{Answer, Head};

/// Takes the reading of this number back: 1, 2, 3, 19.
pub fn withdraw(
    head: Head,
    keys: &mut [i32],
    sums: &mut [i64],
    index: &mut [u16],
    book: &mut [i32],
    number: i32,
) -> Answer {
    let mut table = Table {
        head,
        keys,
        sums,
        index,
        book,
    };
    let told = refusal_of(table.view(), true);
    if told != 0 {
        return Answer { number: told, head };
    }
    let place = entries(table.book, head.d, head.readings).rposition(|entry| entry[0] == number);
    let Some(place) = place else {
        return Answer {
            number: NUMBER_NOT_HELD,
            head,
        };
    };
    table.take_back(place);
    Answer {
        number: 0,
        head: table.head,
    }
}

impl Table<'_> {
    /// The reading at this place of the book leaves table and book.
    fn take_back(&mut self, place: usize) {
        let d = self.head.d;
        let mut reading = [0; MOST_D + 2];
        reading[..d + 2].copy_from_slice(&self.book[(d + 3) * place..][1..d + 3]);
        let simplex = enclose(&reading[..=d], self.head.fineness);
        self.lower(&simplex, i64::from(reading[d + 1]));
        for (key, _) in simplex.shares(d) {
            self.leave(key);
        }
        self.name_afresh();
        self.close_up(place);
    }

    /// The weights are subtracted from the pairs of their points, before any point leaves.
    fn lower(&mut self, simplex: &Simplex, value: i64) {
        for (key, weight) in simplex.shares(self.head.d) {
            let point = find(self.keys, self.index, key).expect("a sound table has every point of its readings");
            self.sums[2 * point] -= i64::from(weight);
            self.sums[2 * point + 1] -= i64::from(weight) * value;
        }
    }

    /// The point of this key leaves where its mass is 0, and the last point takes its number. It is found without the
    /// index, which does not know of points that have moved.
    fn leave(&mut self, leaving: &[i32]) {
        let d = self.head.d;
        let last = self.head.points - 1;
        let found = (0..=last).rfind(|&point| key(self.keys, d, point) == leaving);
        let Some(point) = found.filter(|&point| self.sums[2 * point] == 0) else {
            return;
        };
        self.keys.copy_within(d * last..d * last + d, d * point);
        self.keys[d * last..][..d].fill(0);
        self.sums.copy_within(2 * last..2 * last + 2, 2 * point);
        self.sums[2 * last..][..2].fill(0);
        self.head.points = last;
    }

    /// The index of entering the points afresh by number.
    fn name_afresh(&mut self) {
        self.index.fill(0);
        for point in 0..self.head.points {
            let place = search(self.keys, self.index, key(self.keys, self.head.d, point));
            self.index[place] = point as u16 + 1;
        }
    }

    /// The entries behind one move down, and the last one's place becomes 0.
    fn close_up(&mut self, place: usize) {
        let width = self.head.d + 3;
        let end = width * self.head.readings;
        self.book.copy_within(width * (place + 1)..end, width * place);
        self.book[end - width..end].fill(0);
        self.head.readings -= 1;
    }
}
