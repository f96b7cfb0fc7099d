//! A table's settings, the call that makes a fresh table, and adding a row to a table in lent memory.

use super::index;
use super::lattice::{MOST_CAPACITY, MOST_D, MOST_FINENESS, MOST_ROOM, OTHER_LENGTH, SETTINGS_OUT_OF_RANGE};
use vimrothi::calls::{Answer, Head};

/// A table in lent memory that is only read.
#[derive(Clone, Copy)]
pub struct View<'a> {
    pub head: Head,
    pub keys: &'a [i32],
    pub sums: &'a [i64],
    pub index: &'a [u16],
    pub book: &'a [i32],
}

impl View<'_> {
    /// Whether d, S, C and B are in range.
    pub fn in_range(&self) -> bool {
        let head = self.head;
        in_range(head.d, head.fineness, head.capacity) && (1..=MOST_ROOM).contains(&head.room)
    }

    /// Whether the four slices have the lengths that the settings give.
    pub fn lengths_fit(&self) -> bool {
        let head = self.head;
        self.keys.len() == head.d * head.capacity
            && self.sums.len() == 2 * head.capacity
            && self.index.len() == 2 * head.capacity
            && self.book.len() == (head.d + 3) * head.room
    }
}

/// Whether d, S and C are in range.
pub fn in_range(d: usize, fineness: u32, capacity: usize) -> bool {
    (1..=MOST_D).contains(&d) && (1..=MOST_FINENESS).contains(&fineness) && (1..=MOST_CAPACITY).contains(&capacity)
}

/// Makes a fresh table: 1, 2.
#[allow(clippy::too_many_arguments)]
pub fn fresh(
    d: usize,
    fineness: u32,
    capacity: usize,
    room: usize,
    keys: &mut [i32],
    sums: &mut [i64],
    index: &mut [u16],
    book: &mut [i32],
) -> Answer {
    let head = Head::new(d, fineness, capacity, room);
    let lent = View {
        head,
        keys,
        sums,
        index,
        book,
    };
    if !lent.in_range() {
        return Answer {
            number: SETTINGS_OUT_OF_RANGE,
            head,
        };
    }
    if !lent.lengths_fit() {
        return Answer {
            number: OTHER_LENGTH,
            head,
        };
    }
    keys.fill(0);
    sums.fill(0);
    index.fill(0);
    book.fill(0);
    Answer { number: 0, head }
}

/// A table in lent memory that is written to.
pub struct Table<'a> {
    pub head: Head,
    pub keys: &'a mut [i32],
    pub sums: &'a mut [i64],
    pub index: &'a mut [u16],
    pub book: &'a mut [i32],
}

impl Table<'_> {
    /// The same table, to be read.
    pub fn view(&self) -> View<'_> {
        View {
            head: self.head,
            keys: self.keys,
            sums: self.sums,
            index: self.index,
            book: self.book,
        }
    }

    /// Adds a mass and a value sum to the point with this key, which is appended where it is not stored.
    pub fn add_row(&mut self, key: &[i32], mass: i64, value: i64) {
        let place = index::search(self.keys, self.index, key);
        match self.index[place] {
            0 => self.append_row(place, key, mass, value),
            entry => {
                let point = usize::from(entry) - 1;
                self.sums[2 * point] += mass;
                self.sums[2 * point + 1] += value;
            }
        }
    }

    fn append_row(&mut self, place: usize, key: &[i32], mass: i64, value: i64) {
        let point = self.head.points;
        self.keys[key.len() * point..][..key.len()].copy_from_slice(key);
        self.sums[2 * point] = mass;
        self.sums[2 * point + 1] = value;
        self.head.points += 1;
        self.index[place] = self.head.points as u16;
    }
}
