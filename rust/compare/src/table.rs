//! A table with slices of its own, and the faults that the settings and the lengths can have.

use crate::keys::home_place;
use crate::random::Random;
use std::fmt;
use vimrothi::calls::Head;

/// The greatest capacity, and the greatest number of readings in a table.
pub const GREATEST_CAPACITY: usize = 8_192;
pub const GREATEST_READINGS: usize = 4_096;

/// d, S, C and B.
#[derive(Clone, Copy, Debug)]
pub struct Settings {
    pub d: usize,
    pub fineness: u32,
    pub capacity: usize,
    pub room: usize,
}

/// A table's head and its four slices.
#[derive(Clone, Debug, PartialEq)]
pub struct Table {
    pub head: Head,
    pub keys: Vec<i32>,
    pub sums: Vec<i64>,
    pub index: Vec<u16>,
    pub book: Vec<i32>,
}

impl Table {
    /// Slices of the right lengths for the settings, full of random numbers, with a head of no readings or points.
    pub fn lent(random: &mut Random, settings: Settings) -> Table {
        let Settings {
            d,
            fineness,
            capacity,
            room,
        } = settings;
        Table {
            head: Head::new(d, fineness, capacity, room),
            keys: (0..d * capacity).map(|_| random.bits() as i32).collect(),
            sums: (0..2 * capacity).map(|_| random.bits() as i64).collect(),
            index: (0..2 * capacity).map(|_| random.bits() as u16).collect(),
            book: (0..room * (d + 3)).map(|_| random.bits() as i32).collect(),
        }
    }

    /// An empty table that is sound. What fresh does not matter to is random.
    pub fn empty(random: &mut Random, settings: Settings) -> Table {
        let mut table = Table::lent(random, settings);
        table.index.fill(0);
        table
    }

    /// How many points the slices hold: m, but at most C where a damage has changed m.
    pub fn stored(&self) -> usize {
        self.head.points.min(self.head.capacity)
    }

    /// How many readings the book holds: n, but at most B where a damage has changed n.
    pub fn entered(&self) -> usize {
        self.head.readings.min(self.head.room)
    }

    /// The numbers of a reading in the book.
    pub fn entry(&self, place: usize) -> &[i32] {
        let width = self.head.d + 3;
        &self.book[width * place..width * (place + 1)]
    }

    /// The same, for changing them.
    pub fn entry_mut(&mut self, place: usize) -> &mut [i32] {
        let width = self.head.d + 3;
        &mut self.book[width * place..width * (place + 1)]
    }

    /// The readings of the book, in its order.
    pub fn readings(&self) -> Vec<Vec<i32>> {
        (0..self.entered()).map(|place| self.entry(place).to_vec()).collect()
    }

    /// Builds the index anew for the stored keys, put in one by one in a random order.
    pub fn make_index(&mut self, random: &mut Random) {
        let mut order: Vec<usize> = (0..self.stored()).collect();
        random.shuffle(&mut order);
        self.index.fill(0);
        for number in order {
            let mut place = home_place(self.key(number), self.head.capacity);
            while self.index[place] != 0 {
                place = (place + 1) % self.index.len();
            }
            self.index[place] = number as u16 + 1;
        }
    }

    /// The kept coordinates of a stored point.
    pub fn key(&self, number: usize) -> &[i32] {
        &self.keys[self.head.d * number..self.head.d * (number + 1)]
    }

    /// W, the weight total.
    pub fn weight_total(&self) -> i64 {
        (self.head.d as i64 + 1) * i64::from(self.head.fineness)
    }

    /// Gives one of the four slices another length.
    pub fn change_a_length(&mut self, random: &mut Random) {
        match random.below(5) {
            0 => change_length(random, &mut self.keys),
            1 => change_length(random, &mut self.sums),
            2 => change_length(random, &mut self.index),
            3 => change_length(random, &mut self.book),
            // One whole entry more or less than B.
            _ => {
                let width = self.head.d + 3;
                let entries = self.book.len() / width + random.pick(&[0, 2]);
                self.book.resize(width * entries.saturating_sub(1), 0);
            }
        }
    }

    /// Puts one of d, S, C and B out of range.
    pub fn change_a_setting(&mut self, random: &mut Random) {
        match random.below(4) {
            0 => self.head.d = random.pick(&[0, 6, 7, usize::MAX, 1 << 32, (1 << 32) + 1]),
            1 => self.head.fineness = random.pick(&[0, 65, u32::MAX, 256, 257]),
            2 => self.head.capacity = random.pick(&[0, 8_193, 65_536, 1 << 63, usize::MAX, (1 << 32) + 1]),
            _ => self.head.room = room_out_of_range(random),
        }
    }
}

impl fmt::Display for Table {
    fn fmt(&self, out: &mut fmt::Formatter) -> fmt::Result {
        write!(out, "{:?}\n    keys {:?}", self.head, self.keys)?;
        write!(out, "\n    sums {:?}\n    index {:?}", self.sums, self.index)?;
        write!(out, "\n    book {:?}", self.book)
    }
}

/// A room B that no book may have.
pub fn room_out_of_range(random: &mut Random) -> usize {
    random.pick(&[0, 4_097, 65_536, 1 << 63, usize::MAX, (1 << 32) + 1])
}

/// Makes a slice one shorter, one longer, empty or twice as long.
pub fn change_length<T: Copy + Default>(random: &mut Random, slice: &mut Vec<T>) {
    let length = slice.len();
    let other = match random.below(5) {
        0 | 1 if length > 0 => length - 1,
        2 if length > 0 => 0,
        3 if length > 0 => 2 * length,
        _ => length + 1,
    };
    slice.resize(other, T::default());
}
