//! The numbers of a book's readings, found by an index of their own: the search is that for a point, of a key with one
//! coordinate.

use super::book::entries;
use super::index::search;

/// More than a book has readings, so that the index always has an empty place; and a prime, so that numbers which are
/// multiples of a power of 2 go to different places.
const NUMBER_ROOM: usize = 4099;

/// Numbers in their order, each once, and where they are found.
pub struct Numbers {
    numbers: [i32; NUMBER_ROOM],
    places: [u16; 2 * NUMBER_ROOM],
    count: usize,
}

impl Numbers {
    pub fn none() -> Numbers {
        Numbers {
            numbers: [0; NUMBER_ROOM],
            places: [0; 2 * NUMBER_ROOM],
            count: 0,
        }
    }

    /// One more number; false, and nothing is changed, where it is among them.
    pub fn add(&mut self, number: i32) -> bool {
        let place = search(&self.numbers, &self.places, &[number]);
        if self.places[place] != 0 {
            return false;
        }
        self.numbers[self.count] = number;
        self.count += 1;
        self.places[place] = self.count as u16;
        true
    }

    /// The numbers of a book's readings; false where one is met twice, and there it stops.
    pub fn add_book(&mut self, book: &[i32], d: usize, readings: usize) -> bool {
        entries(book, d, readings).all(|entry| self.add(entry[0]))
    }

    pub fn holds(&self, number: i32) -> bool {
        self.places[search(&self.numbers, &self.places, &[number])] != 0
    }

    /// The first of this number and those above it that is not held.
    pub fn lowest_from(&self, from: i32) -> i32 {
        let mut lowest = from;
        while self.holds(lowest) {
            lowest += 1;
        }
        lowest
    }
}
