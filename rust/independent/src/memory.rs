//! The four slices of a table lent for writing, and what a call leaves in them. Nothing is written that the documents
//! do not say changes.

use crate::contents::Contents;
use crate::search::{search, Found};
use crate::store::Store;
use crate::table::{Head, Lent};

/// The four slices of a table.
pub(crate) struct Memory<'a> {
    pub keys: &'a mut [i32],
    pub sums: &'a mut [i64],
    pub index: &'a mut [u16],
    pub book: &'a mut [i32],
}

impl Memory<'_> {
    /// The same slices for reading.
    pub fn lent(&self) -> Lent<'_> {
        Lent {
            keys: self.keys,
            sums: self.sums,
            index: self.index,
            book: self.book,
        }
    }

    /// Makes a table without readings of it: all four slices are filled with 0, once all of them are known to have the
    /// right length.
    pub fn clear(&mut self, head: &Head) -> Result<(), u8> {
        head.judged()?;
        self.lent().lengths_judged(head)?;
        self.keys.fill(0);
        self.sums.fill(0);
        self.index.fill(0);
        self.book.fill(0);
        Ok(())
    }

    /// Writes a table that points and readings were added to. `head` is the one before, and the head after is answered.
    pub fn write_grown(&mut self, contents: &Contents, head: &Head) -> Head {
        self.write_points(&contents.store, head.points);
        contents.book.write_back(head.readings, self.book, head.d);
        contents.head(head)
    }

    /// Writes a table that points and readings were taken from, and answers its head. The index and the places of all
    /// former points, and no place past them, are cleared first. So what was vacated is 0, and the index is that of
    /// entering the points by number, also where none of them left.
    pub fn write_afresh(&mut self, contents: &Contents, head: &Head) -> Head {
        self.keys[..head.d * head.points].fill(0);
        self.sums[..2 * head.points].fill(0);
        self.index.fill(0);
        self.write_points(&contents.store, 0);
        contents.book.write_back(head.readings, self.book, head.d);
        contents.head(head)
    }

    /// Writes the pairs of all points, and of those numbered `old_points` on also the key and the index place. The pair
    /// of a point that did not change is written as it stood.
    fn write_points(&mut self, store: &Store, old_points: usize) {
        for (kept, point) in store.in_stored_order() {
            let number = point.number;
            self.sums[2 * number] = point.mass;
            self.sums[2 * number + 1] = point.value_sum;
            if number >= old_points {
                self.append(number, kept);
            }
        }
    }

    /// Writes a new point's kept coordinates into their stretch of the keys, and its name into the empty place found.
    fn append(&mut self, number: usize, kept: &[i32]) {
        let Some(Found::Empty(place)) = search(self.keys, self.index, kept) else {
            unreachable!("at most C of 2·C places are taken, and the point is new");
        };
        self.keys[kept.len() * number..kept.len() * (number + 1)].copy_from_slice(kept);
        self.index[place] = number as u16 + 1;
    }
}
