//! The book of ticket 8: the readings that a table holds, in order of entry, merged ones behind, each under a number of
//! its own. It is kept as a list of entries beside the set of their numbers, so that a number held already is seen
//! without walking the list, and beside the lowest number that an unnumbered reading would get.

use std::collections::BTreeSet;

use crate::position::{position_judged, value_judged};
use crate::store::Store;
use crate::table::{entry_length, Head};

/// A reading with its number.
#[derive(Clone, Debug, PartialEq, Eq)]
pub(crate) struct Entry {
    pub number: i32,
    /// All d+1 coordinates.
    pub position: Vec<i32>,
    pub value: i32,
}

impl Entry {
    /// The entry that d+3 numbers of a book or of a list stand for.
    pub fn of_numbers(numbers: &[i32]) -> Entry {
        let [number, position @ .., value] = numbers else {
            unreachable!("an entry has at least four numbers");
        };
        Entry {
            number: *number,
            position: position.to_vec(),
            value: *value,
        }
    }

    /// The d+3 numbers as they stand in a book.
    fn numbers(&self) -> Vec<i32> {
        [&[self.number], self.position.as_slice(), &[self.value]].concat()
    }

    /// Refuses a reading that does not keep the limits with 4, 5 or 6.
    pub fn limits_judged(&self) -> Result<(), u8> {
        position_judged(&self.position)?;
        value_judged(self.value)
    }
}

/// A table's book.
#[derive(Clone, Debug, Default)]
pub(crate) struct Book {
    entries: Vec<Entry>,
    /// The numbers of all entries. They are fewer than the entries where two have the same one.
    held: BTreeSet<i32>,
    /// All numbers from 0 up to this one are held, and this one is not.
    lowest: i32,
}

impl Book {
    /// The first n entries of a lent book. What stands past them counts for nothing.
    pub fn of_table(head: &Head, lent: &[i32]) -> Book {
        let mut book = Book::default();
        let stretches = lent.chunks_exact(entry_length(head.d));
        for stretch in stretches.take(head.readings) {
            book.append(Entry::of_numbers(stretch));
        }
        book
    }

    pub fn entries(&self) -> &[Entry] {
        &self.entries
    }

    /// Whether some entry has this number.
    pub fn holds(&self, number: i32) -> bool {
        self.held.contains(&number)
    }

    /// Whether no entry has another's number.
    pub fn numbers_differ(&self) -> bool {
        self.held.len() == self.entries.len()
    }

    /// The points that the book's readings alone give. All of them keep the limits.
    pub fn poured(&self, d: usize, fineness: u32) -> Store {
        let mut store = Store::new(d, fineness);
        for entry in &self.entries {
            store.add(&entry.position, entry.value);
        }
        store
    }

    /// The lowest number from 0 up that is not held. n entries cannot hold all of 0 to n.
    pub fn lowest_number(&self) -> i32 {
        self.lowest
    }

    /// Puts a reading behind the others.
    pub fn append(&mut self, entry: Entry) {
        self.held.insert(entry.number);
        self.entries.push(entry);
        while self.holds(self.lowest) {
            self.lowest += 1;
        }
    }

    /// Takes the reading of this number out, and the book closes up. `None` where the number is not held.
    pub fn remove(&mut self, number: i32) -> Option<Entry> {
        let place = self.entries.iter().position(|entry| entry.number == number)?;
        self.held.remove(&number);
        if number >= 0 {
            self.lowest = self.lowest.min(number);
        }
        Some(self.entries.remove(place))
    }

    /// Writes all entries. Those places of the `old_entries` that no entry has any more become 0, and nothing past
    /// both is touched.
    pub fn write_back(&self, old_entries: usize, lent: &mut [i32], d: usize) {
        let mut stretches = lent.chunks_exact_mut(entry_length(d));
        for (entry, stretch) in self.entries.iter().zip(&mut stretches) {
            stretch.copy_from_slice(&entry.numbers());
        }
        let vacated = old_entries.saturating_sub(self.entries.len());
        stretches.take(vacated).for_each(|stretch| stretch.fill(0));
    }
}

#[cfg(test)]
mod tests {
    use super::*;

    /// A book of dimension 1 and these numbers, all of them readings at (0, 0) with value 1.
    fn book_of(numbers: &[i32]) -> Book {
        let mut book = Book::default();
        for &number in numbers {
            book.append(Entry::of_numbers(&[number, 0, 0, 1]));
        }
        book
    }

    #[test]
    fn an_entry_is_number_position_value() {
        let entry = Entry::of_numbers(&[-3, 30, -10, -20, 7]);
        assert_eq!((entry.number, entry.value), (-3, 7));
        assert_eq!(entry.position, [30, -10, -20]);
        assert_eq!(entry.numbers(), [-3, 30, -10, -20, 7]);
    }

    #[test]
    fn limits_are_told_in_the_documents_order() {
        let judged = |numbers: [i32; 4]| Entry::of_numbers(&numbers).limits_judged();
        assert_eq!(judged([i32::MIN, 1_000_000, -1_000_000, 1_000_000]), Ok(()));
        assert_eq!(judged([0, 1_000_001, 0, 1_000_001]), Err(4));
        assert_eq!(judged([0, 1, 0, 1_000_001]), Err(5));
        assert_eq!(judged([0, 1, -1, -1_000_001]), Err(6));
    }

    #[test]
    fn a_removed_number_is_not_held_any_more_and_the_others_keep_their_order() {
        let mut book = book_of(&[4, -1, 9]);
        assert_eq!(book.remove(5), None);
        assert_eq!(book.remove(4).map(|entry| entry.number), Some(4));
        assert!(!book.holds(4) && book.holds(-1) && book.holds(9));
        let numbers: Vec<i32> = book.entries().iter().map(|entry| entry.number).collect();
        assert_eq!(numbers, [-1, 9]);
        assert!(book.numbers_differ());
    }

    #[test]
    fn writing_back_zeroes_only_what_was_vacated() {
        let (one, none) = (book_of(&[5]), book_of(&[]));
        let written = |book: &Book, old_entries: usize| {
            let mut lent = [8; 12];
            book.write_back(old_entries, &mut lent, 1);
            lent
        };
        assert_eq!(written(&one, 0), [5, 0, 0, 1, 8, 8, 8, 8, 8, 8, 8, 8]);
        assert_eq!(written(&one, 2), [5, 0, 0, 1, 0, 0, 0, 0, 8, 8, 8, 8]);
        assert_eq!(written(&none, 1), [0, 0, 0, 0, 8, 8, 8, 8, 8, 8, 8, 8]);
        assert_eq!(written(&none, 0), [8; 12]);
    }

    #[test]
    fn the_lowest_number_is_the_first_gap_from_0_up() {
        for (numbers, lowest) in [
            (&[][..], 0),
            (&[7, -3], 0),
            (&[0], 1),
            (&[1, 0, 3], 2),
            (&[2, 0, 1], 3),
            (&[-1, i32::MIN, i32::MAX, 0], 1),
        ] {
            assert_eq!(book_of(numbers).lowest_number(), lowest, "{numbers:?}");
        }
    }

    #[test]
    fn the_lowest_number_after_removals() {
        let mut book = book_of(&[0, 1, -5, 2, 9]);
        for (removed, lowest) in [(9, 3), (-5, 3), (1, 1), (2, 1), (0, 0)] {
            assert!(book.remove(removed).is_some());
            assert_eq!(book.lowest_number(), lowest, "after {removed}");
        }
        book.append(Entry::of_numbers(&[0, 0, 0, 1]));
        assert_eq!(book.lowest_number(), 1);
    }
}
