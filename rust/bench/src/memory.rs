//! A table in memory of its own, and the calls on it. The verified and the plain calls have the same signatures, so
//! each is handed to the table that it works on.

use crate::input::FINENESS;
use vimrothi::calls::{self, Answer, Entered, Head, Loaded};

pub type Fresh = fn(usize, u32, usize, usize, &mut [i32], &mut [i64], &mut [u16], &mut [i32]) -> Answer;
pub type Enter = fn(Head, &mut [i32], &mut [i64], &mut [u16], &mut [i32], &[i32]) -> Entered;
pub type Merge =
    fn(Head, &mut [i32], &mut [i64], &mut [u16], &mut [i32], Head, &[i32], &[i64], &[u16], &[i32]) -> Answer;
pub type Withdraw = fn(Head, &mut [i32], &mut [i64], &mut [u16], &mut [i32], i32) -> Answer;
pub type List = fn(Head, &[i32], &[i64], &[u16], &[i32], &mut [u16]) -> u8;
pub type Filter = fn(Head, &[i32], &[i64], &[u16], &[i32], &mut [i64], &mut [i64], &[i32], &mut [i32], &mut [u8]) -> u8;
pub type Load = fn(&[u8], usize, &mut [i32], &mut [i64], &mut [u16], &mut [i32]) -> Loaded;
pub type Report = fn(&[u8], &mut [u8]) -> usize;

/// A table in memory of its own.
#[derive(Clone, Debug, PartialEq)]
pub struct Memory {
    pub head: Head,
    pub keys: Vec<i32>,
    pub sums: Vec<i64>,
    pub index: Vec<u16>,
    pub book: Vec<i32>,
}

/// What filter writes to: two sheets, and a value and a code for each query.
#[derive(Clone, Debug, PartialEq)]
pub struct Sheets {
    pub first: Vec<i64>,
    pub second: Vec<i64>,
    pub values: Vec<i32>,
    pub codes: Vec<u8>,
}

impl Memory {
    /// A fresh table.
    pub fn fresh(d: usize, fineness: u32, capacity: usize, room: usize) -> Memory {
        Memory {
            head: Head::new(d, fineness, capacity, room),
            keys: vec![0; d * capacity],
            sums: vec![0; 2 * capacity],
            index: vec![0; 2 * capacity],
            book: vec![0; (d + 3) * room],
        }
    }

    /// A table with a list of readings, all of which must be taken.
    pub fn holding(d: usize, capacity: usize, room: usize, list: &[i32]) -> Memory {
        let mut memory = Memory::fresh(d, FINENESS, capacity, room);
        let entered = memory.enter(calls::enter, list);
        assert_eq!(entered.number, 0, "every reading of a prepared table is taken");
        memory
    }

    /// Puts everything back as in a prepared table, without new memory.
    pub fn restore(&mut self, prepared: &Memory) {
        self.head = prepared.head;
        self.keys.copy_from_slice(&prepared.keys);
        self.sums.copy_from_slice(&prepared.sums);
        self.index.copy_from_slice(&prepared.index);
        self.book.copy_from_slice(&prepared.book);
    }

    /// A fresh table of the settings of the head.
    pub fn clear(&mut self, fresh: Fresh) -> Answer {
        let Head {
            d,
            fineness,
            capacity,
            room,
            ..
        } = self.head;
        let (keys, sums, index, book) = (&mut self.keys, &mut self.sums, &mut self.index, &mut self.book);
        let made = fresh(d, fineness, capacity, room, keys, sums, index, book);
        self.head = made.head;
        made
    }

    pub fn enter(&mut self, enter: Enter, list: &[i32]) -> Entered {
        let (keys, sums, index, book) = (&mut self.keys, &mut self.sums, &mut self.index, &mut self.book);
        let entered = enter(self.head, keys, sums, index, book, list);
        self.head = entered.head;
        entered
    }

    pub fn merge(&mut self, merge: Merge, source: &Memory) -> Answer {
        let (keys, sums, index, book) = (&mut self.keys, &mut self.sums, &mut self.index, &mut self.book);
        let merged = merge(
            self.head,
            keys,
            sums,
            index,
            book,
            source.head,
            &source.keys,
            &source.sums,
            &source.index,
            &source.book,
        );
        self.head = merged.head;
        merged
    }

    pub fn withdraw(&mut self, withdraw: Withdraw, number: i32) -> Answer {
        let (keys, sums, index, book) = (&mut self.keys, &mut self.sums, &mut self.index, &mut self.book);
        let left = withdraw(self.head, keys, sums, index, book, number);
        self.head = left.head;
        left
    }

    pub fn list(&self, list: List, order: &mut [u16]) -> u8 {
        list(self.head, &self.keys, &self.sums, &self.index, &self.book, order)
    }

    pub fn filter(&self, filter: Filter, queries: &[i32], to: &mut Sheets) -> u8 {
        let Sheets {
            first,
            second,
            values,
            codes,
        } = to;
        let (keys, sums, index, book) = (&self.keys, &self.sums, &self.index, &self.book);
        filter(
            self.head, keys, sums, index, book, first, second, queries, values, codes,
        )
    }

    /// Loads a log with a book of this room.
    pub fn load(&mut self, load: Load, log: &[u8], room: usize) -> Loaded {
        let (keys, sums, index, book) = (&mut self.keys, &mut self.sums, &mut self.index, &mut self.book);
        let loaded = load(log, room, keys, sums, index, book);
        self.head = loaded.head;
        loaded
    }
}
