//! The two versions that are compared, behind one set of calls over the comparison's own tables: the verified one, and
//! the independent one. A call leaves the table's head as it is; the new one is in the answer.

use crate::sheets::Sheets;
use crate::table::Table;
use vimrothi::calls::{self, Answer, Entered, Head, Loaded};

/// The calls on tables.
pub trait Side {
    /// Fresh with the settings of the table's head.
    fn fresh(table: &mut Table) -> Answer;
    fn enter(table: &mut Table, list: &[i32]) -> Entered;
    fn merge(table: &mut Table, source: &Table) -> Answer;
    fn withdraw(table: &mut Table, number: i32) -> Answer;
    fn list(table: &Table, list: &mut [u16]) -> u8;
    fn filter(table: &Table, sheets: &mut Sheets) -> u8;
    /// Load with the room of the table's head.
    fn load(table: &mut Table, log: &[u8]) -> Loaded;
}

/// The proved library.
pub struct Verified;

impl Side for Verified {
    fn fresh(table: &mut Table) -> Answer {
        let Head {
            d,
            fineness,
            capacity,
            room,
            ..
        } = table.head;
        let (keys, sums, index, book) = (&mut table.keys, &mut table.sums, &mut table.index, &mut table.book);
        calls::fresh(d, fineness, capacity, room, keys, sums, index, book)
    }

    fn enter(table: &mut Table, list: &[i32]) -> Entered {
        let (keys, sums, index, book) = (&mut table.keys, &mut table.sums, &mut table.index, &mut table.book);
        calls::enter(table.head, keys, sums, index, book, list)
    }

    fn merge(table: &mut Table, source: &Table) -> Answer {
        calls::merge(
            table.head,
            &mut table.keys,
            &mut table.sums,
            &mut table.index,
            &mut table.book,
            source.head,
            &source.keys,
            &source.sums,
            &source.index,
            &source.book,
        )
    }

    fn withdraw(table: &mut Table, number: i32) -> Answer {
        let (keys, sums, index, book) = (&mut table.keys, &mut table.sums, &mut table.index, &mut table.book);
        calls::withdraw(table.head, keys, sums, index, book, number)
    }

    fn list(table: &Table, list: &mut [u16]) -> u8 {
        let (keys, sums, index, book) = (&table.keys, &table.sums, &table.index, &table.book);
        calls::list(table.head, keys, sums, index, book, list)
    }

    fn filter(table: &Table, sheets: &mut Sheets) -> u8 {
        calls::filter(
            table.head,
            &table.keys,
            &table.sums,
            &table.index,
            &table.book,
            &mut sheets.first,
            &mut sheets.second,
            &sheets.queries,
            &mut sheets.values,
            &mut sheets.codes,
        )
    }

    fn load(table: &mut Table, log: &[u8]) -> Loaded {
        let (keys, sums, index, book) = (&mut table.keys, &mut table.sums, &mut table.index, &mut table.book);
        calls::load(log, table.head.room, keys, sums, index, book)
    }
}

/// The independent version, with the answers in the verified one's types.
pub struct Independent;

impl Side for Independent {
    fn fresh(table: &mut Table) -> Answer {
        let Head {
            d,
            fineness,
            capacity,
            room,
            ..
        } = table.head;
        let (keys, sums, index, book) = (&mut table.keys, &mut table.sums, &mut table.index, &mut table.book);
        our_answer(independent::fresh(d, fineness, capacity, room, keys, sums, index, book))
    }

    fn enter(table: &mut Table, list: &[i32]) -> Entered {
        let (keys, sums, index, book) = (&mut table.keys, &mut table.sums, &mut table.index, &mut table.book);
        let answer = independent::enter(theirs(table.head), keys, sums, index, book, list);
        Entered {
            taken: answer.taken,
            number: answer.number,
            head: ours(answer.head),
        }
    }

    fn merge(table: &mut Table, source: &Table) -> Answer {
        our_answer(independent::merge(
            theirs(table.head),
            &mut table.keys,
            &mut table.sums,
            &mut table.index,
            &mut table.book,
            theirs(source.head),
            &source.keys,
            &source.sums,
            &source.index,
            &source.book,
        ))
    }

    fn withdraw(table: &mut Table, number: i32) -> Answer {
        let (keys, sums, index, book) = (&mut table.keys, &mut table.sums, &mut table.index, &mut table.book);
        our_answer(independent::withdraw(
            theirs(table.head),
            keys,
            sums,
            index,
            book,
            number,
        ))
    }

    fn list(table: &Table, list: &mut [u16]) -> u8 {
        let (keys, sums, index, book) = (&table.keys, &table.sums, &table.index, &table.book);
        independent::list(theirs(table.head), keys, sums, index, book, list)
    }

    fn filter(table: &Table, sheets: &mut Sheets) -> u8 {
        independent::filter(
            theirs(table.head),
            &table.keys,
            &table.sums,
            &table.index,
            &table.book,
            &mut sheets.first,
            &mut sheets.second,
            &sheets.queries,
            &mut sheets.values,
            &mut sheets.codes,
        )
    }

    fn load(table: &mut Table, log: &[u8]) -> Loaded {
        let (keys, sums, index, book) = (&mut table.keys, &mut table.sums, &mut table.index, &mut table.book);
        let answer = independent::load(log, table.head.room, keys, sums, index, book);
        Loaded {
            number: answer.number,
            offset: answer.offset,
            head: ours(answer.head),
        }
    }
}

fn our_answer(answer: independent::Answer) -> Answer {
    Answer {
        number: answer.number,
        head: ours(answer.head),
    }
}

fn theirs(head: Head) -> independent::Head {
    independent::Head {
        d: head.d,
        fineness: head.fineness,
        capacity: head.capacity,
        room: head.room,
        readings: head.readings,
        points: head.points,
    }
}

fn ours(head: independent::Head) -> Head {
    let independent::Head {
        d,
        fineness,
        capacity,
        room,
        readings,
        points,
    } = head;
    Head::new(d, fineness, capacity, room).with_counts(readings, points)
}
