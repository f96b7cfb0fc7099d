//! Runs each call on both sides, the verified one and the independent one, each on memory of its own, and compares
//! their answers and every element of every lent slice. The table handed in then holds what the verified call left.

use crate::differences::Differences;
use crate::guard::guarded;
use crate::random::Random;
use crate::sheets::Sheets;
use crate::sides::{Independent, Side, Verified};
use crate::table::Table;
use crate::tally::{Call, Tally, CALLS};
use std::fmt::Debug;
use vimrothi::calls::{self, Answer, Entered, Head, Loaded};

/// A call that may write a table: what both sides answered and left, and the table before.
struct Written<T> {
    answer: T,
    found: Differences,
    before: Table,
}

impl<T: PartialEq + Debug> Written<T> {
    /// Runs the verified call on the table and the independent one on a copy.
    fn by(
        table: &mut Table,
        verified: impl FnOnce(&mut Table) -> T,
        independent: impl FnOnce(&mut Table) -> T,
    ) -> Written<T> {
        let before = table.clone();
        let mut other = table.clone();
        let answer = verified(table);
        let independent = guarded(|| independent(&mut other));
        let mut found = Differences::of_answers(&answer, &independent);
        found.table("sides:", table, &other);
        Written { answer, found, before }
    }

    /// A call refused as a whole must have left the table as it was.
    fn must_be_unchanged(&mut self, table: &Table) {
        self.found.table("refused, before:", table, &self.before);
    }
}

/// The bytes of a log in hexadecimal.
fn hexadecimal(log: &[u8]) -> String {
    log.iter()
        .map(|byte| format!("{byte:02X}"))
        .collect::<Vec<_>>()
        .join(" ")
}

/// Whether all bytes are this one. A slice is held to itself one byte on, which takes far less time than byte for byte.
fn is_all(bytes: &[u8], byte: u8) -> bool {
    let Some((first, others)) = bytes.split_first() else {
        return true;
    };
    *first == byte && *others == bytes[..others.len()]
}

/// The comparison of one case: its counts, and a text for each disagreement.
#[derive(Default)]
pub struct Check {
    pub tally: Tally,
    pub failures: Vec<String>,
}

impl Check {
    /// Notes a disagreement, where there is one, with the whole input.
    fn settle(&mut self, call: Call, number: u8, differences: Differences, input: impl FnOnce() -> String) {
        self.tally.count(call, number);
        if !differences.lines.is_empty() {
            let name = CALLS[call as usize].1;
            let Differences { answers, lines } = differences;
            let lines = lines.join("\n  ");
            self.failures
                .push(format!("call {name}: {lines}\n  {answers}\n  input {}", input()));
        }
    }

    /// Notes a failure where something else that must hold does not.
    pub fn expect(&mut self, holds: bool, otherwise: impl FnOnce() -> String) {
        if !holds {
            self.failures.push(format!("expectation\n  {}", otherwise()));
        }
    }

    /// Settles a call that is done or refused as a whole, and keeps the head that it hands back.
    fn settle_whole(
        &mut self,
        call: Call,
        table: &mut Table,
        mut written: Written<Answer>,
        input: impl FnOnce() -> String,
    ) -> Answer {
        let answer = written.answer;
        if answer.number == 0 {
            self.tally.note_size(answer.head.readings, answer.head.points);
        } else {
            written.must_be_unchanged(table);
        }
        table.head = answer.head;
        let Written { found, before, .. } = written;
        self.settle(call, answer.number, found, || format!("{before}\n    {}", input()));
        answer
    }

    /// Compares fresh with the settings of the table's head, in the table's slices.
    pub fn fresh(&mut self, table: &mut Table) -> Answer {
        let written = Written::by(table, Verified::fresh, Independent::fresh);
        self.settle_whole(Call::Fresh, table, written, String::new)
    }

    /// Compares enter.
    pub fn enter(&mut self, table: &mut Table, list: &[i32]) -> Entered {
        let mut written = Written::by(
            table,
            |table| Verified::enter(table, list),
            |table| Independent::enter(table, list),
        );
        let answer = written.answer;
        if (1..=3).contains(&answer.number) {
            written.must_be_unchanged(table);
        } else {
            self.tally.note_size(answer.head.readings, answer.head.points);
        }
        table.head = answer.head;
        self.tally.readings += answer.taken as u64;
        let Written { found, before, .. } = written;
        self.settle(Call::Enter, answer.number, found, || {
            format!("{before}\n    readings {list:?}")
        });
        answer
    }

    /// Compares merge. The source is only read.
    pub fn merge(&mut self, table: &mut Table, source: &Table) -> Answer {
        let lent = source.clone();
        let mut written = Written::by(
            table,
            |table| Verified::merge(table, &lent),
            |table| Independent::merge(table, source),
        );
        written.found.table("source, before:", &lent, source);
        self.settle_whole(Call::Merge, table, written, || format!("and source {source}"))
    }

    /// Compares withdraw.
    pub fn withdraw(&mut self, table: &mut Table, number: i32) -> Answer {
        let written = Written::by(
            table,
            |table| Verified::withdraw(table, number),
            |table| Independent::withdraw(table, number),
        );
        self.settle_whole(Call::Withdraw, table, written, || format!("number {number}"))
    }

    /// Compares list.
    pub fn list(&mut self, table: &Table, list: &mut [u16]) -> u8 {
        let lent = table.clone();
        let before = list.to_vec();
        let mut other = list.to_vec();
        let verified = Verified::list(&lent, list);
        let independent = guarded(|| Independent::list(table, &mut other));
        let mut found = Differences::of_answers(&verified, &independent);
        found.slice("sides: list", list, &other);
        found.table("table, before:", &lent, table);
        if verified != 0 {
            found.slice("refused, before: list", list, &before);
        } else {
            self.tally.note_size(table.head.readings, table.head.points);
        }
        self.settle(Call::List, verified, found, || format!("{table}\n    list {before:?}"));
        verified
    }

    /// Compares filter.
    pub fn filter(&mut self, table: &Table, sheets: &mut Sheets) -> u8 {
        let lent = table.clone();
        let before = sheets.clone();
        let mut other = sheets.clone();
        let verified = Verified::filter(&lent, sheets);
        let independent = guarded(|| Independent::filter(table, &mut other));
        let mut found = Differences::of_answers(&verified, &independent);
        found.sheets("sides:", sheets, &other);
        found.table("table, before:", &lent, table);
        if verified != 0 {
            found.sheets("refused, before:", sheets, &before);
        } else {
            sheets
                .codes
                .iter()
                .for_each(|code| self.tally.count(Call::Query, *code));
            self.tally.note_size(table.head.readings, table.head.points);
        }
        self.settle(Call::Filter, verified, found, || format!("{table}\n    {before:?}"));
        verified
    }

    /// Compares load into the table's slices, told the room of the table's head. The table's head is then what load
    /// hands back.
    pub fn load(&mut self, log: &[u8], table: &mut Table) -> Loaded {
        let mut written = Written::by(
            table,
            |table| Verified::load(table, log),
            |table| Independent::load(table, log),
        );
        let answer = written.answer;
        // A head of all 0 says that no table was made.
        if answer.head == Head::default() {
            written.must_be_unchanged(table);
        }
        table.head = answer.head;
        self.tally.readings += answer.head.readings as u64;
        self.tally.note_size(answer.head.readings, answer.head.points);
        let Written { found, before, .. } = written;
        self.settle(Call::Load, answer.number, found, || {
            format!("log {}\n    into {before}", hexadecimal(log))
        });
        answer
    }

    /// Compares report, and looks whether the buffer is untouched past the bytes of the report.
    pub fn report(&mut self, random: &mut Random, log: &[u8]) {
        let filler = random.bits() as u8;
        let mut buffer = vec![filler; calls::REPORT_ROOM + random.below(3)];
        let length = calls::report(log, &mut buffer);
        let independent = guarded(|| independent::report(log));
        let (written, rest) = buffer.split_at(length.min(buffer.len()));
        let text = |bytes: &[u8]| String::from_utf8_lossy(bytes).into_owned();
        let independent_text = independent.as_ref().map(|bytes| text(bytes)).map_err(String::clone);
        let mut found = Differences::of_answers(&text(written), &independent_text);
        if let Ok(bytes) = &independent {
            found.slice("sides: report", written, bytes);
        }
        if !is_all(rest, filler) {
            found
                .lines
                .push(format!("the buffer has changed past the {length} bytes of the report"));
        }
        let number = self.count_answers(written);
        self.settle(Call::Report, number, found, || format!("log {}", hexadecimal(log)));
    }

    /// Looks whether report leaves a buffer alone that is too short. The independent version has no buffer.
    pub fn report_without_room(&mut self, random: &mut Random, log: &[u8]) {
        let mut buffer = vec![0x5A; random.below(calls::REPORT_ROOM)];
        let length = calls::report(log, &mut buffer);
        let untouched = is_all(&buffer, 0x5A);
        self.expect(length == 0 && untouched, || {
            format!(
                "a buffer of {} bytes: {length} bytes answered, untouched {untouched}",
                buffer.len()
            )
        });
    }

    /// Counts the codes of a report's ANSWER lines, and answers the number of its REFUSED line, 0 without one.
    fn count_answers(&mut self, report: &[u8]) -> u8 {
        let text = String::from_utf8_lossy(report);
        let mut number = 0;
        for line in text.lines() {
            let words: Vec<&str> = line.split(' ').collect();
            match words[..] {
                ["ANSWER", _, code] => self.tally.count(Call::Query, code.parse().unwrap_or(u8::MAX)),
                ["REFUSED", told, _] => number = told.parse().unwrap_or(u8::MAX),
                _ => {}
            }
        }
        number
    }
}
