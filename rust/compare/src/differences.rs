//! The two answers of one call, and where they or the lent memory differ.

use crate::sheets::Sheets;
use crate::table::Table;
use std::fmt::Debug;

/// The two answers of one call, and their differences and those of the lent memory, one line for each.
pub struct Differences {
    pub answers: String,
    pub lines: Vec<String>,
}

impl Differences {
    /// Starts with the two answers. A panic of the independent version is a difference.
    pub fn of_answers<T: PartialEq + Debug>(verified: &T, independent: &Result<T, String>) -> Differences {
        let told = match independent {
            Ok(answer) => format!("answers {answer:?}"),
            Err(panic) => format!("fails: {panic}"),
        };
        let alike = independent.as_ref() == Ok(verified);
        Differences {
            answers: format!("verified answers {verified:?}\n  independent {told}"),
            lines: if alike {
                Vec::new()
            } else {
                vec!["the answers differ".to_string()]
            },
        }
    }

    /// Adds the first difference of two slices, where there is one.
    pub fn slice<T: PartialEq + Debug>(&mut self, name: &str, verified: &[T], other: &[T]) {
        if verified.len() != other.len() {
            self.lines
                .push(format!("{name}: {} elements and {}", verified.len(), other.len()));
        } else if let Some(place) = (0..verified.len()).find(|place| verified[*place] != other[*place]) {
            let (one, two) = (&verified[place], &other[place]);
            self.lines.push(format!(
                "{name} differ first at {place}: verified {one:?}, other {two:?}"
            ));
        }
    }

    /// Adds the differences of a table's four slices.
    pub fn table(&mut self, name: &str, verified: &Table, other: &Table) {
        self.slice(&format!("{name} keys"), &verified.keys, &other.keys);
        self.slice(&format!("{name} sums"), &verified.sums, &other.sums);
        self.slice(&format!("{name} index"), &verified.index, &other.index);
        self.slice(&format!("{name} book"), &verified.book, &other.book);
    }

    /// Adds the differences of what filter was lent.
    pub fn sheets(&mut self, name: &str, verified: &Sheets, other: &Sheets) {
        self.slice(&format!("{name} first sheet"), &verified.first, &other.first);
        self.slice(&format!("{name} second sheet"), &verified.second, &other.second);
        self.slice(&format!("{name} queries"), &verified.queries, &other.queries);
        self.slice(&format!("{name} values"), &verified.values, &other.values);
        self.slice(&format!("{name} codes"), &verified.codes, &other.codes);
    }
}
