//! What a refused call tells: the documents' number, its words and the place. The numbers come from the proved
//! library; this file only gives them a Rust type. The safe functions over owned memory all answer with it.

use std::error::Error;
use std::fmt;

use crate::numbers::{words, DONE};

/// Where a refusal was met. Readings, queries and bytes are counted from 0. Calls to come may have places of their own.
#[derive(Clone, Copy, Debug, PartialEq, Eq, Hash)]
#[non_exhaustive]
pub enum Place {
    /// The call as a whole. It changed nothing.
    WholeCall,
    /// This reading of the list. As many readings were taken before it, and it left nothing in the table.
    Reading(usize),
    /// This query of the list.
    Query(usize),
    /// The item of the log whose kind byte stands at this offset.
    Byte(usize),
}

/// Why something was refused, and where.
///
/// ```
/// use vimrothi::{numbers, Place, Table};
///
/// let mut table = Table::fresh(1, 2, 8, 100)?;
/// let refusal = table.enter(&[101, 3, -3, 10, 102, 5, -4, 10]).unwrap_err();
/// assert_eq!(refusal.number(), numbers::SUM_NOT_ZERO);
/// assert_eq!(refusal.place(), Place::Reading(1));
/// assert_eq!(refusal.to_string(), "refused with 5 at reading 1: the coordinates don't sum to 0");
/// # Ok::<(), vimrothi::Refusal>(())
/// ```
#[derive(Clone, Copy, Debug, PartialEq, Eq, Hash)]
pub struct Refusal {
    number: u8,
    place: Place,
}

impl Refusal {
    pub(crate) fn new(number: u8, place: Place) -> Refusal {
        Refusal { number, place }
    }

    /// The answer of a call as a result: done where its number is 0.
    pub(crate) fn unless_done(number: u8, place: Place) -> Result<(), Refusal> {
        match number {
            DONE => Ok(()),
            _ => Err(Refusal::new(number, place)),
        }
    }

    /// The documents' number, 1 to 15, 19 or 20; [`numbers`](crate::numbers) has their names. (16 is the program's, and
    /// [`report()`](crate::report()) prints it.)
    pub fn number(self) -> u8 {
        self.number
    }

    /// What was refused: the whole call, a reading, a query or an item of a log.
    pub fn place(self) -> Place {
        self.place
    }

    /// The documents' words for the number.
    pub fn words(self) -> &'static str {
        words(self.number)
    }
}

impl fmt::Display for Refusal {
    fn fmt(&self, f: &mut fmt::Formatter<'_>) -> fmt::Result {
        write!(f, "refused with {}", self.number)?;
        match self.place {
            Place::WholeCall => {}
            Place::Reading(reading) => write!(f, " at reading {reading}")?,
            Place::Query(query) => write!(f, " at query {query}")?,
            Place::Byte(offset) => write!(f, " at byte {offset}")?,
        }
        write!(f, ": {}", self.words())
    }
}

impl Error for Refusal {}
