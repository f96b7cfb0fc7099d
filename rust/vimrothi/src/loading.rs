//! Loading a log into a table of the log's own settings. A log may be refused half-way, and the readings before that
//! place are worth keeping, so the error of a load carries the table that holds them.

use std::error::Error;
use std::fmt;

use crate::calls;
use crate::numbers::{DONE, OTHER_LENGTH};
use crate::refusal::{Place, Refusal};
use crate::table::{memory, Table};

impl Table {
    /// Loads a log: a fresh table of the log's settings, with a book that has room for B readings, 1 to 4,096, and the
    /// log's readings entered in order.
    ///
    /// A numbered reading (kinds 71 to 75, hexadecimal) keeps its number. An unnumbered one (11 to 15) gets the lowest
    /// from 0 up that the table does not hold when it is met. So two logs of unnumbered readings have the same numbers,
    /// and [`merge`](Table::merge) refuses their tables with 20: logs that are to come together want numbered readings.
    ///
    /// Queries of the log are passed over; [`report()`](crate::report()) answers them. A log has any length, and up to
    /// 8,192 points.
    ///
    /// # Errors
    ///
    /// Loading stops at the first refusal: 12, 13, 14 or 15 for an item, 1 for the settings or the room, 4, 5, 6, 20, 7
    /// or 8 for a reading. [`LoadRefusal`] has the number, the offset and the table with the readings before that
    /// place.
    ///
    /// ```
    /// use vimrothi::{Reading, Table};
    ///
    /// // d = 1, S = 2, C = 8; then reading 101, which is 10 at (3, -3).
    /// let log = b"\x01\x01\x02\x08\x00\x71\x65\x00\x00\x00\x03\x00\x00\x00\xFD\xFF\xFF\xFF\x0A\x00\x00\x00";
    /// assert_eq!(Table::load(log, 100)?.readings(), [Reading::new(101, [3, -3], 10)]);
    ///
    /// // The first reading is whole and a second one has begun.
    /// let cut = [&log[..], b"\x71\x66\x00"].concat();
    /// let stopped = Table::load(&cut, 100).unwrap_err();
    /// assert_eq!((stopped.number(), stopped.offset()), (15, 22));
    /// assert_eq!(stopped.into_table().unwrap().readings_len(), 1);
    /// # Ok::<(), vimrothi::LoadRefusal>(())
    /// ```
    pub fn load(log: &[u8], room: usize) -> Result<Table, LoadRefusal> {
        // With no memory lent the call judges settings and room alone: where they are good, it answers 2.
        let judged = calls::load(log, room, &mut [], &mut [], &mut [], &mut []);
        if judged.number != OTHER_LENGTH {
            return Err(LoadRefusal::new(judged.number, judged.offset, None));
        }
        // So the settings are the log's first five bytes: the kind, d, S, and C as two bytes.
        let d = usize::from(log[1]);
        let capacity = usize::from(u16::from_le_bytes([log[3], log[4]]));
        let (mut keys, mut sums, mut index, mut book) = memory(d, capacity, room);
        let loaded = calls::load(log, room, &mut keys, &mut sums, &mut index, &mut book);
        let table = Table::holding(loaded.head, keys, sums, index, book);
        match loaded.number {
            DONE => Ok(table),
            number => Err(LoadRefusal::new(number, loaded.offset, Some(table))),
        }
    }
}

/// Why and where a log was refused, with the table of the readings before that place.
///
/// There is a table wherever the log's settings were accepted, even if it holds no reading yet. The bytes of the log
/// up to [`offset`](LoadRefusal::offset) are then whole items, and they alone load into the same table, unrefused.
#[derive(Clone, Debug)]
pub struct LoadRefusal {
    number: u8,
    offset: usize,
    // Boxed, so that a result of a load is not much larger than a table.
    table: Option<Box<Table>>,
}

impl LoadRefusal {
    fn new(number: u8, offset: usize, table: Option<Table>) -> LoadRefusal {
        let table = table.map(Box::new);
        LoadRefusal { number, offset, table }
    }

    /// The documents' number; [`numbers`](crate::numbers) has their names.
    pub fn number(&self) -> u8 {
        self.number
    }

    /// The offset of the refused item's kind byte.
    pub fn offset(&self) -> usize {
        self.offset
    }

    /// The refusal without the table. Its place is [`Place::Byte`].
    pub fn refusal(&self) -> Refusal {
        Refusal::new(self.number, Place::Byte(self.offset))
    }

    /// The table with the readings before the offset; nothing where no settings were accepted.
    pub fn table(&self) -> Option<&Table> {
        self.table.as_deref()
    }

    /// The same table, to be kept.
    pub fn into_table(self) -> Option<Table> {
        self.table.map(|table| *table)
    }
}

impl fmt::Display for LoadRefusal {
    fn fmt(&self, f: &mut fmt::Formatter<'_>) -> fmt::Result {
        self.refusal().fmt(f)
    }
}

impl Error for LoadRefusal {}

/// Lets `?` turn the refusal of a load into a [`Refusal`], where the table is not wanted.
impl From<LoadRefusal> for Refusal {
    fn from(stopped: LoadRefusal) -> Refusal {
        stopped.refusal()
    }
}
