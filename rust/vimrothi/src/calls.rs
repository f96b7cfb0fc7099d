//! The calls of documents 01 and 02 over lent slices, as safe functions. Each does its work or refuses with a number,
//! for every input: there is nothing to test before a call. [`Table`](crate::Table) is made of them, with memory of its
//! own.
//!
//! A table here is a [`Head`] by value and four lent slices: keys (d·C numbers), sums (2·C: mass, then value sum),
//! index (2·C) and book ((d + 3)·B: the readings held, each its number, d + 1 coordinates and the value). Numbers are
//! tested in the order in which each call names them, and the first that is met is answered. A call refused as a whole
//! hands back the head that it was given and changes no lent memory. [`numbers`](crate::numbers) has the names of the
//! numbers, and [`words`](crate::words) the words of each.
//!
//! Each call that is lent a table first tests all of it, its book with it, which takes about a millisecond where it is
//! full: so enter lists of readings, not single ones.
//!
//! ```
//! use vimrothi::{calls, numbers};
//!
//! let (mut keys, mut sums, mut index, mut book) = ([0; 8], [0; 16], [0; 16], [0; 12]);
//! let made = calls::fresh(1, 2, 8, 3, &mut keys, &mut sums, &mut index, &mut book);
//! assert_eq!(made.number, numbers::DONE);
//!
//! // Reading 101 is 10 at (3, -3), and 102 is 4 at (2, -2).
//! let list = [101, 3, -3, 10, 102, 2, -2, 4];
//! let entered = calls::enter(made.head, &mut keys, &mut sums, &mut index, &mut book, &list);
//! assert_eq!((entered.taken, entered.number), (2, numbers::DONE));
//! assert_eq!(entered.head.points, 2);
//! // Points are stored in the order in which they were met: here (2, -2), which leaves 0, before (1, -1).
//! assert_eq!(keys[..2], [2, 1]);
//! assert_eq!(sums[..4], [2, 20, 6, 36]);
//! assert_eq!(book[..8], list);
//!
//! // Without 101 the point (2, -2) has no mass: it leaves, and the last point takes its number.
//! let left = calls::withdraw(entered.head, &mut keys, &mut sums, &mut index, &mut book, 101);
//! assert_eq!((left.number, left.head.readings, left.head.points), (numbers::DONE, 1, 1));
//! assert_eq!((keys[..2].to_vec(), sums[..4].to_vec()), (vec![1, 0], vec![4, 16, 0, 0]));
//! assert_eq!(book[..8], [102, 2, -2, 4, 0, 0, 0, 0]);
//! ```

// Why every `unsafe` below is sound. The library was compiled from functions whose parameters are references and
// slices. Each pointer passed here comes from a Rust reference or slice that lives through the call, is not null and
// is aligned, and each length is that of its own slice. What the library may write comes from a `&mut`, or from a
// local variable of the call (the head's six fields, `taken`, `offset`), so nothing else reaches it meanwhile. The
// library proves that it stays inside what is lent, whatever the numbers are, and it keeps no pointer.

use crate::declared;

/// A table's head: the settings, and the numbers of readings and of points. Settings to come will be fields of it, so
/// it is made by [`new`](Head::new) and [`with_counts`](Head::with_counts). A call takes a head of any numbers.
///
/// ```
/// use vimrothi::Head;
///
/// let head = Head::new(1, 2, 8, 4).with_counts(2, 3);
/// assert_eq!((head.d, head.fineness, head.capacity, head.room), (1, 2, 8, 4));
/// assert_eq!((head.readings, head.points), (2, 3));
/// ```
#[derive(Clone, Copy, Debug, Default, PartialEq, Eq)]
#[non_exhaustive]
pub struct Head {
    /// d, 1 to 5.
    pub d: usize,
    /// S, 1 to 64.
    pub fineness: u32,
    /// C, 1 to 8,192.
    pub capacity: usize,
    /// B, 1 to 4,096: the room of the book.
    pub room: usize,
    /// n, at most B: the book has so many readings.
    pub readings: usize,
    /// m, at most C.
    pub points: usize,
}

impl Head {
    /// The head of a table without readings: dimension d, fineness S, capacity C and the book's room B.
    pub fn new(d: usize, fineness: u32, capacity: usize, room: usize) -> Head {
        Head {
            d,
            fineness,
            capacity,
            room,
            readings: 0,
            points: 0,
        }
    }

    /// The head of the same settings with these numbers of readings and of points.
    pub fn with_counts(self, readings: usize, points: usize) -> Head {
        Head {
            readings,
            points,
            ..self
        }
    }
}

/// A number, 0 where the call was done, and the head that is handed back.
#[derive(Clone, Copy, Debug, PartialEq, Eq)]
pub struct Answer {
    /// 0, or the number of the refusal.
    pub number: u8,
    /// The new head; refused, the head as it was given.
    pub head: Head,
}

/// How many readings were taken, the number, 0 where all were, and the new head.
#[derive(Clone, Copy, Debug, PartialEq, Eq)]
pub struct Entered {
    /// The number of readings taken, and so the place of the refused one in the list.
    pub taken: usize,
    /// 0, or the number of the refusal.
    pub number: u8,
    /// The head with the readings that were taken.
    pub head: Head,
}

/// The number, the offset that it is told at, and the head. A log taken whole has 0 and its length.
#[derive(Clone, Copy, Debug, PartialEq, Eq)]
pub struct Loaded {
    /// 0, or the number of the refusal.
    pub number: u8,
    /// The offset of the refused item's kind byte, or the length of a log taken whole.
    pub offset: usize,
    /// The head with the readings before the offset; all 0 where no settings were accepted or the slices were refused.
    pub head: Head,
}

/// Makes a fresh table of dimension d, fineness S, capacity C and room B in the four lent slices.
///
/// Refuses with 1 and 2. Done, the head has no readings and no points, and the four slices are filled with 0. Refused,
/// the slices are unchanged, and the head has d, S, C and B as given, with 0 readings and 0 points.
#[allow(clippy::too_many_arguments)]
pub fn fresh(
    d: usize,
    fineness: u32,
    capacity: usize,
    room: usize,
    keys: &mut [i32],
    sums: &mut [i64],
    index: &mut [u16],
    book: &mut [i32],
) -> Answer {
    let mut head = Head::new(d, fineness, capacity, room);
    // SAFETY: pointers and lengths of the slices lent to this function, and of its own `head`.
    let number = unsafe {
        declared::vimrothi_fresh(
            &mut head.d,
            &mut head.fineness,
            &mut head.capacity,
            &mut head.room,
            &mut head.readings,
            &mut head.points,
            keys.as_mut_ptr(),
            keys.len(),
            sums.as_mut_ptr(),
            sums.len(),
            index.as_mut_ptr(),
            index.len(),
            book.as_mut_ptr(),
            book.len(),
        )
    };
    Answer { number, head }
}

/// Enters a list of readings into a table, in the book's form. Each is its number, d + 1 coordinates and then the
/// value.
///
/// Refuses with 1, 2 and 3 as a whole, an empty list too: nothing is taken, and head and memory are as they were. Then
/// each reading is refused with 4, 5, 6, 20, 7 or 8, or taken. 20 is told of a number that the table holds by then,
/// also from earlier in the same list. It stops at the first refused reading. The table holds those taken, the book has
/// them behind the others, and nothing of the refused one is there; what stood in keys and sums past the last point,
/// and in the book past the last reading, stays.
pub fn enter(
    mut head: Head,
    keys: &mut [i32],
    sums: &mut [i64],
    index: &mut [u16],
    book: &mut [i32],
    list: &[i32],
) -> Entered {
    let mut taken = 0;
    // SAFETY: pointers and lengths of the slices lent to this function, and of its own `head` and `taken`.
    let number = unsafe {
        declared::vimrothi_enter(
            &mut head.d,
            &mut head.fineness,
            &mut head.capacity,
            &mut head.room,
            &mut head.readings,
            &mut head.points,
            keys.as_mut_ptr(),
            keys.len(),
            sums.as_mut_ptr(),
            sums.len(),
            index.as_mut_ptr(),
            index.len(),
            book.as_mut_ptr(),
            book.len(),
            list.as_ptr(),
            list.len(),
            &mut taken,
        )
    };
    Entered { taken, number, head }
}

/// Adds a source table, which is only read, to a target table. Capacities and rooms may differ.
///
/// Refuses with 1, 2 and 3, for each the target before the source, then 9, 20, 7 and 8: all or nothing. 20 is told
/// where the target holds some number of the source's book, and 7 where the readings are more than the target's B.
/// Done, each of the source's pairs is added to the target's, new points are appended in the source's order, and the
/// source's readings stand behind the target's in its book, in their own order. Refused, the target's head and memory
/// are as they were.
#[allow(clippy::too_many_arguments)]
pub fn merge(
    mut head: Head,
    keys: &mut [i32],
    sums: &mut [i64],
    index: &mut [u16],
    book: &mut [i32],
    source: Head,
    source_keys: &[i32],
    source_sums: &[i64],
    source_index: &[u16],
    source_book: &[i32],
) -> Answer {
    // SAFETY: pointers and lengths of the slices lent to this function, and of its own `head`.
    let number = unsafe {
        declared::vimrothi_merge(
            &mut head.d,
            &mut head.fineness,
            &mut head.capacity,
            &mut head.room,
            &mut head.readings,
            &mut head.points,
            keys.as_mut_ptr(),
            keys.len(),
            sums.as_mut_ptr(),
            sums.len(),
            index.as_mut_ptr(),
            index.len(),
            book.as_mut_ptr(),
            book.len(),
            source.d,
            source.fineness,
            source.capacity,
            source.room,
            source.readings,
            source.points,
            source_keys.as_ptr(),
            source_keys.len(),
            source_sums.as_ptr(),
            source_sums.len(),
            source_index.as_ptr(),
            source_index.len(),
            source_book.as_ptr(),
            source_book.len(),
        )
    };
    Answer { number, head }
}

/// Takes one reading back from a table: the one of this number.
///
/// Refuses with 1, 2, 3 and 19. Done, the reading's weights are subtracted. A point whose mass becomes 0 leaves the
/// table, and the last point takes its number; where several leave, they go in ascending remainder. The vacated keys
/// and sums become 0, and the index is that of entering the points afresh by number. The book closes up, and what was
/// the place of its last reading becomes 0. Refused, head and memory are as they were.
pub fn withdraw(
    mut head: Head,
    keys: &mut [i32],
    sums: &mut [i64],
    index: &mut [u16],
    book: &mut [i32],
    number: i32,
) -> Answer {
    // SAFETY: pointers and lengths of the slices lent to this function, and of its own `head`.
    let number = unsafe {
        declared::vimrothi_withdraw(
            &mut head.d,
            &mut head.fineness,
            &mut head.capacity,
            &mut head.room,
            &mut head.readings,
            &mut head.points,
            keys.as_mut_ptr(),
            keys.len(),
            sums.as_mut_ptr(),
            sums.len(),
            index.as_mut_ptr(),
            index.len(),
            book.as_mut_ptr(),
            book.len(),
            number,
        )
    };
    Answer { number, head }
}

/// Lists the points of a table, which is only read, in a lent list of C numbers.
///
/// Answers 0, or refuses with 1, 2 and 3. Done, the list has the point numbers, from 0, ordered by coordinate 0, then 1
/// and so on, ascending, and 0 in the rest. Refused, the list is unchanged.
pub fn list(head: Head, keys: &[i32], sums: &[i64], index: &[u16], book: &[i32], list: &mut [u16]) -> u8 {
    // SAFETY: pointers and lengths of the slices lent to this function.
    unsafe {
        declared::vimrothi_list(
            head.d,
            head.fineness,
            head.capacity,
            head.room,
            head.readings,
            head.points,
            keys.as_ptr(),
            keys.len(),
            sums.as_ptr(),
            sums.len(),
            index.as_ptr(),
            index.len(),
            book.as_ptr(),
            book.len(),
            list.as_mut_ptr(),
            list.len(),
        )
    }
}

/// Answers queries of d + 1 coordinates each over a table, which is only read. It takes two work sheets of 2·C numbers
/// and exactly one value and one code for each query.
///
/// Answers 0, or refuses with 1, 2 and 3 as a whole, without queries too: sheets, values and codes are then unchanged.
/// Done, each query has its code, 0, 4, 5, 10 or 11, and its value, 0 beside any code but 0. (11 is never met.) The
/// first sheet starts with the blurred pairs of the points in stored order; every other number of both sheets is 0.
#[allow(clippy::too_many_arguments)]
pub fn filter(
    head: Head,
    keys: &[i32],
    sums: &[i64],
    index: &[u16],
    book: &[i32],
    first: &mut [i64],
    second: &mut [i64],
    queries: &[i32],
    values: &mut [i32],
    codes: &mut [u8],
) -> u8 {
    // SAFETY: pointers and lengths of the slices lent to this function.
    unsafe {
        declared::vimrothi_filter(
            head.d,
            head.fineness,
            head.capacity,
            head.room,
            head.readings,
            head.points,
            keys.as_ptr(),
            keys.len(),
            sums.as_ptr(),
            sums.len(),
            index.as_ptr(),
            index.len(),
            book.as_ptr(),
            book.len(),
            first.as_mut_ptr(),
            first.len(),
            second.as_mut_ptr(),
            second.len(),
            queries.as_ptr(),
            queries.len(),
            values.as_mut_ptr(),
            values.len(),
            codes.as_mut_ptr(),
            codes.len(),
        )
    }
}

/// Loads a log into lent slices of the lengths that its settings and this room B give: a fresh table with the log's
/// readings entered in order. Queries are passed over.
///
/// A numbered reading (kinds 71 to 75, hexadecimal) keeps its number. An unnumbered one (11 to 15) gets the lowest from
/// 0 up that the table does not hold when it is met; so two logs of such readings have the same numbers, and a merge of
/// their tables is refused with 20.
///
/// Each item is refused with 12, 13, 14 or 15, then the settings with 1 and 2, a reading with 4, 5, 6, 20, 7 or 8. A
/// room out of range is 1 at offset 0. It stops at the first refusal and tells the offset of that item's kind byte. The
/// table then holds exactly the readings before that place. Where no settings were accepted or the slices were refused,
/// they are unchanged and the head is all 0. A log taken whole answers 0 and its length.
pub fn load(
    log: &[u8],
    room: usize,
    keys: &mut [i32],
    sums: &mut [i64],
    index: &mut [u16],
    book: &mut [i32],
) -> Loaded {
    let mut head = Head::default();
    let mut offset = 0;
    // SAFETY: pointers and lengths of the slices lent to this function, and of its own `head` and `offset`.
    let number = unsafe {
        declared::vimrothi_load(
            log.as_ptr(),
            log.len(),
            room,
            &mut head.d,
            &mut head.fineness,
            &mut head.capacity,
            &mut head.room,
            &mut head.readings,
            &mut head.points,
            keys.as_mut_ptr(),
            keys.len(),
            sums.as_mut_ptr(),
            sums.len(),
            index.as_mut_ptr(),
            index.len(),
            book.as_mut_ptr(),
            book.len(),
            &mut offset,
        )
    };
    Loaded { number, offset, head }
}

/// A buffer of so many bytes suffices for the report of every log.
pub const REPORT_ROOM: usize = 200_000;

/// Writes what `dyemap` prints for a log at the start of the buffer, and answers how many bytes that is.
///
/// Refusals are printed, as a line `REFUSED` with number and offset; 16 is among them. It takes a buffer of at least
/// [`REPORT_ROOM`] bytes. A shorter one is unchanged, and the answer is 0, which no report's length is.
pub fn report(log: &[u8], out: &mut [u8]) -> usize {
    // SAFETY: pointers and lengths of the slices lent to this function.
    unsafe { declared::vimrothi_report(log.as_ptr(), log.len(), out.as_mut_ptr(), out.len()) }
}
