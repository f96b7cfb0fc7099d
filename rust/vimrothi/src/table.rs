//! A table that owns its memory. Its calls are those of `calls` on slices of the right lengths, and a table is sound
//! from `fresh`, `load` or `from_parts` on, so 1 and 3 are met only where a table is made.

use std::borrow::Borrow;
use std::fmt;

use crate::calls::{self, Head};
use crate::numbers::{DONE, NOT_SOUND, OTHER_LENGTH};
use crate::reading::Reading;
use crate::refusal::{Place, Refusal};

/// A table of readings: the lattice points with weight above 0 for them, each with its mass and value sum, and a book
/// of the readings themselves, each with a number that no other has.
///
/// A table is not compared with `==`. Two tables of the same readings may store their points in another order, or have
/// other capacities, and answer every query alike. Compare [`points`](Table::points) for that, or
/// [`into_parts`](Table::into_parts) for the memory itself.
///
/// Each call on a table first tests all of it for soundness: the readings of its book are spread again, and the sums
/// compared. That takes the longer the larger it is, about a millisecond for a full one. So enter readings and ask
/// queries as lists, not one by one: [`enter`](Table::enter) and [`enter_all`](Table::enter_all),
/// [`filter`](Table::filter).
///
/// ```
/// use vimrothi::Table;
///
/// let mut table = Table::fresh(1, 2, 8, 100)?;
/// table.enter(&[101, 3, -3, 10, 102, 2, -2, 4])?; // reading 101 is 10 at (3, -3), 102 is 4 at (2, -2)
/// assert_eq!(table.answer_at(&[3, -3])?, 7);
/// table.withdraw(101)?;
/// assert_eq!(table.answer_at(&[3, -3])?, 4);
/// # Ok::<(), vimrothi::Refusal>(())
/// ```
#[derive(Clone)]
pub struct Table {
    head: Head,
    keys: Vec<i32>,
    sums: Vec<i64>,
    index: Vec<u16>,
    book: Vec<i32>,
}

/// A stored point, as the listing tells it.
#[derive(Clone, Debug, PartialEq, Eq, Hash)]
pub struct Point {
    /// All d + 1 coordinates. Their sum is 0.
    pub coordinates: Vec<i32>,
    /// The sum of the point's weights for all readings.
    pub mass: i64,
    /// The sum of weight times value, over all readings.
    pub value_sum: i64,
}

/// The memory of a table: keys, sums, index and book.
pub(crate) type Parts = (Vec<i32>, Vec<i64>, Vec<u16>, Vec<i32>);

/// Memory of the lengths that settings and a room in range give.
pub(crate) fn memory(d: usize, capacity: usize, room: usize) -> Parts {
    let book = vec![0; (d + 3) * room];
    (
        vec![0; d * capacity],
        vec![0; 2 * capacity],
        vec![0; 2 * capacity],
        book,
    )
}

impl Table {
    /// Puts a head and memory together. That they are sound is for the caller to see to, by a call.
    pub(crate) fn holding(head: Head, keys: Vec<i32>, sums: Vec<i64>, index: Vec<u16>, book: Vec<i32>) -> Table {
        Table {
            head,
            keys,
            sums,
            index,
            book,
        }
    }

    /// Makes a fresh table, without readings: dimension d, 1 to 5; fineness S, 1 to 64; capacity C, 1 to 8,192 points;
    /// room B of the book, 1 to 4,096 readings.
    ///
    /// # Errors
    ///
    /// 1 where a setting is out of range. No memory is asked for then.
    ///
    /// ```
    /// use vimrothi::Table;
    ///
    /// assert_eq!(Table::fresh(5, 64, 8192, 4096)?.points_len(), 0);
    /// assert_eq!(Table::fresh(5, 64, 8192, usize::MAX).unwrap_err().number(), 1);
    /// # Ok::<(), vimrothi::Refusal>(())
    /// ```
    pub fn fresh(d: usize, fineness: u32, capacity: usize, room: usize) -> Result<Table, Refusal> {
        // With no memory lent the call judges the settings alone: where they are in range, it answers 2.
        let judged = calls::fresh(d, fineness, capacity, room, &mut [], &mut [], &mut [], &mut []);
        if judged.number != OTHER_LENGTH {
            return Err(Refusal::new(judged.number, Place::WholeCall));
        }
        let (mut keys, mut sums, mut index, mut book) = memory(d, capacity, room);
        let made = calls::fresh(d, fineness, capacity, room, &mut keys, &mut sums, &mut index, &mut book);
        Refusal::unless_done(made.number, Place::WholeCall)?;
        Ok(Table::holding(made.head, keys, sums, index, book))
    }

    /// Takes up a table that was stored elsewhere, by its head and its memory.
    ///
    /// # Errors
    ///
    /// 1 where a setting is out of range, 2 where a part has another length than the settings give, 3 where the table
    /// is not sound.
    ///
    /// ```
    /// use vimrothi::Table;
    ///
    /// let mut table = Table::fresh(1, 2, 8, 100)?;
    /// table.enter_one(101, &[3, -3], 10)?;
    /// let (head, keys, sums, index, book) = table.into_parts();
    ///
    /// let again = Table::from_parts(head, keys.clone(), sums.clone(), index.clone(), book.clone())?;
    /// assert_eq!(again.readings_len(), 1);
    ///
    /// let mut spoilt = book;
    /// spoilt[3] += 1; // the value sums are no longer those of the book's readings
    /// assert_eq!(Table::from_parts(head, keys, sums, index, spoilt).unwrap_err().number(), 3);
    /// # Ok::<(), vimrothi::Refusal>(())
    /// ```
    pub fn from_parts(
        head: Head,
        keys: Vec<i32>,
        sums: Vec<i64>,
        index: Vec<u16>,
        book: Vec<i32>,
    ) -> Result<Table, Refusal> {
        let mut table = Table::holding(head, keys, sums, index, book);
        // An empty list is tested for 1, 2 and 3 like any other, and changes nothing.
        table.enter(&[])?;
        Ok(table)
    }

    /// The head and the memory of the table (keys, sums, index, book), to be stored elsewhere.
    pub fn into_parts(self) -> (Head, Vec<i32>, Vec<i64>, Vec<u16>, Vec<i32>) {
        (self.head, self.keys, self.sums, self.index, self.book)
    }

    /// Enters a list of readings in the book's form. Each is its number, d + 1 coordinates, each within ±1,000,000 and
    /// with sum 0, and then the value, within ±1,000,000.
    ///
    /// # Errors
    ///
    /// 2 for the whole call where the list isn't whole readings. Otherwise it stops at the first refused reading, with
    /// 4, 5, 6, 20, 7 or 8, and the table holds those before it and nothing of the refused one. [`Place::Reading`] says
    /// which reading that is, and so how many were taken. 20 is told of a number that the table holds by then, also
    /// from earlier in the same list, and 7 where the book is full.
    ///
    /// ```
    /// use vimrothi::{Place, Table};
    ///
    /// let mut table = Table::fresh(1, 2, 8, 100)?;
    /// let refusal = table.enter(&[101, 3, -3, 10, 102, 2, -2, 4, 101, 2, -2, 4]).unwrap_err();
    /// assert_eq!((refusal.number(), refusal.place()), (20, Place::Reading(2)));
    /// assert_eq!(table.readings_len(), 2);
    /// # Ok::<(), vimrothi::Refusal>(())
    /// ```
    pub fn enter(&mut self, readings: &[i32]) -> Result<(), Refusal> {
        let (keys, sums, index, book) = (&mut self.keys, &mut self.sums, &mut self.index, &mut self.book);
        let entered = calls::enter(self.head, keys, sums, index, book, readings);
        self.head = entered.head;
        // 1, 2 and 3 are for the whole call, and what is above them is for a reading.
        let place = match entered.number {
            DONE..=NOT_SOUND => Place::WholeCall,
            _ => Place::Reading(entered.taken),
        };
        Refusal::unless_done(entered.number, place)
    }

    /// Enters many readings in one call: the table is tested once, not once for each.
    ///
    /// # Errors
    ///
    /// As [`enter`](Table::enter) of them all as one list; 2 for the whole call, and none is taken, where a position
    /// has not d + 1 coordinates.
    ///
    /// ```
    /// use vimrothi::{numbers, Place, Reading, Table};
    ///
    /// let mut table = Table::fresh(1, 2, 8, 100)?;
    /// table.enter_all([Reading::new(101, [3, -3], 10), Reading::new(102, [2, -2], 4)])?;
    /// assert_eq!(table.answer_at(&[4, -4])?, 7);
    ///
    /// // Positions and values that were kept apart.
    /// let positions = vec![vec![5, -5], vec![5, -4]];
    /// let numbered = (201..).zip(positions.into_iter().zip([12, 12]));
    /// let readings = numbered.map(|(number, (position, value))| Reading::new(number, position, value));
    /// let refusal = table.enter_all(readings).unwrap_err();
    /// assert_eq!((refusal.number(), refusal.place()), (numbers::SUM_NOT_ZERO, Place::Reading(1)));
    /// assert_eq!(table.readings_len(), 3);
    ///
    /// // All that a table holds, in a table of more room.
    /// let mut larger = Table::fresh(1, 2, 512, 4096)?;
    /// larger.enter_all(table.readings())?;
    /// assert_eq!(larger.points(), table.points());
    /// # Ok::<(), vimrothi::Refusal>(())
    /// ```
    pub fn enter_all<R: Borrow<Reading>>(&mut self, readings: impl IntoIterator<Item = R>) -> Result<(), Refusal> {
        let mut list = Vec::new();
        for reading in readings {
            let Reading {
                number,
                position,
                value,
            } = reading.borrow();
            self.one_position(position)?;
            list.push(*number);
            list.extend_from_slice(position);
            list.push(*value);
        }
        self.enter(&list)
    }

    /// Enters one reading: its number, and a value at a position. [`enter_all`](Table::enter_all) is for many; one by
    /// one they take a test of the whole table each.
    ///
    /// # Errors
    ///
    /// As [`enter`](Table::enter) of a list of one; 2 where the position has not d + 1 coordinates.
    pub fn enter_one(&mut self, number: i32, position: &[i32], value: i32) -> Result<(), Refusal> {
        self.one_position(position)?;
        let reading = [&[number], position, &[value]].concat();
        self.enter(&reading)
    }

    /// Takes one reading back: the one of this number. The points and all answers are then those of a table that was
    /// never given it.
    ///
    /// # Errors
    ///
    /// 19 where the table holds no reading of this number. It is then as it was.
    ///
    /// ```
    /// use vimrothi::{numbers, Reading, Table};
    ///
    /// let mut table = Table::fresh(1, 2, 8, 100)?;
    /// table.enter(&[101, 3, -3, 10, 102, 2, -2, 4, 201, 5, -5, 12])?;
    /// table.withdraw(102)?;
    /// assert_eq!(table.readings(), [Reading::new(101, [3, -3], 10), Reading::new(201, [5, -5], 12)]);
    /// assert_eq!(table.withdraw(102).unwrap_err().number(), numbers::NUMBER_NOT_HELD);
    /// # Ok::<(), vimrothi::Refusal>(())
    /// ```
    pub fn withdraw(&mut self, number: i32) -> Result<(), Refusal> {
        let (keys, sums, index, book) = (&mut self.keys, &mut self.sums, &mut self.index, &mut self.book);
        let left = calls::withdraw(self.head, keys, sums, index, book, number);
        self.head = left.head;
        Refusal::unless_done(left.number, Place::WholeCall)
    }

    /// Adds another table to this one: its points with their pairs, and its readings, which stand behind this one's in
    /// the book. Capacities and rooms may differ.
    ///
    /// # Errors
    ///
    /// 9 where d or S differ, 20 where a number of the other's readings is held in this table, 7 where this table's
    /// book has no room for the readings, 8 where it has no room for the points. It is all or nothing: refused, this
    /// table is as it was.
    ///
    /// ```
    /// use vimrothi::Table;
    ///
    /// let mut ours = Table::fresh(1, 2, 8, 100)?;
    /// ours.enter_one(101, &[3, -3], 10)?;
    /// let mut theirs = Table::fresh(1, 2, 512, 200)?;
    /// theirs.enter_one(201, &[2, -2], 4)?;
    ///
    /// // The order does not matter.
    /// let mut other_way = theirs.clone();
    /// other_way.merge(&ours)?;
    /// ours.merge(&theirs)?;
    /// assert_eq!(ours.points(), other_way.points());
    /// # Ok::<(), vimrothi::Refusal>(())
    /// ```
    pub fn merge(&mut self, other: &Table) -> Result<(), Refusal> {
        let merged = calls::merge(
            self.head,
            &mut self.keys,
            &mut self.sums,
            &mut self.index,
            &mut self.book,
            other.head,
            &other.keys,
            &other.sums,
            &other.index,
            &other.book,
        );
        self.head = merged.head;
        Refusal::unless_done(merged.number, Place::WholeCall)
    }

    /// The readings that the table holds, from its book: in order of entry, merged ones behind.
    ///
    /// ```
    /// use vimrothi::{Reading, Table};
    ///
    /// let mut table = Table::fresh(1, 2, 8, 100)?;
    /// table.enter(&[102, 2, -2, 4, -7, 3, -3, 10])?;
    /// assert_eq!(table.readings(), [Reading::new(102, [2, -2], 4), Reading::new(-7, [3, -3], 10)]);
    /// # Ok::<(), vimrothi::Refusal>(())
    /// ```
    pub fn readings(&self) -> Vec<Reading> {
        let entries = self.book.chunks_exact(self.head.d + 3);
        entries.take(self.head.readings).map(Reading::of_entry).collect()
    }

    /// The points in listing order: ascending by coordinate 0, then 1 and so on.
    ///
    /// ```
    /// use vimrothi::{Point, Table};
    ///
    /// let mut table = Table::fresh(2, 2, 8, 100)?;
    /// table.enter_one(101, &[2, 2, -4], 5)?; // a lattice point times S: all the weight, 6, is its own
    /// assert_eq!(table.points(), [Point { coordinates: vec![1, 1, -2], mass: 6, value_sum: 30 }]);
    /// # Ok::<(), vimrothi::Refusal>(())
    /// ```
    pub fn points(&self) -> Vec<Point> {
        let mut list = vec![0; self.head.capacity];
        let number = calls::list(self.head, &self.keys, &self.sums, &self.index, &self.book, &mut list);
        assert_eq!(number, DONE, "a table that owns its memory is sound");
        let listed = &list[..self.head.points];
        listed.iter().map(|&point| self.point(usize::from(point))).collect()
    }

    /// The stored point of this number.
    fn point(&self, point: usize) -> Point {
        let start = self.head.d * point;
        let mut coordinates = self.keys[start..start + self.head.d].to_vec();
        let last = -coordinates.iter().sum::<i32>();
        coordinates.push(last);
        Point {
            coordinates,
            mass: self.sums[2 * point],
            value_sum: self.sums[2 * point + 1],
        }
    }

    /// The smoothed values at a list of query positions of d + 1 coordinates each: one answer for each, in their order.
    ///
    /// An answer is a value in hundredths of a ppb, or the refusal of that query: 4, 5, or 10 where no stored point has
    /// weight above 0 for it. (11 is never met.) Its place is [`Place::Query`].
    ///
    /// # Errors
    ///
    /// 2 for the whole call where the list isn't whole positions.
    ///
    /// ```
    /// use vimrothi::{Place, Table};
    ///
    /// let mut table = Table::fresh(1, 2, 8, 100)?;
    /// table.enter(&[101, 3, -3, 10, 102, 2, -2, 4])?;
    /// let answers = table.filter(&[4, -4, 100, -100])?;
    /// assert_eq!(answers[0], Ok(7));
    /// assert_eq!(answers[1].unwrap_err().place(), Place::Query(1));
    /// # Ok::<(), vimrothi::Refusal>(())
    /// ```
    pub fn filter(&self, queries: &[i32]) -> Result<Vec<Result<i32, Refusal>>, Refusal> {
        let count = queries.len() / (self.head.d + 1);
        let (mut first, mut second) = (vec![0; 2 * self.head.capacity], vec![0; 2 * self.head.capacity]);
        let (mut values, mut codes) = (vec![0; count], vec![0; count]);
        let number = calls::filter(
            self.head,
            &self.keys,
            &self.sums,
            &self.index,
            &self.book,
            &mut first,
            &mut second,
            queries,
            &mut values,
            &mut codes,
        );
        Refusal::unless_done(number, Place::WholeCall)?;
        let replies = values.into_iter().zip(codes).enumerate();
        Ok(replies
            .map(|(query, (value, code))| Refusal::unless_done(code, Place::Query(query)).map(|()| value))
            .collect())
    }

    /// The smoothed value at one position.
    ///
    /// # Errors
    ///
    /// 4, 5 or 10 as in [`filter`](Table::filter), at query 0; 2 where the position has not d + 1 coordinates.
    pub fn answer_at(&self, position: &[i32]) -> Result<i32, Refusal> {
        self.one_position(position)?;
        self.filter(position)?[0]
    }

    /// Refuses with 2 what isn't one whole position. A list of several would pass for as many items.
    fn one_position(&self, position: &[i32]) -> Result<(), Refusal> {
        if position.len() != self.head.d + 1 {
            return Err(Refusal::new(OTHER_LENGTH, Place::WholeCall));
        }
        Ok(())
    }

    /// The dimension d.
    pub fn d(&self) -> usize {
        self.head.d
    }

    /// The fineness S.
    pub fn fineness(&self) -> u32 {
        self.head.fineness
    }

    /// The capacity C: the most points that the table has room for.
    pub fn capacity(&self) -> usize {
        self.head.capacity
    }

    /// The room B of the book: the most readings that the table has room for.
    pub fn room(&self) -> usize {
        self.head.room
    }

    /// The number of readings held.
    pub fn readings_len(&self) -> usize {
        self.head.readings
    }

    /// The number of points stored.
    pub fn points_len(&self) -> usize {
        self.head.points
    }

    /// The settings and both numbers at once.
    pub fn head(&self) -> Head {
        self.head
    }
}

/// Shows the head. The memory is left out, which may be many thousand numbers.
impl fmt::Debug for Table {
    fn fmt(&self, f: &mut fmt::Formatter<'_>) -> fmt::Result {
        f.debug_struct("Table")
            .field("head", &self.head)
            .finish_non_exhaustive()
    }
}
