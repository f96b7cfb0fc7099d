//! A table that owns its slices, for the tests.

use independent::{enter, filter, fresh, list, load, merge, withdraw, Answer, Entered, Head, Loaded};

/// A table's head and four slices.
#[derive(Clone, Debug, PartialEq, Eq)]
pub struct Table {
    pub head: Head,
    pub keys: Vec<i32>,
    pub sums: Vec<i64>,
    pub index: Vec<u16>,
    pub book: Vec<i32>,
}

impl Table {
    /// Slices of the lengths that settings and room give, full of numbers that no call leaves, with a head of all 0.
    pub fn lent(d: usize, capacity: usize, room: usize) -> Table {
        Table {
            head: Head::default(),
            keys: vec![-7; d * capacity],
            sums: vec![-7; 2 * capacity],
            index: vec![7; 2 * capacity],
            book: vec![-7; room * (d + 3)],
        }
    }

    /// A fresh table with settings and room in range. Its slices held other numbers before.
    pub fn fresh(d: usize, fineness: u32, capacity: usize, room: usize) -> Table {
        let mut table = Table::lent(d, capacity, room);
        let answer = fresh(
            d,
            fineness,
            capacity,
            room,
            &mut table.keys,
            &mut table.sums,
            &mut table.index,
            &mut table.book,
        );
        assert_eq!(answer.number, 0);
        table.head = answer.head;
        table
    }

    /// A fresh table whose keys, sums and book hold 77, -77 and 9 where nothing is stored yet.
    pub fn fresh_with_spare(d: usize, fineness: u32, capacity: usize, room: usize) -> Table {
        let mut table = Table::fresh(d, fineness, capacity, room);
        table.keys.fill(77);
        table.sums.fill(-77);
        table.book.fill(9);
        table
    }

    /// The worked log's table with room for three readings: 7 is (3, -3) with 10, and -3 is (2, -2) with 4.
    pub fn worked() -> Table {
        let mut table = Table::fresh_with_spare(1, 2, 8, 3);
        assert_eq!(table.enter(&[7, 3, -3, 10, -3, 2, -2, 4]).taken, 2);
        table
    }

    /// Enters readings and keeps the new head.
    pub fn enter(&mut self, list: &[i32]) -> Entered {
        let (keys, sums, index) = (&mut self.keys, &mut self.sums, &mut self.index);
        let entered = enter(self.head, keys, sums, index, &mut self.book, list);
        self.head = entered.head;
        entered
    }

    /// Merges a source and keeps the new head.
    pub fn merge(&mut self, source: &Table) -> Answer {
        let answer = merge(
            self.head,
            &mut self.keys,
            &mut self.sums,
            &mut self.index,
            &mut self.book,
            source.head,
            &source.keys,
            &source.sums,
            &source.index,
            &source.book,
        );
        self.head = answer.head;
        answer
    }

    /// Withdraws a reading and keeps the new head.
    pub fn withdraw(&mut self, number: i32) -> Answer {
        let (keys, sums, index) = (&mut self.keys, &mut self.sums, &mut self.index);
        let answer = withdraw(self.head, keys, sums, index, &mut self.book, number);
        self.head = answer.head;
        answer
    }

    /// Loads a log and keeps the head that is handed back.
    pub fn load(&mut self, log: &[u8], room: usize) -> Loaded {
        let (keys, sums, index) = (&mut self.keys, &mut self.sums, &mut self.index);
        let loaded = load(log, room, keys, sums, index, &mut self.book);
        self.head = loaded.head;
        loaded
    }

    /// The list of C point numbers, or the refusal.
    pub fn list(&self) -> Result<Vec<u16>, u8> {
        let mut filled = vec![7; self.head.capacity];
        match list(self.head, &self.keys, &self.sums, &self.index, &self.book, &mut filled) {
            0 => Ok(filled),
            number => Err(number),
        }
    }

    /// What filter answers and writes for these queries, from sheets and lists that held other numbers.
    pub fn filter(&self, queries: &[i32]) -> Filtered {
        let (sheet, lists) = (2 * self.head.capacity, queries.len() / (self.head.d + 1));
        let mut filtered = Filtered {
            number: 0,
            first: vec![5; sheet],
            second: vec![6; sheet],
            values: vec![7; lists],
            codes: vec![8; lists],
        };
        filtered.number = filter(
            self.head,
            &self.keys,
            &self.sums,
            &self.index,
            &self.book,
            &mut filtered.first,
            &mut filtered.second,
            queries,
            &mut filtered.values,
            &mut filtered.codes,
        );
        filtered
    }

    /// Value and code for each query.
    pub fn answers(&self, queries: &[i32]) -> Vec<(i32, u8)> {
        let filtered = self.filter(queries);
        assert_eq!(filtered.number, 0);
        filtered.values.into_iter().zip(filtered.codes).collect()
    }

    /// Whether the table is sound: an empty list is then taken.
    pub fn is_sound(&self) -> bool {
        self.clone().enter(&[]).number == 0
    }

    /// All d+1 coordinates, mass and value sum of each point, in listing order.
    pub fn listing(&self) -> Vec<(Vec<i32>, i64, i64)> {
        let numbers = self.list().expect("the table is sound");
        let line = |&number: &u16| self.line(usize::from(number));
        numbers[..self.head.points].iter().map(line).collect()
    }

    fn line(&self, number: usize) -> (Vec<i32>, i64, i64) {
        let kept = &self.keys[self.head.d * number..self.head.d * (number + 1)];
        let last = -kept.iter().sum::<i32>();
        let coordinates = kept.iter().copied().chain([last]).collect();
        (coordinates, self.sums[2 * number], self.sums[2 * number + 1])
    }

    /// The numbers of the readings, in the book's order.
    pub fn numbers(&self) -> Vec<i32> {
        let entries = self.book.chunks_exact(self.head.d + 3);
        entries.take(self.head.readings).map(|entry| entry[0]).collect()
    }
}

/// What a filter call answered and left in the sheets and lists.
#[derive(Debug, PartialEq, Eq)]
pub struct Filtered {
    pub number: u8,
    pub first: Vec<i64>,
    pub second: Vec<i64>,
    pub values: Vec<i32>,
    pub codes: Vec<u8>,
}

/// An index of so many places that is empty but for these places and the entries in them.
pub fn index_of(places: usize, entries: &[(usize, u16)]) -> Vec<u16> {
    let mut index = vec![0; places];
    for &(place, entry) in entries {
        index[place] = entry;
    }
    index
}

/// So many readings at one position, with numbers from 0 up and all of one value.
pub fn many_at(position: &[i32], value: i32, count: i32) -> Vec<i32> {
    let reading = |number: i32| [&[number], position, &[value]].concat();
    (0..count).flat_map(reading).collect()
}
