//! The calls over lent slices: what they leave in memory, done or refused. The blurred pairs are document 01's; memory
//! that must not change is filled with numbers of its own before.

use vimrothi::calls::{self, Head, REPORT_ROOM};

/// Memory for dimension 1, capacity 8 and room 4, with a head.
#[derive(Clone, Debug, PartialEq)]
struct Lent {
    head: Head,
    keys: Vec<i32>,
    sums: Vec<i64>,
    index: Vec<u16>,
    book: Vec<i32>,
}

impl Lent {
    /// Memory that holds no table, and no 0.
    fn filled() -> Lent {
        Lent {
            head: Head::default(),
            keys: vec![71; 8],
            sums: vec![72; 16],
            index: vec![73; 16],
            book: vec![74; 16],
        }
    }

    /// The table of document 01's two readings, numbered 101 and 102.
    fn worked() -> Lent {
        let mut lent = Lent::filled();
        assert_eq!(lent.fresh(8, 4), 0);
        assert_eq!(lent.enter(&[101, 3, -3, 10, 102, 2, -2, 4]), (2, 0));
        lent
    }

    /// Makes a fresh table of dimension 1 and fineness 2, and tells the number.
    fn fresh(&mut self, capacity: usize, room: usize) -> u8 {
        let (keys, sums, index, book) = (&mut self.keys, &mut self.sums, &mut self.index, &mut self.book);
        let made = calls::fresh(1, 2, capacity, room, keys, sums, index, book);
        self.head = made.head;
        made.number
    }

    /// Enters a list, and tells how many readings were taken and the number.
    fn enter(&mut self, list: &[i32]) -> (usize, u8) {
        let (keys, sums, index, book) = (&mut self.keys, &mut self.sums, &mut self.index, &mut self.book);
        let entered = calls::enter(self.head, keys, sums, index, book, list);
        self.head = entered.head;
        (entered.taken, entered.number)
    }

    /// Takes a reading back, and tells the number.
    fn withdraw(&mut self, number: i32) -> u8 {
        let (keys, sums, index, book) = (&mut self.keys, &mut self.sums, &mut self.index, &mut self.book);
        let left = calls::withdraw(self.head, keys, sums, index, book, number);
        self.head = left.head;
        left.number
    }

    /// Loads a log with a book of this room, and tells the number and the offset.
    fn load(&mut self, log: &[u8], room: usize) -> (u8, usize) {
        let (keys, sums, index, book) = (&mut self.keys, &mut self.sums, &mut self.index, &mut self.book);
        let loaded = calls::load(log, room, keys, sums, index, book);
        self.head = loaded.head;
        (loaded.number, loaded.offset)
    }

    /// Lists the points, and tells the number.
    fn list(&self, list: &mut [u16]) -> u8 {
        calls::list(self.head, &self.keys, &self.sums, &self.index, &self.book, list)
    }

    /// Merges a source, and tells the number.
    fn merge(&mut self, source: &Lent) -> u8 {
        let merged = calls::merge(
            self.head,
            &mut self.keys,
            &mut self.sums,
            &mut self.index,
            &mut self.book,
            source.head,
            &source.keys,
            &source.sums,
            &source.index,
            &source.book,
        );
        self.head = merged.head;
        merged.number
    }
}

#[test]
fn a_fresh_table_is_all_0_and_a_refused_one_changes_nothing() {
    let mut lent = Lent::filled();
    for (capacity, room, number) in [(9, 4, 2), (8, 5, 2), (8, 0, 1), (8, 4097, 1)] {
        assert_eq!(lent.fresh(capacity, room), number);
        assert_eq!(lent.head, Head::new(1, 2, capacity, room));
        lent.head = Head::default();
        assert_eq!(lent, Lent::filled());
    }

    assert_eq!(lent.fresh(8, 4), 0);
    let empty = Lent {
        head: Head::new(1, 2, 8, 4),
        keys: vec![0; 8],
        sums: vec![0; 16],
        index: vec![0; 16],
        book: vec![0; 16],
    };
    assert_eq!(lent, empty);
}

#[test]
fn calls_refused_as_a_whole_change_nothing() {
    let source = Lent::worked();
    let mut spoilt = source.clone();
    spoilt.sums[0] += 1;
    let before = spoilt.clone();
    assert_eq!(spoilt.enter(&[103, 2, -2, 4]), (0, 3));
    assert_eq!(spoilt.merge(&source), 3);
    assert_eq!(spoilt.withdraw(101), 3);
    assert_eq!(spoilt, before);

    let mut target = source.clone();
    assert_eq!(target.merge(&spoilt), 3);
    assert_eq!(target.merge(&source), 20, "its numbers are held already");
    assert_eq!(target.enter(&[103, 2, -2]), (0, 2));
    assert_eq!(target.withdraw(103), 19);
    assert_eq!(target, source);
}

#[test]
fn what_stands_past_the_last_point_and_reading_stays() {
    let mut lent = Lent::worked();
    lent.keys[3..].fill(71);
    lent.sums[6..].fill(72);
    lent.book[12..].fill(74);
    // (6, -6) is S times (3, -3): one new point, with all of the weight.
    assert_eq!(lent.enter(&[103, 6, -6, 5]), (1, 0));
    assert_eq!(lent.keys, [2, 1, 3, 71, 71, 71, 71, 71]);
    assert_eq!((&lent.sums[4..6], &lent.sums[6..]), (&[4, 20][..], &[72; 10][..]));
    assert_eq!(
        lent.book,
        [101, 3, -3, 10, 102, 2, -2, 4, 103, 6, -6, 5, 74, 74, 74, 74]
    );
}

#[test]
fn a_withdrawal_leaves_0_where_something_stood_and_nothing_else() {
    let mut lent = Lent::worked();
    lent.keys[2..].fill(71);
    lent.sums[4..].fill(72);
    lent.book[8..].fill(74);
    assert_eq!(lent.withdraw(101), 0);
    // (2, -2) has no mass without it, so (1, -1), the last, takes its number. The home of key 1 is 3.
    assert_eq!(lent.head, Head::new(1, 2, 8, 4).with_counts(1, 1));
    assert_eq!(lent.keys, [1, 0, 71, 71, 71, 71, 71, 71]);
    assert_eq!((&lent.sums[..4], &lent.sums[4..]), (&[4, 16, 0, 0][..], &[72; 12][..]));
    assert_eq!(lent.index, [0, 0, 0, 1, 0, 0, 0, 0, 0, 0, 0, 0, 0, 0, 0, 0]);
    assert_eq!(
        (&lent.book[..8], &lent.book[8..]),
        (&[102, 2, -2, 4, 0, 0, 0, 0][..], &[74; 8][..])
    );

    assert_eq!(lent.withdraw(102), 0);
    assert_eq!(lent.head, Head::new(1, 2, 8, 4));
    assert_eq!((&lent.keys[..2], &lent.sums[..4]), (&[0, 0][..], &[0; 4][..]));
    assert_eq!((&lent.index[..], &lent.book[..8]), (&[0; 16][..], &[0; 8][..]));
}

#[test]
fn the_list_has_the_point_numbers_and_then_0() {
    let lent = Lent::worked();
    let mut list = [9; 8];
    assert_eq!(lent.list(&mut list[1..]), 2);
    let mut spoilt = lent.clone();
    spoilt.book[4] = 101;
    assert_eq!(spoilt.list(&mut list), 3, "two readings have the number 101");
    assert_eq!(list, [9; 8]);
    assert_eq!(lent.list(&mut list), 0);
    assert_eq!(list, [1, 0, 0, 0, 0, 0, 0, 0]);
}

/// What filter writes: two sheets, and values and codes for two queries.
#[derive(Debug, PartialEq)]
struct Written {
    first: [i64; 16],
    second: [i64; 16],
    values: [i32; 2],
    codes: [u8; 2],
}

impl Written {
    /// Answers queries over a table, and tells the number.
    fn filter(&mut self, lent: &Lent, queries: &[i32]) -> u8 {
        calls::filter(
            lent.head,
            &lent.keys,
            &lent.sums,
            &lent.index,
            &lent.book,
            &mut self.first,
            &mut self.second,
            queries,
            &mut self.values,
            &mut self.codes,
        )
    }
}

#[test]
fn the_first_sheet_has_the_documents_blurred_pairs() {
    let filled = || Written {
        first: [9; 16],
        second: [9; 16],
        values: [9; 2],
        codes: [9; 2],
    };
    let mut written = filled();
    assert_eq!(
        written.filter(&Lent::worked(), &[4, -4]),
        2,
        "one query, and room for two answers"
    );
    assert_eq!(written, filled());

    assert_eq!(written.filter(&Lent::worked(), &[4, -4, 100, -100]), 0);
    // (2, -2) is stored before (1, -1).
    assert_eq!(
        (&written.first[..4], &written.first[4..]),
        (&[34, 244, 38, 260][..], &[0; 12][..])
    );
    assert_eq!(written.second, [0; 16]);
    assert_eq!((written.values, written.codes), ([7, 0], [0, 10]));
}

#[test]
fn a_load_into_wrong_slices_changes_nothing_and_its_head_is_0() {
    let mut lent = Lent::filled();
    assert_eq!(lent.load(b"\x01\x01\x02\x09\x00", 4), (2, 0));
    assert_eq!(lent, Lent::filled());
    assert_eq!(lent.load(b"\x01\x01\x02\x08\x00", 5), (2, 0));
    assert_eq!(lent, Lent::filled());
    assert_eq!(lent.load(b"\x01\x01\x02\x08\x00", 4097), (1, 0));
    assert_eq!(lent, Lent::filled());
    assert_eq!(
        lent.load(b"\x01\x01\x02\x08", 0),
        (15, 0),
        "the first item is read before the room"
    );
    assert_eq!(lent, Lent::filled());

    assert_eq!(lent.load(b"\x01\x01\x02\x08\x00", 4), (0, 5));
    assert_eq!(lent.head, Head::new(1, 2, 8, 4));
}

#[test]
fn a_buffer_that_is_too_short_for_reports_is_left_as_it_is() {
    let mut out = vec![7; REPORT_ROOM];
    assert_eq!(calls::report(b"", &mut out[1..]), 0);
    assert!(out.iter().all(|&byte| byte == 7));
    assert_eq!(calls::report(b"", &mut out), 13);
    assert_eq!(&out[..14], b"REFUSED 13 0\n\x07");
}
