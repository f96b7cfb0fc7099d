//! The versions agree: over random input, good and bad, the plain version has the verified calls' answers and leaves
//! all lent memory alike; over good input the hashed version has the same points, pairs, readings, order, answers and
//! text.

use bench::hashed;
use bench::input::{self, Generator, Numbering, FINENESS};
use bench::memory::{Memory, Sheets};
use bench::plain;
use vimrothi::calls::{self, REPORT_ROOM};

const ROUNDS: usize = 400;

/// Settings, and readings that are mostly good, near or far. Some have the number of another, or one of those that
/// [`drawn_table`] gives.
fn drawn_list(generator: &mut Generator, d: usize) -> Vec<i32> {
    let count = generator.between(0, 60) as usize;
    let reach = [3, 40, 400, 200_000][generator.between(0, 3) as usize];
    let mut list = generator.readings(d, reach, count);
    if !list.is_empty() && generator.between(0, 3) == 0 {
        let place = generator.between(0, list.len() as i64 - 1) as usize;
        list[place] = [1_000_001, -1_000_001, i32::MIN, 7][generator.between(0, 3) as usize];
    }
    if !list.is_empty() && generator.between(0, 5) == 0 {
        let twin = generator.between(0, count as i64 - 1) as usize;
        list[twin * (d + 3)] = generator.between(0, 3) as i32;
        list[0] = generator.between(0, 3) as i32;
    }
    if generator.between(0, 19) == 0 {
        list.pop();
    }
    list
}

/// A table with readings, of random settings. Some of its room may be left, and its points may stand in any order.
fn drawn_table(generator: &mut Generator, d: usize, fineness: u32) -> Memory {
    let capacity = generator.between(1, 150) as usize;
    let room = [1, 5, 40, 200][generator.between(0, 3) as usize];
    let mut table = Memory::fresh(d, fineness, capacity, room);
    table.keys.fill(9);
    table.sums.fill(-9);
    table.book.fill(9);
    let list = drawn_list(generator, d);
    table.enter(calls::enter, &list);
    if generator.between(0, 1) == 0 {
        shuffle(generator, &mut table);
    }
    table
}

/// The points of a table in another stored order. The index names them where it did, so that it need not be the one of
/// entering them by number; the table stays sound.
fn shuffle(generator: &mut Generator, table: &mut Memory) {
    let d = table.head.d;
    for one in 0..table.head.points {
        let other = generator.between(0, one as i64) as usize;
        (0..d).for_each(|i| table.keys.swap(d * one + i, d * other + i));
        (0..2).for_each(|i| table.sums.swap(2 * one + i, 2 * other + i));
        for entry in table.index.iter_mut() {
            *entry = match usize::from(*entry) {
                named if named == one + 1 => other as u16 + 1,
                named if named == other + 1 => one as u16 + 1,
                _ => *entry,
            };
        }
    }
}

/// Spoils a table in one place, in most of its draws.
fn spoil(generator: &mut Generator, table: &mut Memory) {
    let pick = |generator: &mut Generator, length: usize| generator.between(0, length as i64 - 1) as usize;
    let place = pick(generator, table.index.len());
    let key = pick(generator, table.keys.len());
    let held = (table.head.d + 3) * table.head.readings.max(1);
    let entry = pick(generator, held);
    match generator.between(0, 20) {
        0 => table.head.readings += 1,
        1 => table.head.points += 1,
        2 => table.head.points = table.head.capacity + 1,
        3 => table.head.readings = 4097,
        4 => table.index[place] = generator.between(0, 200) as u16,
        5 => table.keys[key] += generator.between(-6, 6) as i32,
        6 => table.keys[key] = i32::MIN,
        7 => table.sums[place] = [i64::MIN, i64::MAX, 0, 1 << 62][generator.between(0, 3) as usize],
        8 => table.sums[place] += generator.between(-1, 1),
        9 => table.head.d = generator.between(0, 7) as usize,
        10 => table.head.fineness = generator.between(0, 65) as u32,
        11 => table.keys.push(0),
        12 => table.index.push(0),
        13 => table.book.push(0),
        14 => table.book[entry] = [i32::MIN, i32::MAX, 1_000_001, 0][generator.between(0, 3) as usize],
        15 => table.book[entry] = table.book[entry].wrapping_add(generator.between(-1, 1) as i32),
        16 => move_reading(generator, table),
        17 => move_mass(table),
        18 => table.book[0] = table.book[entry / (table.head.d + 3) * (table.head.d + 3)],
        19 => table.head.room = [0, 4097, usize::MAX, table.head.room + 1][generator.between(0, 3) as usize],
        _ => table.head.capacity = [0, 8193, usize::MAX][generator.between(0, 2) as usize],
    }
}

/// The first reading of the book at another position, which keeps the limits most of the time.
fn move_reading(generator: &mut Generator, table: &mut Memory) {
    let by = generator.between(-2, 2) as i32;
    table.book[1] = table.book[1].wrapping_add(by);
    table.book[2] = table.book[2].wrapping_sub(by);
}

/// A weight of the second point at the first, so that the masses still sum to W·n.
fn move_mass(table: &mut Memory) {
    if table.head.points >= 2 {
        table.sums[0] += 1;
        table.sums[2] -= 1;
    }
}

fn drawn_settings(generator: &mut Generator) -> (usize, u32) {
    (generator.between(1, 5) as usize, generator.between(1, 64) as u32)
}

/// A table that is spoiled half of the time.
fn drawn_any_table(generator: &mut Generator, d: usize, fineness: u32) -> Memory {
    let mut table = drawn_table(generator, d, fineness);
    if generator.between(0, 1) == 0 {
        spoil(generator, &mut table);
    }
    table
}

/// How often each number was met.
struct Met([usize; 256]);

impl Met {
    fn none() -> Met {
        Met([0; 256])
    }

    fn count(&mut self, number: u8) {
        self.0[usize::from(number)] += 1;
    }

    fn all_of(&self, numbers: &[usize]) {
        for &number in numbers {
            assert!(self.0[number] > 0, "number {number} is met: {:?}", &self.0[..24]);
        }
    }
}

#[test]
fn fresh_is_alike() {
    let mut generator = Generator::new(1);
    let mut met = Met::none();
    for _ in 0..ROUNDS {
        let (d, fineness) = drawn_settings(&mut generator);
        let mut verified = drawn_any_table(&mut generator, d, fineness);
        let mut other = verified.clone();
        let answer = verified.clear(calls::fresh);
        assert_eq!(answer, other.clear(plain::fresh));
        assert_eq!(verified, other);
        met.count(answer.number);
    }
    met.all_of(&[0, 1, 2]);
}

#[test]
fn enter_is_alike() {
    let mut generator = Generator::new(2);
    let mut met = Met::none();
    for _ in 0..3 * ROUNDS {
        let (d, fineness) = drawn_settings(&mut generator);
        let mut verified = drawn_any_table(&mut generator, d, fineness);
        let mut other = verified.clone();
        let list = drawn_list(&mut generator, d);
        let answer = verified.enter(calls::enter, &list);
        assert_eq!(answer, other.enter(plain::enter, &list));
        assert_eq!(verified, other);
        met.count(answer.number);
    }
    met.all_of(&[0, 1, 2, 3, 4, 5, 6, 7, 8, 20]);
}

#[test]
fn enter_of_too_many_readings_is_alike() {
    let mut generator = Generator::new(3);
    let list = generator.readings(2, 60, 4100);
    for room in [1, 1000, 4096] {
        let mut verified = Memory::fresh(2, 8, 600, room);
        let mut other = verified.clone();
        let answer = verified.enter(calls::enter, &list);
        assert_eq!((answer.taken, answer.number), (room, 7));
        assert_eq!(answer, other.enter(plain::enter, &list));
        assert_eq!(verified, other);
    }
}

#[test]
fn merge_is_alike() {
    let mut generator = Generator::new(4);
    let mut met = Met::none();
    for _ in 0..3 * ROUNDS {
        let (d, fineness) = drawn_settings(&mut generator);
        let mut verified = drawn_any_table(&mut generator, d, fineness);
        let mut other = verified.clone();
        let other_d = if generator.between(0, 9) == 0 { 1 } else { d };
        let source = drawn_any_table(&mut generator, other_d, fineness);
        let answer = verified.merge(calls::merge, &source);
        assert_eq!(answer, other.merge(plain::merge, &source));
        assert_eq!(verified, other);
        met.count(answer.number);
    }
    met.all_of(&[0, 1, 2, 3, 7, 8, 9, 20]);
}

#[test]
fn merge_of_too_many_readings_is_alike() {
    let mut generator = Generator::new(5);
    let mut verified = Memory::holding(2, 600, 4096, &generator.readings(2, 60, 2049));
    let mut other = verified.clone();
    let source = Memory::holding(2, 600, 2048, &generator.readings(2, 60, 2048));
    let answer = verified.merge(calls::merge, &source);
    assert_eq!(answer.number, 7);
    assert_eq!(answer, other.merge(plain::merge, &source));
    assert_eq!(verified, other);
}

/// One of the table's numbers, most of the time.
fn drawn_number(generator: &mut Generator, table: &Memory, d: usize) -> i32 {
    if table.head.readings == 0 || generator.between(0, 9) == 0 {
        return generator.between(-5, 5) as i32;
    }
    let place = generator.between(0, table.book.len().div_ceil(d + 3) as i64 - 1) as usize;
    table.book[place.min(table.head.readings - 1) * (d + 3) % table.book.len()]
}

#[test]
fn withdraw_is_alike() {
    let mut generator = Generator::new(13);
    let mut met = Met::none();
    let mut fewer = [0; 7];
    for _ in 0..3 * ROUNDS {
        let (d, fineness) = drawn_settings(&mut generator);
        let mut verified = drawn_any_table(&mut generator, d, fineness);
        let mut other = verified.clone();
        // Several from one table, so that it is seen that a table withdrawn from is sound.
        for _ in 0..3 {
            let number = drawn_number(&mut generator, &verified, d);
            let before = verified.head.points;
            let answer = verified.withdraw(calls::withdraw, number);
            assert_eq!(answer, other.withdraw(plain::withdraw, number));
            assert_eq!(verified, other);
            met.count(answer.number);
            fewer[before - answer.head.points] += 1;
        }
    }
    met.all_of(&[0, 1, 2, 3, 19]);
    assert!(fewer.iter().all(|&count| count > 0), "0 to 6 points leave: {fewer:?}");
}

#[test]
fn readings_withdrawn_down_to_none_are_alike() {
    let mut generator = Generator::new(14);
    for d in 1..=5 {
        let list = generator.readings(d, 60, 40);
        let mut verified = Memory::holding(d, 300, 50, &list);
        let mut other = verified.clone();
        for place in (0..40).map(|i| 7 * i % 40) {
            let number = list[place * (d + 3)];
            let answer = verified.withdraw(calls::withdraw, number);
            assert_eq!(answer.number, 0);
            assert_eq!(answer, other.withdraw(plain::withdraw, number));
            assert_eq!(verified, other);
        }
        assert_eq!(verified, Memory::fresh(d, FINENESS, 300, 50));
    }
}

#[test]
fn list_is_alike() {
    let mut generator = Generator::new(6);
    let mut met = Met::none();
    for _ in 0..ROUNDS {
        let (d, fineness) = drawn_settings(&mut generator);
        let table = drawn_any_table(&mut generator, d, fineness);
        let length = table.index.len() / 2 + usize::from(generator.between(0, 9) == 0);
        let mut verified = vec![5; length];
        let mut other = verified.clone();
        let answer = table.list(calls::list, &mut verified);
        assert_eq!(answer, table.list(plain::list, &mut other));
        assert_eq!(verified, other);
        met.count(answer);
    }
    met.all_of(&[0, 1, 2, 3]);
}

/// A table of one reading and one point whose key is at the limit or beyond it, named at each place in turn: it is
/// sound at its home place alone, and nowhere where the reading is too far.
#[test]
fn soundness_at_the_limit_is_alike() {
    for (key, sound_places) in [(1_000_000, 1), (-1_000_000, 1), (1_000_001, 0), (-1_000_006, 0)] {
        let mut found = 0;
        for place in 0..16 {
            let mut table = Memory::fresh(1, 1, 8, 1);
            table.head = table.head.with_counts(1, 1);
            table.keys[0] = key;
            table.sums[0] = 2;
            table.index[place] = 1;
            table.book.copy_from_slice(&[-3, key, -key, 0]);
            let answer = table.list(calls::list, &mut [0; 8]);
            assert_eq!(answer, table.list(plain::list, &mut [0; 8]));
            found += usize::from(answer == 0);
        }
        assert_eq!(found, sound_places, "places where key {key} is sound");
    }
}

/// Readings at the limit in every dimension: some of their points are beyond it, and the tables are sound.
#[test]
fn readings_at_the_limit_are_alike() {
    for d in 1..=5 {
        let mut list = Vec::new();
        for (number, first) in [(1, 1_000_000), (2, -1_000_000), (3, 999_999), (4, -999_999)] {
            let mut entry = vec![0; d + 3];
            (entry[0], entry[1], entry[d + 1], entry[d + 2]) = (number, first, -first, 1_000_000);
            list.extend(entry);
        }
        let mut verified = Memory::fresh(d, 1, 60, 4);
        let mut other = verified.clone();
        let answer = verified.enter(calls::enter, &list);
        assert_eq!((answer.taken, answer.number), (4, 0));
        assert_eq!(answer, other.enter(plain::enter, &list));
        assert_eq!(verified.withdraw(calls::withdraw, 5).number, 19);
        assert_eq!(other.withdraw(plain::withdraw, 5).number, 19);
        assert_eq!(verified, other);
    }
}

/// Queries, mostly good and near the readings, and what they are answered in.
fn drawn_queries(generator: &mut Generator, table: &Memory, d: usize) -> (Vec<i32>, Sheets) {
    let count = generator.between(0, 30) as usize;
    let reach = [3, 40, 400][generator.between(0, 2) as usize];
    let mut queries = generator.queries(d, reach, count);
    if let Some(last) = queries.last_mut() {
        *last += generator.between(0, 2) as i32 * 1_000_001;
    }
    let more = usize::from(generator.between(0, 19) == 0);
    let numbers = table.index.len();
    let sheets = Sheets {
        first: vec![3; numbers],
        second: vec![4; numbers + more],
        values: vec![5; count],
        codes: vec![6; count],
    };
    (queries, sheets)
}

#[test]
fn filter_is_alike() {
    let mut generator = Generator::new(7);
    let (mut met, mut codes) = (Met::none(), Met::none());
    for _ in 0..2 * ROUNDS {
        let (d, fineness) = drawn_settings(&mut generator);
        let table = drawn_any_table(&mut generator, d, fineness);
        let (queries, mut verified) = drawn_queries(&mut generator, &table, d);
        let mut other = verified.clone();
        let answer = table.filter(calls::filter, &queries, &mut verified);
        assert_eq!(answer, table.filter(plain::filter, &queries, &mut other));
        assert_eq!(verified, other);
        met.count(answer);
        verified.codes.iter().for_each(|&code| codes.count(code));
    }
    met.all_of(&[0, 1, 2, 3]);
    codes.all_of(&[0, 4, 10]);
}

/// A log that is spoiled half of the time: a byte changed, or cut. Its readings are numbered, or not, or some of them.
fn drawn_log(generator: &mut Generator) -> (Vec<u8>, usize, usize) {
    let d = generator.between(1, 5) as usize;
    let capacity = generator.between(1, 200) as usize;
    let reach = [3, 40, 400][generator.between(0, 2) as usize];
    let length = generator.between(40, 2000) as usize;
    let numbering = match generator.between(0, 3) {
        0 => Numbering::None,
        1 => Numbering::All,
        _ => Numbering::Some(generator.between(0, 400)),
    };
    let mut log = input::log(generator, d, capacity, reach, numbering, length);
    match generator.between(0, 3) {
        0 => {
            let place = generator.between(0, log.len().min(120) as i64 - 1) as usize;
            log[place] = generator.between(0, 0x80) as u8;
        }
        1 => log.truncate(generator.between(0, log.len() as i64) as usize),
        _ => {}
    }
    (log, d, capacity)
}

#[test]
fn load_is_alike() {
    let mut generator = Generator::new(8);
    let mut met = Met::none();
    for _ in 0..5 * ROUNDS {
        let (log, d, capacity) = drawn_log(&mut generator);
        let room = [1, 20, 200, 4096][generator.between(0, 3) as usize];
        let mut verified = Memory::fresh(d, FINENESS, capacity, room);
        verified.keys.fill(1);
        verified.sums.fill(2);
        verified.index.fill(3);
        verified.book.fill(4);
        let mut other = verified.clone();
        // Mostly the room that the slices have.
        let told = [room, room, room, room, room, 0, 4097, room + 1][generator.between(0, 7) as usize];
        let answer = verified.load(calls::load, &log, told);
        assert_eq!(answer, other.load(plain::load, &log, told));
        assert_eq!(verified, other);
        met.count(answer.number);
    }
    met.all_of(&[0, 1, 2, 5, 7, 8, 12, 13, 14, 15, 20]);
}

#[test]
fn report_is_alike() {
    let mut generator = Generator::new(9);
    for round in 0..3 * ROUNDS {
        let (mut log, _, _) = drawn_log(&mut generator);
        if round == 0 {
            log.resize(16_385, 1);
        }
        let room = if round == 1 { REPORT_ROOM - 1 } else { REPORT_ROOM };
        let mut verified = vec![7; room];
        let mut other = verified.clone();
        assert_eq!(calls::report(&log, &mut verified), plain::report(&log, &mut other));
        assert!(verified == other, "the buffers are alike in round {round}");
    }
}

/// A table's points, pairs and readings, as the hashed version has them.
fn as_map(table: &Memory) -> hashed::Table {
    let head = table.head;
    let mut map = hashed::Table::fresh(head.d, head.fineness, head.capacity, head.room);
    let rows = table.keys.chunks_exact(head.d).zip(table.sums.chunks_exact(2));
    for (key, pair) in rows.take(head.points) {
        let mut point = [0; 6];
        point[..head.d].copy_from_slice(key);
        point[head.d] = -key.iter().sum::<i32>();
        map.pairs.insert(point, (pair[0], pair[1]));
    }
    for entry in table.book.chunks_exact(head.d + 3).take(head.readings) {
        let mut reading = [0; 7];
        reading[..head.d + 2].copy_from_slice(&entry[1..]);
        map.book.insert(entry[0], reading);
    }
    assert_eq!(map.book.len(), head.readings, "no number is there twice");
    map
}

#[test]
fn hashed_has_the_same_tables() {
    let mut generator = Generator::new(10);
    for _ in 0..ROUNDS {
        let d = generator.between(1, 5) as usize;
        let reach = [3, 40, 400][generator.between(0, 2) as usize];
        let (ours, theirs) = (generator.readings(d, reach, 50), generator.readings(d, reach, 70));
        let mut table = Memory::holding(d, 1000, 120, &ours);
        let source = Memory::holding(d, 500, 70, &theirs);
        let mut map = hashed::Table::fresh(d, FINENESS, 1000, 120);
        map.enter(&ours);
        assert_eq!(map, as_map(&table));
        assert_eq!(table.merge(calls::merge, &source).number, 0);
        map.merge(&as_map(&source));
        assert_eq!(map, as_map(&table));
        for list in [&ours, &theirs] {
            let number = list[generator.between(0, 49) as usize * (d + 3)];
            assert_eq!(table.withdraw(calls::withdraw, number).number, 0);
            assert!(map.withdraw(number).is_some());
            assert_eq!(map, as_map(&table));
        }
    }
}

#[test]
fn hashed_has_the_same_answers() {
    let mut generator = Generator::new(11);
    for _ in 0..ROUNDS {
        let d = generator.between(1, 5) as usize;
        let list = generator.readings(d, 300, 60);
        let table = Memory::holding(d, 500, 60, &list);
        let map = as_map(&table);
        let queries = generator.queries(d, 400, 40);
        let mut sheets = Sheets {
            first: vec![0; 1000],
            second: vec![0; 1000],
            values: vec![0; 40],
            codes: vec![0; 40],
        };
        assert_eq!(table.filter(calls::filter, &queries, &mut sheets), 0);
        let replies = sheets.values.iter().zip(&sheets.codes);
        let answers = replies.map(|(&value, &code)| (code == 0).then_some(value));
        assert_eq!(map.filter(&queries), answers.collect::<Vec<_>>());
        let mut order = vec![0; 500];
        assert_eq!(table.list(calls::list, &mut order), 0);
        let listed = order[..table.head.points]
            .iter()
            .map(|&point| &table.keys[d * usize::from(point)..][..d]);
        assert!(map.list().iter().map(|point| &point[..d]).eq(listed));
    }
}

#[test]
fn hashed_has_the_same_logs_and_text() {
    let mut generator = Generator::new(12);
    for round in 0..ROUNDS {
        let d = generator.between(1, 5) as usize;
        let numbering = [Numbering::None, Numbering::All][round % 2];
        let log = input::log(&mut generator, d, 512, 100, numbering, 2000);
        let mut out = vec![0; REPORT_ROOM];
        let length = calls::report(&log, &mut out);
        assert_eq!(hashed::report(&log).as_bytes(), &out[..length]);
        assert!(out.starts_with(b"HEAD"));
        let mut table = Memory::fresh(d, FINENESS, 512, 200);
        assert_eq!(table.load(calls::load, &log, 200).number, 0);
        assert_eq!(hashed::load(&log, 200).0, as_map(&table));
    }
}
