//! Input for the benchmarks and the test, all drawn from one seed: positions spread over a box that holds a given
//! number of lattice points, readings and queries at them, readings that store exactly so many points, and logs.

use crate::hashed;

/// The seed of every drawing.
pub const SEED: u64 = 20_240_611;

/// The fineness S of every table that is measured.
pub const FINENESS: u32 = 16;

/// Splitmix64: a small generator whose numbers follow from the seed. It gives every reading a number of its own.
pub struct Generator {
    state: u64,
    number: u32,
}

impl Generator {
    /// A generator that starts from a seed.
    pub fn new(seed: u64) -> Generator {
        Generator { state: seed, number: 0 }
    }

    /// The next 64 bits.
    pub fn draw(&mut self) -> u64 {
        self.state = self.state.wrapping_add(0x9E37_79B9_7F4A_7C15);
        let mut z = self.state;
        z = (z ^ (z >> 30)).wrapping_mul(0xBF58_476D_1CE4_E5B9);
        z = (z ^ (z >> 27)).wrapping_mul(0x94D0_49BB_1331_11EB);
        z ^ (z >> 31)
    }

    /// A number from `least` to `greatest`.
    pub fn between(&mut self, least: i64, greatest: i64) -> i64 {
        least + (self.draw() % (greatest - least + 1) as u64) as i64
    }

    /// A position of d + 1 coordinates: the first d from -reach to reach, the last minus their sum.
    pub fn position(&mut self, d: usize, reach: i64) -> Vec<i32> {
        let mut position: Vec<i32> = (0..d).map(|_| self.between(-reach, reach) as i32).collect();
        position.push(-position.iter().sum::<i32>());
        position
    }

    /// A value in hundredths of a ppb.
    pub fn value(&mut self) -> i32 {
        self.between(-1_000_000, 1_000_000) as i32
    }

    /// A number that no other reading of this generator has, anywhere in 32 bits: the odd step comes back only after
    /// all of them.
    pub fn number(&mut self) -> i32 {
        self.number = self.number.wrapping_add(0x9E37_79B9);
        self.number as i32
    }

    /// A list of so many readings, in the book's form.
    pub fn readings(&mut self, d: usize, reach: i64, count: usize) -> Vec<i32> {
        let mut list = Vec::with_capacity(count * (d + 3));
        for _ in 0..count {
            list.push(self.number());
            list.extend(self.position(d, reach));
            list.push(self.value());
        }
        list
    }

    /// The same readings with other numbers.
    pub fn renumbered(&mut self, d: usize, list: &[i32]) -> Vec<i32> {
        let mut other = list.to_vec();
        other.chunks_exact_mut(d + 3).for_each(|entry| entry[0] = self.number());
        other
    }

    /// A list of so many queries.
    pub fn queries(&mut self, d: usize, reach: i64, count: usize) -> Vec<i32> {
        (0..count).flat_map(|_| self.position(d, reach)).collect()
    }

    /// Readings that store exactly so many points: one is left out where it brings more points than are missing, or
    /// fewer than two while more than that are missing.
    pub fn filling(&mut self, d: usize, reach: i64, points: usize) -> Vec<i32> {
        let mut table = hashed::Table::fresh(d, FINENESS, points, points);
        let mut list = Vec::new();
        while table.pairs.len() < points {
            let reading = self.readings(d, reach, 1);
            let corners = hashed::enclose(&reading[1..d + 2], FINENESS);
            let new = corners.filter(|(point, _)| !table.pairs.contains_key(point)).count();
            let missing = points - table.pairs.len();
            if new == missing || (new >= 2 && new < missing) {
                table.enter(&reading);
                list.extend(reading);
            }
        }
        list
    }
}

/// How far the first d coordinates go where the box they span is to hold about so many lattice points: those of each
/// of the d + 1 remainders have kept coordinates that are d + 1 apart, and a position is S times a point.
pub fn reach_for(d: usize, points: usize) -> i64 {
    let n = (d + 1) as f64;
    let side = n * (points as f64 / n).powf(1.0 / d as f64);
    (f64::from(FINENESS) * side / 2.0) as i64
}

/// Which readings of a log are numbered ones, of kinds 71 to 75.
#[derive(Clone, Copy)]
pub enum Numbering {
    None,
    All,
    /// Half of them, with numbers from 0 to this one, so that some are met twice.
    Some(i64),
}

/// A log of at most so many bytes: settings, then readings and queries in turn.
pub fn log(
    generator: &mut Generator,
    d: usize,
    capacity: usize,
    reach: i64,
    numbering: Numbering,
    most_bytes: usize,
) -> Vec<u8> {
    let mut log = vec![0x01, d as u8, FINENESS as u8];
    log.extend((capacity as u16).to_le_bytes());
    loop {
        let mut both = reading_item(generator, d, reach, numbering);
        both.push(0x20 + d as u8);
        both.extend(bytes_of(&generator.queries(d, reach, 1)));
        if log.len() + both.len() > most_bytes {
            return log;
        }
        log.extend(both);
    }
}

/// The bytes of a reading and a query of dimension d, with their kinds.
pub fn bytes_of_both(d: usize, numbering: Numbering) -> usize {
    let more = usize::from(matches!(numbering, Numbering::All));
    (1 + 4 * (d + 2 + more)) + (1 + 4 * (d + 1))
}

fn reading_item(generator: &mut Generator, d: usize, reach: i64, numbering: Numbering) -> Vec<u8> {
    let mut entry = generator.readings(d, reach, 1);
    let numbered = match numbering {
        Numbering::None => false,
        Numbering::All => true,
        Numbering::Some(greatest) => {
            entry[0] = generator.between(0, greatest) as i32;
            generator.between(0, 1) == 0
        }
    };
    let (kind, numbers) = if numbered {
        (0x70, &entry[..])
    } else {
        (0x10, &entry[1..])
    };
    let mut item = vec![kind + d as u8];
    item.extend(bytes_of(numbers));
    item
}

fn bytes_of(numbers: &[i32]) -> impl Iterator<Item = u8> + '_ {
    numbers.iter().flat_map(|number| number.to_le_bytes())
}
