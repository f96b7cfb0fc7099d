//! Makes positions, readings and queries: near one another or far apart, on lattice points, with equal coordinates, at
//! the limits, and with each fault that a refusal number is about. A reading has the book's form: its number, d + 1
//! coordinates, then the value.

use crate::numbers::Numbers;
use crate::random::Random;

/// Coordinates and values go from minus this to this.
pub const LIMIT: i64 = 1_000_000;

/// Where the readings and queries of a case lie, how they are numbered, and how often they have a fault.
pub struct Scene {
    pub d: usize,
    pub fineness: u32,
    pub numbers: Numbers,
    reach: i64,
    fault_once_in: usize,
    unnumbered_once_in: usize,
    earlier: Vec<Vec<i32>>,
}

impl Scene {
    /// A scene of a random reach. `fault_once_in` 0 makes no faults.
    pub fn new(random: &mut Random, d: usize, fineness: u32, fault_once_in: usize) -> Scene {
        let reach = random.pick(&[2, 6, 20, 20, 100, 500, 30_000, LIMIT]);
        Scene::within(random, d, fineness, reach, fault_once_in)
    }

    /// A scene of the given reach. The readings of a log are then all numbered, or none of them, or some.
    pub fn within(random: &mut Random, d: usize, fineness: u32, reach: i64, fault_once_in: usize) -> Scene {
        let unnumbered_once_in = random.pick(&[0, 0, 1, 1, 2, 5]);
        let far = unnumbered_once_in > 1 && random.below(4) > 0;
        Scene {
            d,
            fineness,
            numbers: if far {
                Numbers::far_from_0(random)
            } else {
                Numbers::new(random)
            },
            reach,
            fault_once_in,
            unnumbered_once_in,
            earlier: Vec::new(),
        }
    }

    /// The same scene with faults so often.
    pub fn with_faults(mut self, fault_once_in: usize) -> Scene {
        self.fault_once_in = fault_once_in;
        self
    }

    /// Whether the next reading of a log has no number of its own.
    pub fn goes_unnumbered(&self, random: &mut Random) -> bool {
        random.once_in(self.unnumbered_once_in)
    }

    /// A reading: its number, d + 1 coordinates, then the value. Each of the three may have a fault, and one of a number
    /// is that another reading has it too.
    pub fn reading(&mut self, random: &mut Random) -> Vec<i32> {
        let number = self.number(random);
        let position = self.query(random);
        let faulty = random.once_in(self.fault_once_in);
        let value = if faulty { faulty_value(random) } else { value(random) };
        entry(number, &position, value)
    }

    fn number(&mut self, random: &mut Random) -> i32 {
        let again = random.once_in(self.fault_once_in);
        let earlier = again.then(|| self.numbers.earlier(random)).flatten();
        earlier.unwrap_or_else(|| self.numbers.another(random))
    }

    /// A reading without a fault, whatever the scene's are.
    pub fn sound_reading(&mut self, random: &mut Random) -> Vec<i32> {
        let position = self.sound_position(random);
        self.earlier.push(position.clone());
        self.reading_at(random, &position)
    }

    /// A reading at this position, with a number that was not given before.
    pub fn reading_at(&mut self, random: &mut Random, position: &[i32]) -> Vec<i32> {
        let number = self.numbers.another(random);
        entry(number, position, value(random))
    }

    /// A query: d + 1 coordinates.
    pub fn query(&mut self, random: &mut Random) -> Vec<i32> {
        let mut position = self.sound_position(random);
        self.earlier.push(position.clone());
        if random.once_in(self.fault_once_in) {
            spoil(random, &mut position);
        }
        position
    }

    /// So many readings without a fault.
    pub fn sound_readings(&mut self, random: &mut Random, count: usize) -> Vec<Vec<i32>> {
        (0..count).map(|_| self.sound_reading(random)).collect()
    }

    /// Several readings, one after the other.
    pub fn readings(&mut self, random: &mut Random, count: usize) -> Vec<i32> {
        (0..count).flat_map(|_| self.reading(random)).collect()
    }

    /// Several queries, one after the other.
    pub fn queries(&mut self, random: &mut Random, count: usize) -> Vec<i32> {
        (0..count).flat_map(|_| self.query(random)).collect()
    }

    /// A position within the limits with sum 0.
    fn sound_position(&self, random: &mut Random) -> Vec<i32> {
        let unit = i64::from(self.fineness);
        match random.below(10) {
            0 if !self.earlier.is_empty() => self.earlier[random.below(self.earlier.len())].clone(),
            1 | 2 if !self.earlier.is_empty() => self.near_earlier(random),
            3 => self.on_a_lattice_point(random),
            // Few different coordinates: ties everywhere.
            4 => closed(random, self.d, |random| random.between(-2, 2) * unit),
            5 if self.reach >= LIMIT => closed(random, self.d, |random| {
                random.pick(&[LIMIT, -LIMIT, LIMIT - 1, 1 - LIMIT, 0, 1])
            }),
            _ => closed(random, self.d, |random| random.between(-self.reach, self.reach)),
        }
    }

    /// An earlier position with a little moved from one coordinate to another.
    fn near_earlier(&self, random: &mut Random) -> Vec<i32> {
        let mut position = self.earlier[random.below(self.earlier.len())].clone();
        let (from, to) = (random.below(self.d + 1), random.below(self.d + 1));
        let moved = random.between(1, i64::from(self.fineness)) as i32;
        let low = i64::from(position[from]) - i64::from(moved);
        let high = i64::from(position[to]) + i64::from(moved);
        if from != to && low >= -LIMIT && high <= LIMIT {
            position[from] -= moved;
            position[to] += moved;
        }
        position
    }

    /// Fineness times a lattice point, where one weight is W and the others are 0.
    fn on_a_lattice_point(&self, random: &mut Random) -> Vec<i32> {
        let sides = self.d as i64 + 1;
        let remainder = random.between(0, self.d as i64);
        let reach = (self.reach / sides / i64::from(self.fineness)).clamp(1, 100);
        let mut position: Vec<i32> = (0..self.d)
            .map(|_| (i64::from(self.fineness) * (sides * random.between(-reach, reach) + remainder)) as i32)
            .collect();
        position.push(-position.iter().sum::<i32>());
        position
    }
}

/// A reading in the book's form.
pub fn entry(number: i32, position: &[i32], value: i32) -> Vec<i32> {
    [&[number], position, &[value]].concat()
}

/// A position anywhere within the limits, most likely far from every other.
pub fn anywhere(random: &mut Random, d: usize) -> Vec<i32> {
    closed(random, d, |random| random.between(-LIMIT, LIMIT))
}

/// A position at a stored point or near it: fineness times the point, with up to W moved from one coordinate to
/// another. None where that is beyond the limits.
pub fn beside_point(random: &mut Random, fineness: u32, key: &[i32]) -> Option<Vec<i32>> {
    let (d, fineness) = (key.len(), i64::from(fineness));
    let mut position: Vec<i64> = key.iter().map(|kept| fineness * i64::from(*kept)).collect();
    position.push(-position.iter().sum::<i64>());
    let moved = if random.once_in(3) {
        0
    } else {
        random.between(1, (d as i64 + 1) * fineness)
    };
    position[random.below(d + 1)] += moved;
    position[random.below(d + 1)] -= moved;
    let within = position.iter().all(|coordinate| coordinate.abs() <= LIMIT);
    within.then(|| position.iter().map(|coordinate| *coordinate as i32).collect())
}

/// d coordinates of the given kind and a last one that makes their sum 0, in random order. A coordinate that would
/// take the sum beyond the limit is taken with the other sign, which brings it back.
fn closed(random: &mut Random, d: usize, mut coordinate: impl FnMut(&mut Random) -> i64) -> Vec<i32> {
    let mut sum = 0;
    let mut position = Vec::with_capacity(d + 1);
    for _ in 0..d {
        let next = coordinate(random);
        let next = if (sum + next).abs() > LIMIT { -next } else { next };
        sum += next;
        position.push(next as i32);
    }
    position.push(-sum as i32);
    random.shuffle(&mut position);
    position
}

/// A value within the limits.
pub fn value(random: &mut Random) -> i32 {
    match random.below(8) {
        0 => random.pick(&[LIMIT, -LIMIT, LIMIT - 1, 1 - LIMIT]) as i32,
        1 => 0,
        2 | 3 => random.between(-3, 3) as i32,
        4 | 5 => random.between(-LIMIT, LIMIT) as i32,
        _ => random.between(0, 5_000) as i32,
    }
}

/// A value beyond the limits.
fn faulty_value(random: &mut Random) -> i32 {
    let beyond = (LIMIT + 1) as i32;
    random.pick(&[beyond, -beyond, i32::MAX, i32::MIN, 2 * beyond])
}

/// Puts one or several faults into a position.
fn spoil(random: &mut Random, position: &mut [i32]) {
    let sides = position.len();
    let (one, other) = (random.below(sides), random.below(sides));
    let beyond = random.pick(&[LIMIT as i32 + 1, -(LIMIT as i32) - 1, i32::MAX, i32::MIN]);
    match random.below(7) {
        // A coordinate beyond the limit, with the sum made 0 where that is possible.
        0 => {
            position.fill(0);
            position[one] = beyond;
            position[(one + 1) % sides] = beyond.wrapping_neg();
        }
        1 => position[one] = beyond,
        // The sum is off by a little.
        2 | 3 => position[one] += if position[one] > 0 { -1 } else { 1 },
        // The sum is minus 2^32: 0 modulo 2^32.
        4 => {
            position.fill(0);
            position[one] = i32::MIN;
            position[(one + 1) % sides] = i32::MIN;
        }
        5 => position
            .iter_mut()
            .for_each(|coordinate| *coordinate = random.bits() as i32),
        // Within the limits, but with some other sum.
        _ => {
            position[one] = random.between(-LIMIT, LIMIT) as i32;
            position[other] = random.between(-LIMIT, LIMIT) as i32;
        }
    }
}
