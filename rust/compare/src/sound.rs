//! Builders of sound tables. A table's sums are those of its book, so the readings come first and the points are theirs;
//! what is free is made free use of: the order of the points and of the readings, the order in which the points were put
//! into the index, and anything past the m-th point and the n-th reading.

use crate::keys::{at_point, some_fineness};
use crate::positions::Scene;
use crate::random::Random;
use crate::table::{Settings, Table, GREATEST_CAPACITY, GREATEST_READINGS};
use independent::weighted_points;
use std::collections::HashMap;

/// A point to be stored: its kept coordinates, its mass and its value sum.
#[derive(Clone, Debug)]
pub struct Point {
    pub key: Vec<i32>,
    pub mass: i64,
    pub value_sum: i64,
}

/// The points of some readings, in the order in which they were met.
#[derive(Default)]
pub struct Poured {
    pub points: Vec<Point>,
    places: HashMap<Vec<i32>, usize>,
}

impl Poured {
    pub fn of(fineness: u32, readings: &[Vec<i32>]) -> Poured {
        let mut poured = Poured::default();
        readings.iter().for_each(|reading| poured.add(fineness, reading));
        poured
    }

    /// Adds a reading in the book's form.
    pub fn add(&mut self, fineness: u32, reading: &[i32]) {
        let (position, value) = (&reading[1..reading.len() - 1], reading[reading.len() - 1]);
        for one in weighted_points(fineness, position) {
            let place = *self.places.entry(one.kept().to_vec()).or_insert(self.points.len());
            if place == self.points.len() {
                self.points.push(Point {
                    key: one.kept().to_vec(),
                    mass: 0,
                    value_sum: 0,
                });
            }
            self.points[place].mass += one.weight;
            self.points[place].value_sum += one.weight * i64::from(value);
        }
    }

    /// How many points a reading at this position would add.
    pub fn new_points_at(&self, fineness: u32, position: &[i32]) -> usize {
        let weighted = weighted_points(fineness, position);
        weighted
            .iter()
            .filter(|one| !self.places.contains_key(one.kept()))
            .count()
    }
}

/// How many more points and readings a table has room for.
#[derive(Clone, Copy, Debug)]
pub struct Spare {
    pub points: usize,
    pub readings: usize,
}

impl Spare {
    pub const NONE: Spare = Spare { points: 0, readings: 0 };

    /// Little room, or none, or enough for a list.
    pub fn some(random: &mut Random) -> Spare {
        Spare {
            points: random.pick(&[0, 1, 3, 12, 30]),
            readings: random.pick(&[0, 1, 3, 12, 30]),
        }
    }
}

/// A sound table of these readings. Points and readings stand in any order.
pub fn of_readings(
    random: &mut Random,
    (d, fineness): (usize, u32),
    mut readings: Vec<Vec<i32>>,
    spare: Spare,
) -> Table {
    let mut points = Poured::of(fineness, &readings).points;
    if random.below(4) > 0 {
        random.shuffle(&mut points);
        random.shuffle(&mut readings);
    }
    of_points(random, (d, fineness), &readings, &points, spare)
}

/// A table of these readings and points, whether they belong together or not, in this order. The points were put into
/// the index in some random order.
pub fn of_points(
    random: &mut Random,
    (d, fineness): (usize, u32),
    readings: &[Vec<i32>],
    points: &[Point],
    spare: Spare,
) -> Table {
    let settings = Settings {
        d,
        fineness,
        capacity: (points.len() + spare.points).clamp(1, GREATEST_CAPACITY),
        room: (readings.len() + spare.readings).clamp(1, GREATEST_READINGS),
    };
    let mut table = Table::lent(random, settings);
    table.head = table.head.with_counts(readings.len(), points.len());
    for (number, point) in points.iter().enumerate() {
        table.keys[d * number..d * (number + 1)].copy_from_slice(&point.key);
        table.sums[2 * number] = point.mass;
        table.sums[2 * number + 1] = point.value_sum;
    }
    for (place, reading) in readings.iter().enumerate() {
        table.entry_mut(place).copy_from_slice(reading);
    }
    table.make_index(random);
    table
}

/// A sound table of up to so many readings of the scene.
pub fn of_scene(random: &mut Random, scene: &mut Scene, most: usize) -> Table {
    let count = match random.below(6) {
        0 => random.below(2),
        1 => most,
        _ => random.below(most + 1),
    };
    let readings = scene.sound_readings(random, count);
    let spare = Spare::some(random);
    of_readings(random, (scene.d, scene.fineness), readings, spare)
}

/// A sound table of random settings with up to so many readings, and the scene that they are from.
pub fn any_sound(random: &mut Random, most: usize) -> (Table, Scene) {
    let (d, fineness) = (1 + random.below(5), some_fineness(random));
    let mut scene = Scene::new(random, d, fineness, 0);
    let table = of_scene(random, &mut scene, most);
    (table, scene)
}

/// A sound table of just these points, with one or several readings at each of them.
pub fn at_points(random: &mut Random, scene: &mut Scene, keys: &[Vec<i32>], spare: Spare) -> Table {
    let mut readings = Vec::new();
    for key in keys {
        let position = at_point(scene.fineness, key);
        let count = random.pick(&[1, 1, 1, 2, 4]);
        readings.extend((0..count).map(|_| scene.reading_at(random, &position)));
    }
    of_readings(random, (scene.d, scene.fineness), readings, spare)
}
