//! Writes logs: items of the kinds that are listed, and items that are not. What kind an item says and what follows it
//! can be chosen freely, so that every refusal of the reader can be made.

use crate::positions::Scene;
use crate::random::Random;

/// The log under construction.
#[derive(Clone, Default)]
pub struct Log {
    pub bytes: Vec<u8>,
}

impl Log {
    /// A log that starts with settings.
    pub fn of_settings(d: usize, fineness: u32, capacity: usize) -> Log {
        let mut log = Log::default();
        log.settings(d as u8, fineness as u8, capacity as u16);
        log
    }

    /// Appends settings.
    pub fn settings(&mut self, d: u8, fineness: u8, capacity: u16) {
        self.bytes.extend([0x01, d, fineness]);
        self.bytes.extend(capacity.to_le_bytes());
    }

    /// Appends a reading of the book's form without its number; the dimension follows from how many numbers it has.
    pub fn unnumbered(&mut self, reading: &[i32]) {
        self.item(0x10 + (reading.len() - 3) as u8, &reading[1..]);
    }

    /// Appends a reading of the book's form with its number.
    pub fn numbered(&mut self, reading: &[i32]) {
        self.item(0x70 + (reading.len() - 3) as u8, reading);
    }

    /// Appends a query; its dimension follows from how many numbers it has.
    pub fn query(&mut self, query: &[i32]) {
        self.item(0x20 + (query.len() - 1) as u8, query);
    }

    fn item(&mut self, kind: u8, numbers: &[i32]) {
        self.bytes.push(kind);
        self.bytes
            .extend(numbers.iter().flat_map(|number| number.to_le_bytes()));
    }

    /// Appends a reading of the scene, with its number or without.
    pub fn any_reading(&mut self, random: &mut Random, scene: &mut Scene) {
        let reading = scene.reading(random);
        if scene.goes_unnumbered(random) {
            self.unnumbered(&reading);
        } else {
            self.numbered(&reading);
        }
    }

    /// Appends a reading or a query of the scene, about three readings for each query.
    pub fn any_item(&mut self, random: &mut Random, scene: &mut Scene) {
        if random.once_in(4) {
            self.query(&scene.query(random));
        } else {
            self.any_reading(random, scene);
        }
    }

    /// Appends queries and readings of the scene that fill the log to just this length, which must be some thousands:
    /// the lengths of a query and of a reading have no common divisor, numbered or not, so whole items meet every such
    /// length. The readings are all numbered, or none is.
    pub fn fill_to(&mut self, random: &mut Random, scene: &mut Scene, length: usize) {
        let numbered = random.once_in(2);
        let (query, reading) = (1 + 4 * (scene.d + 1), 1 + 4 * (scene.d + 2 + usize::from(numbered)));
        let rest = length - self.bytes.len();
        let mut queries = random.below(rest / query / 4);
        while !(rest - queries * query).is_multiple_of(reading) {
            queries += 1;
        }
        for _ in 0..queries {
            self.query(&scene.query(random));
        }
        while self.bytes.len() < length {
            let reading = scene.reading(random);
            if numbered {
                self.numbered(&reading);
            } else {
                self.unnumbered(&reading);
            }
        }
    }
}

/// The worked log of document 01, 49 bytes.
pub fn worked_log() -> Log {
    let mut log = Log::of_settings(1, 2, 8);
    log.unnumbered(&[0, 3, -3, 10]);
    log.unnumbered(&[1, 2, -2, 4]);
    log.query(&[4, -4]);
    log.query(&[100, -100]);
    log
}

/// The worked log with a number before its second reading: 1, which an unnumbered one behind it does not get.
pub fn worked_log_with_a_number() -> Log {
    let mut log = Log::of_settings(1, 2, 8);
    log.unnumbered(&[0, 3, -3, 10]);
    log.numbered(&[1, 2, -2, 4]);
    log.unnumbered(&[2, 2, -2, 5]);
    log.query(&[4, -4]);
    log
}

/// A log of several hundred bytes with queries and readings of both kinds between one another. It is taken whole.
pub fn mixed_log(random: &mut Random, d: usize) -> Log {
    let mut log = Log::of_settings(d, 3, 60);
    let mut scene = Scene::within(random, d, 3, 20, 0);
    for i in 0..20 {
        match i % 4 {
            0 => log.query(&scene.query(random)),
            1 => log.unnumbered(&scene.sound_reading(random)),
            // Unnumbered readings get 0 to 4 here.
            _ => {
                let mut reading = scene.sound_reading(random);
                reading[0] = random.pick(&[-1, 1]) * (100 + i);
                log.numbered(&reading);
            }
        }
    }
    log
}
