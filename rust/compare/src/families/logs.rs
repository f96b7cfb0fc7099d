//! Logs through load and report: random ones, near and at the limits, every byte changed, every cut, items in every
//! order, and the limits of the program.

use crate::case::Case;
use crate::check::Check;
use crate::keys::some_fineness;
use crate::logs::{mixed_log, worked_log, worked_log_with_a_number, Log};
use crate::positions::{anywhere, Scene, LIMIT};
use crate::random::Random;
use crate::table::{room_out_of_range, Settings, Table, GREATEST_CAPACITY, GREATEST_READINGS};

/// Values that a byte of the mixed logs is changed to, besides the byte with one bit turned over.
const OTHER_BYTES: [u8; 12] = [0x00, 0x01, 0x02, 0x11, 0x12, 0x22, 0x26, 0x72, 0x76, 0x7F, 0x80, 0xFF];
/// Turned over one by one.
const BITS: usize = 8;
/// The greatest length that the program reads.
const PROGRAM_LENGTH: usize = 16_384;

/// Runs a log through report and load. The lent slices mostly fit the settings, and the book mostly has room.
pub fn run_log(random: &mut Random, check: &mut Check, log: &[u8]) {
    check.report(random, log);
    if random.once_in(50) {
        check.report_without_room(random, log);
    }
    let mut table = slices_for(random, log);
    if random.once_in(12) {
        table.change_a_length(random);
    }
    if random.once_in(30) {
        table.head.room = room_out_of_range(random);
    }
    check.load(log, &mut table);
}

/// Slices of the lengths that the first item's settings give, or of any small lengths where it has no good ones.
fn slices_for(random: &mut Random, log: &[u8]) -> Table {
    let (d, capacity) = match log {
        [0x01, d @ 1..=5, _, low, high, ..] => {
            let capacity = usize::from(u16::from_le_bytes([*low, *high]));
            (usize::from(*d), capacity.min(GREATEST_CAPACITY))
        }
        _ => (1 + random.below(5), random.below(20)),
    };
    let settings = Settings {
        d,
        fineness: 1,
        capacity,
        room: some_room(random),
    };
    Table::lent(random, settings)
}

/// A room that mostly suffices for a log of a few readings.
fn some_room(random: &mut Random) -> usize {
    match random.below(12) {
        0 => 1 + random.below(4),
        1 => 1 + random.below(24),
        2 if random.once_in(60) => GREATEST_READINGS,
        _ => 60 + random.below(10),
    }
}

/// A capacity that is mostly one of the program's.
fn some_capacity(random: &mut Random) -> usize {
    match random.below(12) {
        0 => 1 + random.below(GREATEST_CAPACITY),
        1 => random.pick(&[512, 513]),
        2 | 3 => 1 + random.below(12),
        _ => 1 + random.below(512),
    }
}

/// A log of the scene with up to so many items.
fn scene_log(random: &mut Random, scene: &mut Scene, capacity: usize, most: usize) -> Log {
    let mut log = Log::of_settings(scene.d, scene.fineness, capacity);
    for _ in 0..random.below(most + 1) {
        log.any_item(random, scene);
    }
    log
}

/// Logs of every dimension and fineness.
pub fn random_logs(case: &mut Case, check: &mut Check) {
    let random = &mut case.random;
    let (d, fineness) = (1 + random.below(5), 1 + random.below(64) as u32);
    let fault_once_in = random.pick(&[0, 0, 0, 100, 15]);
    let mut scene = Scene::new(random, d, fineness, fault_once_in);
    let capacity = some_capacity(random);
    let log = scene_log(random, &mut scene, capacity, 60);
    run_log(random, check, &log.bytes);
}

/// Small finenesses and few places: ties, points of weight 0, coincident and neighbouring positions.
pub fn close_logs(case: &mut Case, check: &mut Check) {
    let random = &mut case.random;
    let d = 1 + random.below(5);
    let fineness = 1 + random.below(4) as u32;
    let reach = random.between(1, 3 * i64::from(fineness));
    let fault_once_in = random.pick(&[0, 0, 30]);
    let mut scene = Scene::within(random, d, fineness, reach, fault_once_in);
    let capacity = 100 + random.below(300);
    let log = scene_log(random, &mut scene, capacity, 60);
    run_log(random, check, &log.bytes);
}

/// Coordinates and values at the limits and beyond.
pub fn limit_logs(case: &mut Case, check: &mut Check) {
    let random = &mut case.random;
    let (d, fineness) = (1 + random.below(5), some_fineness(random));
    let fault_once_in = random.pick(&[0, 4, 10, 20]);
    let mut scene = Scene::within(random, d, fineness, LIMIT, fault_once_in);
    let log = scene_log(random, &mut scene, 300, 30);
    run_log(random, check, &log.bytes);
}

/// The worked log, and the one with a number in it.
fn worked_logs() -> [Vec<u8>; 2] {
    [worked_log().bytes, worked_log_with_a_number().bytes]
}

/// How many cases change each byte of the worked logs to every other value.
pub fn worked_byte_cases() -> u64 {
    let lengths: usize = worked_logs().iter().map(Vec::len).sum();
    lengths as u64 * 255
}

/// A worked log with one byte changed, to each of the 255 other values.
pub fn worked_log_bytes(case: &mut Case, check: &mut Check) {
    let (place, other) = ((case.number / 255) as usize, 1 + (case.number % 255) as u8);
    let (mut log, place) = log_and_place(worked_logs(), place);
    log[place] = log[place].wrapping_add(other);
    run_log(&mut case.random, check, &log);
}

/// The log that this place is in, where they stand one behind the other, and the place in it.
fn log_and_place([first, second]: [Vec<u8>; 2], place: usize) -> (Vec<u8>, usize) {
    match place.checked_sub(first.len()) {
        None => (first, place),
        Some(place) => (second, place),
    }
}

/// The two mixed logs, of dimensions 2 and 3, the same in every case.
fn mixed_logs() -> [Vec<u8>; 2] {
    [2, 3].map(|d| mixed_log(&mut Random::new(d as u64), d).bytes)
}

/// How many cases change each byte of both mixed logs.
pub fn mixed_byte_cases() -> u64 {
    let lengths: usize = mixed_logs().iter().map(Vec::len).sum();
    (lengths * (OTHER_BYTES.len() + BITS)) as u64
}

/// A mixed log with one byte changed to one of several values.
pub fn mixed_log_bytes(case: &mut Case, check: &mut Check) {
    let ways = OTHER_BYTES.len() + BITS;
    let (place, way) = (case.number as usize / ways, case.number as usize % ways);
    let (mut log, place) = log_and_place(mixed_logs(), place);
    log[place] = match OTHER_BYTES.get(way) {
        Some(byte) => *byte,
        None => log[place] ^ (1 << (way - OTHER_BYTES.len())),
    };
    run_log(&mut case.random, check, &log);
}

/// The logs that are cut.
fn cut_logs() -> impl Iterator<Item = Vec<u8>> {
    worked_logs().into_iter().chain(mixed_logs())
}

/// How many cases cut the worked and the mixed logs at every length, the whole ones included.
pub fn cut_cases() -> u64 {
    cut_logs().map(|log| log.len() as u64 + 1).sum()
}

/// A log cut at each length.
pub fn log_cuts(case: &mut Case, check: &mut Check) {
    let mut length = case.number as usize;
    for log in cut_logs() {
        if length <= log.len() {
            return run_log(&mut case.random, check, &log[..length]);
        }
        length -= log.len() + 1;
    }
}

/// Items in any order: settings missing, late, met again or out of range, other dimensions, unlisted kinds, and a cut
/// somewhere in the last item.
pub fn item_orders(case: &mut Case, check: &mut Check) {
    let random = &mut case.random;
    let (d, fineness) = (1 + random.below(5), some_fineness(random));
    let mut log = Log::default();
    if random.below(8) > 0 {
        log = Log::of_settings(d, fineness, 40);
    }
    let fault_once_in = random.pick(&[0, 10]);
    let mut scene = Scene::within(random, d, fineness, 30, fault_once_in);
    for _ in 0..random.below(7) {
        log.any_item(random, &mut scene);
    }
    odd_item(random, &mut log, &mut scene);
    for _ in 0..random.below(3) {
        log.any_item(random, &mut scene);
    }
    if random.once_in(3) {
        let kept = log.bytes.len() - random.below(log.bytes.len().min(30) + 1);
        log.bytes.truncate(kept);
    }
    run_log(random, check, &log.bytes);
}

/// Appends an item that may not stand where it does.
fn odd_item(random: &mut Random, log: &mut Log, scene: &mut Scene) {
    match random.below(6) {
        0 => log.settings(scene.d as u8, scene.fineness as u8, 40),
        1 => log.settings(
            random.pick(&[0, 1, 5, 6, 255]),
            random.pick(&[0, 1, 64, 65, 255]),
            random.pick(&[0, 1, 512, 513, 8_192, 8_193, 65_535]),
        ),
        2 | 3 => {
            let d = 1 + random.below(5);
            let mut other = Scene::within(random, d, scene.fineness, 30, 4);
            log.any_item(random, &mut other);
        }
        4 => log
            .bytes
            .push(random.pick(&[0x00, 0x02, 0x10, 0x16, 0x20, 0x26, 0x70, 0x76, 0x81, 0xFF])),
        _ => log
            .bytes
            .extend((0..random.below(30)).map(|_| random.bits() as u8).collect::<Vec<_>>()),
    }
}

/// Logs about as long as the program reads, and capacities about 512.
pub fn program_limits(case: &mut Case, check: &mut Check) {
    let random = &mut case.random;
    let (d, fineness) = (1 + random.below(5), some_fineness(random));
    let length = PROGRAM_LENGTH - 2 + random.below(5);
    let capacity = random.pick(&[512, 512, 512, 513, 8_192]);
    let mut log = Log::of_settings(d, fineness, capacity);
    let reach = i64::from(fineness) * random.between(1, 2);
    let fault_once_in = random.pick(&[0, 0, 800]);
    let mut scene = Scene::within(random, d, fineness, reach, fault_once_in);
    match random.below(4) {
        0 => log.fill_to(random, &mut scene, length),
        1 => wide_report(random, &mut log, &mut scene),
        2 => {
            log.fill_to(random, &mut scene, length);
            let place = random.below(40);
            log.bytes[place] = random.bits() as u8;
        }
        _ => {
            // Length comes before everything else.
            log.bytes = (0..length).map(|_| random.bits() as u8).collect();
            log.bytes[0] = random.pick(&[0x01, 0x01, 0x11, 0x00]);
        }
    }
    run_log(random, check, &log.bytes);
}

/// Fills the program's greatest capacity with points far out, and then the log with queries: the longest reports.
fn wide_report(random: &mut Random, log: &mut Log, scene: &mut Scene) {
    let d = scene.d;
    let numbered = random.once_in(2);
    for _ in 0..512 / (d + 1) {
        let position = anywhere(random, d);
        let reading = scene.reading_at(random, &position);
        if numbered {
            log.numbered(&reading);
        } else {
            log.unnumbered(&reading);
        }
    }
    while log.bytes.len() + 1 + 4 * (d + 1) <= PROGRAM_LENGTH {
        log.query(&anywhere(random, d));
    }
}
