//! Breaks the clauses of soundness. Each damage breaks one clause, and as far as that can be it keeps the others, so
//! that a version without that clause would be found out; nearly all that document 01's clauses see, the book sees too.
//! Several can be put on one table, one after the other; their sums wrap, because an earlier damage may have left any
//! number.

use crate::book_damage as book;
use crate::keys::limit_key;
use crate::positions::LIMIT;
use crate::random::Random;
use crate::table::{Table, GREATEST_READINGS};

/// One way to break a sound table.
#[derive(Clone, Copy)]
pub struct Damage {
    pub name: &'static str,
    /// Answers whether a table that was sound is surely unsound now. The table may be left as it was where it is too
    /// small for the damage.
    pub make: fn(&mut Random, &mut Table) -> bool,
    /// Whether it answers so on some table.
    pub can_be_sure: bool,
}

const fn sure(name: &'static str, make: fn(&mut Random, &mut Table) -> bool) -> Damage {
    Damage {
        name,
        make,
        can_be_sure: true,
    }
}

const fn perhaps(name: &'static str, make: fn(&mut Random, &mut Table) -> bool) -> Damage {
    Damage {
        name,
        make,
        can_be_sure: false,
    }
}

/// All damages.
pub const DAMAGES: &[Damage] = &[
    sure("m above C", points_above_capacity),
    sure("n above 4,096", readings_above_limit),
    sure("index entry above m", entry_above_points),
    sure("entry missing", entry_missing),
    sure("entry twice", entry_twice),
    sure("m one less", points_one_less),
    sure("m one more", points_one_more),
    sure("key twice", key_twice),
    perhaps("entries swapped", entries_swapped),
    perhaps("entry moved", entry_moved),
    sure("mixed remainders", mixed_remainders),
    sure("coordinate beyond", coordinate_beyond),
    sure("coordinate far beyond", coordinate_far_beyond),
    sure("mass 0 or less", mass_not_positive),
    sure("mass modulo 2^64", mass_round_64_bits),
    sure("great mass", great_mass),
    sure("value sum beyond", value_sum_beyond),
    sure("value sum far beyond", value_sum_far_beyond),
    sure("masses off the total", masses_off),
    sure("n off the total", readings_off),
    perhaps("nonsense index", nonsense_index),
    sure("index without an empty place", full_index),
    sure("n above B", book::readings_above_room),
    sure("value beyond in the book", book::value_beyond),
    sure("coordinate beyond in the book", book::coordinate_beyond),
    sure("coordinates modulo 2^32 in the book", book::coordinates_round_32_bits),
    sure("book off the hyperplane", book::off_the_hyperplane),
    sure("number twice", book::number_twice),
    sure("mass one off at two points", book::mass_off_at_two),
    sure("value sum one off", book::value_sum_off),
    sure("pairs exchanged", book::pairs_exchanged),
    sure("touched point missing", book::touched_point_missing),
    sure("touched point dropped", book::touched_point_dropped),
    sure("untouched point stored", book::untouched_point_stored),
    sure("another value in the book", book::another_value),
    sure("another position in the book", book::another_position),
    perhaps("values exchanged in the book", book::values_exchanged),
];

/// A stored point's number, where there is one.
pub fn some_point(random: &mut Random, table: &Table) -> Option<usize> {
    (table.stored() > 0).then(|| random.below(table.stored()))
}

/// A place of the index that is empty, or one that is not.
fn some_place(random: &mut Random, table: &Table, empty: bool) -> Option<usize> {
    let places: Vec<usize> = (0..table.index.len())
        .filter(|place| (table.index[*place] == 0) == empty)
        .collect();
    (!places.is_empty()).then(|| random.pick(&places))
}

fn points_above_capacity(random: &mut Random, table: &mut Table) -> bool {
    let capacity = table.head.capacity;
    table.head.points = random.pick(&[capacity + 1, capacity + 2, 2 * capacity + 1, 65_536, usize::MAX]);
    table.head.points > capacity
}

/// The masses are made to fit, so that no other clause of document 01 is broken. No book has room for so many.
fn readings_above_limit(random: &mut Random, table: &mut Table) -> bool {
    let readings = GREATEST_READINGS + 1 + random.below(3);
    if let Some(point) = some_point(random, table) {
        let more = table.weight_total() * (readings as i64 - table.head.readings as i64);
        table.sums[2 * point] = table.sums[2 * point].wrapping_add(more);
    }
    table.head.readings = if random.once_in(5) {
        usize::MAX - random.below(2)
    } else {
        readings
    };
    true
}

fn entry_above_points(random: &mut Random, table: &mut Table) -> bool {
    let empty = random.once_in(2);
    let Some(place) = some_place(random, table, empty) else {
        return false;
    };
    let least = table.stored() + 1;
    table.index[place] = random.pick(&[least, least + 1, 65_535]) as u16;
    true
}

fn entry_missing(random: &mut Random, table: &mut Table) -> bool {
    let Some(place) = some_place(random, table, false) else {
        return false;
    };
    table.index[place] = 0;
    true
}

/// A point that is named at a second place too. Where that place is no part of another's search, every key is found.
fn entry_twice(random: &mut Random, table: &mut Table) -> bool {
    let Some(point) = some_point(random, table) else {
        return false;
    };
    let Some(place) = some_place(random, table, true) else {
        return false;
    };
    table.index[place] = point as u16 + 1;
    true
}

fn points_one_less(_: &mut Random, table: &mut Table) -> bool {
    let stored = table.head.points > 0;
    table.head.points -= usize::from(stored);
    stored
}

/// The index has no entry for the further point.
fn points_one_more(_: &mut Random, table: &mut Table) -> bool {
    table.head.points = table.head.points.saturating_add(1);
    true
}

fn key_twice(random: &mut Random, table: &mut Table) -> bool {
    let (points, d) = (table.stored(), table.head.d);
    if points < 2 {
        return false;
    }
    let from = random.below(points);
    let to = (from + 1 + random.below(points - 1)) % points;
    table.keys.copy_within(d * from..d * (from + 1), d * to);
    if random.once_in(2) {
        table.make_index(random);
    }
    true
}

/// A swap may leave both keys findable, where they share a stretch of the index.
fn entries_swapped(random: &mut Random, table: &mut Table) -> bool {
    let (Some(one), Some(other)) = (some_place(random, table, false), some_place(random, table, false)) else {
        return false;
    };
    table.index.swap(one, other);
    false
}

/// A moved entry may leave its key findable.
fn entry_moved(random: &mut Random, table: &mut Table) -> bool {
    let (Some(from), Some(to)) = (some_place(random, table, false), some_place(random, table, true)) else {
        return false;
    };
    table.index.swap(from, to);
    false
}

/// With d = 1 every whole number is a kept coordinate, so nothing is mixed there.
fn mixed_remainders(random: &mut Random, table: &mut Table) -> bool {
    let Some(point) = some_point(random, table) else {
        return false;
    };
    let d = table.head.d;
    if d == 1 {
        return false;
    }
    let coordinate = d * point + random.below(d);
    let off = random.between(1, d as i64) as i32;
    table.keys[coordinate] += if table.keys[coordinate] > 0 { -off } else { off };
    table.make_index(random);
    true
}

/// Just beyond the limits, in a kept coordinate or in the implied last one.
fn coordinate_beyond(random: &mut Random, table: &mut Table) -> bool {
    let Some(point) = some_point(random, table) else {
        return false;
    };
    let beyond = random.between(1, 2);
    let key = limit_key(random, table.head.d, beyond);
    let d = table.head.d;
    table.keys[d * point..d * (point + 1)].copy_from_slice(&key);
    table.make_index(random);
    true
}

/// Multiples of d+1 are the kept coordinates of a point: the implied last coordinate is then far beyond 32 bits.
fn coordinate_far_beyond(random: &mut Random, table: &mut Table) -> bool {
    let Some(point) = some_point(random, table) else {
        return false;
    };
    let d = table.head.d;
    let sides = d as i32 + 1;
    let far = random.pick(&[
        i32::MAX / sides * sides,
        i32::MIN / sides * sides,
        (1 << 30) / sides * sides,
    ]);
    if random.once_in(2) {
        table.keys[d * point..d * (point + 1)].fill(far);
    } else {
        table.keys[d * point..d * (point + 1)].fill(0);
        table.keys[d * point] = far;
    }
    table.make_index(random);
    true
}

/// What is taken from one mass goes to another point, where there is one: the total stays.
fn mass_not_positive(random: &mut Random, table: &mut Table) -> bool {
    let Some(point) = some_point(random, table) else {
        return false;
    };
    let other = random.below(table.stored());
    let mass = random.pick(&[0, 0, -1, -2, -LIMIT]);
    let taken = table.sums[2 * point].wrapping_sub(mass);
    table.sums[2 * other] = table.sums[2 * other].wrapping_add(taken);
    table.sums[2 * point] = mass;
    // The value sum keeps to its own clause where the mass allows it.
    table.sums[2 * point + 1] = 0;
    true
}

/// Masses whose sum is right modulo 2^64 only. Each of them is at least 1, and each value sum is within its limits.
fn mass_round_64_bits(random: &mut Random, table: &mut Table) -> bool {
    let points = table.stored();
    if points >= 4 && random.once_in(2) {
        (0..4).for_each(|point| table.sums[2 * point] = table.sums[2 * point].wrapping_add(1 << 62));
        return true;
    }
    if points < 3 {
        return false;
    }
    let three = table.sums[0].wrapping_add(table.sums[2]).wrapping_add(table.sums[4]);
    (table.sums[0], table.sums[2], table.sums[4]) = (i64::MAX, i64::MAX, three.wrapping_add(2));
    (table.sums[1], table.sums[3], table.sums[5]) = (i64::MIN, i64::MAX, random.between(-9, 9));
    true
}

fn great_mass(random: &mut Random, table: &mut Table) -> bool {
    let Some(point) = some_point(random, table) else {
        return false;
    };
    table.sums[2 * point] = random.pick(&[1 << 62, i64::MAX, i64::MIN, i64::MIN + 1, i64::MAX / LIMIT + 1]);
    table.sums[2 * point + 1] = random.pick(&[0, i64::MAX, i64::MIN]);
    true
}

fn value_sum_beyond(random: &mut Random, table: &mut Table) -> bool {
    let Some(point) = some_point(random, table) else {
        return false;
    };
    let limit = LIMIT.wrapping_mul(table.sums[2 * point]).wrapping_add(1);
    table.sums[2 * point + 1] = random.pick(&[limit, limit.wrapping_neg()]);
    true
}

fn value_sum_far_beyond(random: &mut Random, table: &mut Table) -> bool {
    let Some(point) = some_point(random, table) else {
        return false;
    };
    table.sums[2 * point + 1] = random.pick(&[i64::MAX, i64::MIN, 1 << 62]);
    true
}

/// One mass is 1 more, or 1 less where it stays at least 1.
fn masses_off(random: &mut Random, table: &mut Table) -> bool {
    let Some(point) = some_point(random, table) else {
        return false;
    };
    let less = table.sums[2 * point] > 1 && random.once_in(2);
    table.sums[2 * point] = table.sums[2 * point].wrapping_add(if less { -1 } else { 1 });
    table.sums[2 * point + 1] = 0;
    true
}

fn readings_off(random: &mut Random, table: &mut Table) -> bool {
    let less = table.head.readings > 0 && random.once_in(2);
    table.head.readings = if less {
        table.head.readings - 1
    } else {
        table.head.readings.wrapping_add(1)
    };
    true
}

fn nonsense_index(random: &mut Random, table: &mut Table) -> bool {
    let greatest = random.pick(&[1, table.stored() + 1, 65_535]);
    table
        .index
        .iter_mut()
        .for_each(|entry| *entry = random.below(greatest + 1) as u16);
    false
}

/// A search for a key that is not there would never end.
fn full_index(random: &mut Random, table: &mut Table) -> bool {
    let Some(point) = some_point(random, table) else {
        return false;
    };
    table.index.fill(point as u16 + 1);
    true
}
