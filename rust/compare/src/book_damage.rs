//! Damages that only the book's clauses see: on a sound table each keeps all of document 01's clauses, and all but one
//! of those that ticket 8 adds. Where a clause is about a reading's own limits, the points are poured anew from the
//! faulty reading, so that the sums are still those of the book.

use crate::damage::some_point;
use crate::keys::lattice_key;
use crate::positions::LIMIT;
use crate::random::Random;
use crate::sound::{of_points, Poured, Spare};
use crate::table::{Table, GREATEST_CAPACITY};

/// Positions further out than this are not poured: an earlier damage may have left any number.
const POURED_REACH: u32 = 1 << 25;

/// Two different numbers below this, where there are two.
fn two_of(random: &mut Random, count: usize) -> Option<(usize, usize)> {
    if count < 2 {
        return None;
    }
    let one = random.below(count);
    let other = (one + 1 + random.below(count - 1)) % count;
    Some((one, other))
}

fn some_entry(random: &mut Random, table: &Table) -> Option<usize> {
    (table.entered() > 0).then(|| random.below(table.entered()))
}

/// Makes the table anew from these readings, with as much room as before where that suffices. Tells whether it could.
fn pour_anew(random: &mut Random, table: &mut Table, readings: &[Vec<i32>]) -> bool {
    let far = |number: &i32| number.unsigned_abs() > POURED_REACH;
    if readings.iter().any(|reading| reading[1..].iter().any(far)) {
        return false;
    }
    let mut points = Poured::of(table.head.fineness, readings).points;
    if points.len() > GREATEST_CAPACITY {
        return false;
    }
    random.shuffle(&mut points);
    let spare = Spare {
        points: table.head.capacity.saturating_sub(points.len()),
        readings: table.head.room.saturating_sub(readings.len()),
    };
    *table = of_points(random, (table.head.d, table.head.fineness), readings, &points, spare);
    true
}

/// The book ends before its last reading, so that n is one more than B.
pub fn readings_above_room(_: &mut Random, table: &mut Table) -> bool {
    let readings = table.entered();
    if readings < 2 {
        return false;
    }
    table.head.room = readings - 1;
    table.book.truncate((readings - 1) * (table.head.d + 3));
    true
}

/// Another reading at the same place makes up for the value, so that no value sum is beyond its limits.
pub fn value_beyond(random: &mut Random, table: &mut Table) -> bool {
    let mut readings = table.readings();
    let Some((one, other)) = two_of(random, readings.len()) else {
        return false;
    };
    readings[one] = [&readings[one][..1], &readings[other][1..]].concat();
    let value = table.head.d + 2;
    let beyond = (LIMIT + random.pick(&[1, 1, 2, 1_000])) as i32;
    readings[one][value] = random.pick(&[beyond, -beyond]);
    readings[other][value] = 0;
    pour_anew(random, table, &readings)
}

/// The points of such a reading are still within their own, wider limits, with a fineness of 1 most of them.
pub fn coordinate_beyond(random: &mut Random, table: &mut Table) -> bool {
    let Some(place) = some_entry(random, table) else {
        return false;
    };
    let mut readings = table.readings();
    let d = table.head.d;
    let beyond = (LIMIT + random.pick(&[1, 1, 2])) as i32 * random.pick(&[1, -1]);
    let (high, low) = (1 + random.below(d + 1), 1 + random.below(d));
    let low = if low >= high { low + 1 } else { low };
    readings[place][1..d + 2].fill(0);
    (readings[place][high], readings[place][low]) = (beyond, -beyond);
    if d > 1 && random.once_in(2) {
        // Only one coordinate is beyond the limit, and the sum is still 0.
        let third = (1..d + 2).find(|i| *i != high && *i != low).unwrap_or(high);
        let moved = 3 * beyond.signum();
        readings[place][low] += moved;
        readings[place][third] -= moved;
    }
    pour_anew(random, table, &readings)
}

/// All coordinates are off by 2^31. Differences are then right modulo 2^32, and where d is odd so is the sum.
pub fn coordinates_round_32_bits(random: &mut Random, table: &mut Table) -> bool {
    let Some(place) = some_entry(random, table) else {
        return false;
    };
    let d = table.head.d;
    let position = &mut table.entry_mut(place)[1..d + 2];
    position.iter_mut().for_each(|x| *x = x.wrapping_add(i32::MIN));
    true
}

/// All coordinates are greater or less by the same: every spread stays, and so do the weights.
pub fn off_the_hyperplane(random: &mut Random, table: &mut Table) -> bool {
    let Some(place) = some_entry(random, table) else {
        return false;
    };
    let d = table.head.d;
    let position = &mut table.entry_mut(place)[1..d + 2];
    let off = random.pick(&[1, -1, 2, -3]);
    position.iter_mut().for_each(|x| *x = x.wrapping_add(off));
    true
}

pub fn number_twice(random: &mut Random, table: &mut Table) -> bool {
    let Some((one, other)) = two_of(random, table.entered()) else {
        return false;
    };
    table.entry_mut(one)[0] = table.entry(other)[0];
    true
}

/// One unit of mass goes from a point to another that can spare it. The total stays.
pub fn mass_off_at_two(random: &mut Random, table: &mut Table) -> bool {
    let sums = &table.sums;
    let can_spare = |point: &usize| {
        let (mass, value_sum) = (sums[2 * point], sums[2 * point + 1]);
        mass > 1 && value_sum.unsigned_abs() <= (LIMIT as u64).wrapping_mul(mass as u64 - 1)
    };
    let rich: Vec<usize> = (0..table.stored()).filter(can_spare).collect();
    if rich.is_empty() || table.stored() < 2 {
        return false;
    }
    let from = random.pick(&rich);
    let to = (from + 1 + random.below(table.stored() - 1)) % table.stored();
    table.sums[2 * from] -= 1;
    table.sums[2 * to] = table.sums[2 * to].wrapping_add(1);
    true
}

/// A value sum is one nearer to 0, or one further from it where it is 0; sometimes another makes up for it.
pub fn value_sum_off(random: &mut Random, table: &mut Table) -> bool {
    let Some(point) = some_point(random, table) else {
        return false;
    };
    let off = if table.sums[2 * point + 1] > 0 { -1 } else { 1 };
    table.sums[2 * point + 1] = table.sums[2 * point + 1].wrapping_add(off);
    let other = random.below(table.stored());
    if other != point && random.once_in(2) {
        table.sums[2 * other + 1] = table.sums[2 * other + 1].wrapping_sub(off);
    }
    true
}

/// Sure where the two pairs differ.
pub fn pairs_exchanged(random: &mut Random, table: &mut Table) -> bool {
    let Some((one, other)) = two_of(random, table.stored()) else {
        return false;
    };
    let alike = table.sums[2 * one..2 * one + 2] == table.sums[2 * other..2 * other + 2];
    table.sums.swap(2 * one, 2 * other);
    table.sums.swap(2 * one + 1, 2 * other + 1);
    !alike
}

/// Takes a point out of the table, and answers its pair. The last point takes its number.
fn take_out(random: &mut Random, table: &mut Table, point: usize) -> (i64, i64) {
    let (d, last) = (table.head.d, table.stored() - 1);
    let pair = (table.sums[2 * point], table.sums[2 * point + 1]);
    table.keys.copy_within(d * last..d * (last + 1), d * point);
    table.sums.copy_within(2 * last..2 * last + 2, 2 * point);
    table.head.points = last;
    table.make_index(random);
    pair
}

/// What the point had goes to another, so that the total is right.
pub fn touched_point_missing(random: &mut Random, table: &mut Table) -> bool {
    if table.stored() < 2 {
        return false;
    }
    let point = random.below(table.stored());
    let (mass, value_sum) = take_out(random, table, point);
    let other = random.below(table.stored());
    table.sums[2 * other] = table.sums[2 * other].wrapping_add(mass);
    table.sums[2 * other + 1] = table.sums[2 * other + 1].wrapping_add(value_sum);
    true
}

/// Every other pair is right, and only the total tells.
pub fn touched_point_dropped(random: &mut Random, table: &mut Table) -> bool {
    let Some(point) = some_point(random, table) else {
        return false;
    };
    take_out(random, table, point);
    true
}

/// A point that no reading touches has one unit of the mass of another.
pub fn untouched_point_stored(random: &mut Random, table: &mut Table) -> bool {
    let (d, points) = (table.head.d, table.stored());
    let Some(rich) = (0..points).find(|point| table.sums[2 * point] > 1) else {
        return false;
    };
    let key = lattice_key(random, d, 1_000);
    if points == table.head.capacity || (0..points).any(|point| table.key(point) == key) {
        return false;
    }
    table.keys[d * points..d * (points + 1)].copy_from_slice(&key);
    table.sums[2 * points..2 * points + 2].copy_from_slice(&[1, 0]);
    table.sums[2 * rich] -= 1;
    // Its value sum keeps to its own clause.
    table.sums[2 * rich + 1] /= 2;
    table.head.points = points + 1;
    table.make_index(random);
    true
}

/// One nearer to 0, or one further from it where it is 0.
pub fn another_value(random: &mut Random, table: &mut Table) -> bool {
    let Some(place) = some_entry(random, table) else {
        return false;
    };
    let value = table.head.d + 2;
    let value = &mut table.entry_mut(place)[value];
    *value = value.wrapping_add(if *value > 0 { -1 } else { 1 });
    true
}

/// One unit goes from one coordinate to another. Different positions never have the same weights.
pub fn another_position(random: &mut Random, table: &mut Table) -> bool {
    let Some(place) = some_entry(random, table) else {
        return false;
    };
    let sides = table.head.d + 1;
    let Some((one, other)) = two_of(random, sides) else {
        return false;
    };
    let position = &mut table.entry_mut(place)[1..sides + 1];
    position[one] = position[one].wrapping_add(1);
    position[other] = position[other].wrapping_sub(1);
    true
}

/// Two readings at one place may exchange their values, and others may not.
pub fn values_exchanged(random: &mut Random, table: &mut Table) -> bool {
    let Some((one, other)) = two_of(random, table.entered()) else {
        return false;
    };
    let value = table.head.d + 2;
    let (first, second) = (table.entry(one)[value], table.entry(other)[value]);
    table.entry_mut(one)[value] = second;
    table.entry_mut(other)[value] = first;
    false
}
