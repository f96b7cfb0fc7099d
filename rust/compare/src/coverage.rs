//! The last family: it fails where the generators of the others never, or hardly ever, reached a case. Without it a
//! generator that makes only refused or only easy inputs would pass silently.

use crate::damage::DAMAGES;
use crate::tally::{Call, Tally, CALLS, NUMBERS};

/// Each refusal number must have come at least so often.
const LEAST_REFUSALS: u64 = 50;
/// Each damage that can be sure must have been made at least so often.
const LEAST_DAMAGES: u64 = 200;
/// Each call must have been done at least so often.
const LEAST_ACCEPTED: u64 = 1_000;
/// The greatest capacity and the greatest number of readings.
const GREATEST_POINTS: usize = 8_192;
const GREATEST_READINGS: usize = 4_096;

/// The refusal numbers that a call can answer. Each of them must be met in that very call. 11 is in none: it is proved
/// never to come on a sound table.
fn numbers_of(call: Call) -> &'static [usize] {
    match call {
        Call::Fresh => &[1, 2],
        Call::Enter => &[1, 2, 3, 4, 5, 6, 7, 8, 20],
        Call::Merge => &[1, 2, 3, 7, 8, 9, 20],
        Call::Withdraw => &[1, 2, 3, 19],
        Call::List | Call::Filter => &[1, 2, 3],
        Call::Load => &[1, 2, 4, 5, 6, 7, 8, 12, 13, 14, 15, 20],
        // 7 cannot come: 2,049 readings are longer than a log of the program may be.
        Call::Report => &[1, 4, 5, 6, 8, 12, 13, 14, 15, 16, 20],
        Call::Query => &[4, 5, 10],
    }
}

/// What was not met often enough, or was met and must not be; empty where the coverage is good.
pub fn lacking(total: &Tally) -> Vec<String> {
    let mut lacks = Vec::new();
    for (call, name) in CALLS {
        let accepted = total.times(call, 0);
        if accepted < LEAST_ACCEPTED {
            lacks.push(format!("{name} was done {accepted} times, fewer than {LEAST_ACCEPTED}"));
        }
        for number in 1..NUMBERS {
            lacks.extend(lack_of(total, call, name, number));
        }
    }
    for damage in DAMAGES.iter().filter(|damage| damage.can_be_sure) {
        let (name, times) = (damage.name, total.times_damaged(damage.name));
        if times < LEAST_DAMAGES {
            lacks.push(format!(
                "the damage '{name}' was made {times} times, fewer than {LEAST_DAMAGES}"
            ));
        }
    }
    if total.greatest_points != GREATEST_POINTS {
        lacks.push(format!(
            "the greatest m is {}, not {GREATEST_POINTS}",
            total.greatest_points
        ));
    }
    if total.greatest_readings != GREATEST_READINGS {
        lacks.push(format!(
            "the greatest n is {}, not {GREATEST_READINGS}",
            total.greatest_readings
        ));
    }
    lacks
}

/// What is wrong with the count of one number of one call.
fn lack_of(total: &Tally, call: Call, name: &str, number: usize) -> Option<String> {
    let times = total.times(call, number);
    if !numbers_of(call).contains(&number) {
        return (times > 0).then(|| format!("{name} answered {number}, {times} times; it must never do so"));
    }
    (times < LEAST_REFUSALS).then(|| format!("{name} refused with {number} {times} times, fewer than {LEAST_REFUSALS}"))
}

/// One line that says what was asked for and met.
pub fn told(total: &Tally) -> String {
    let least = (1..NUMBERS)
        .filter(|number| CALLS.iter().any(|(call, _)| numbers_of(*call).contains(number)))
        .map(|number| total.times_in_all(number))
        .min();
    format!(
        "each number that a call can answer at least {} times, up to n {} and m {}",
        least.unwrap_or(0),
        total.greatest_readings,
        total.greatest_points
    )
}
