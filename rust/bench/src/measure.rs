//! How a case is measured: a warm-up, then rounds in which the versions take turns, so that drift of the machine hits
//! all alike. Each version puts its memory back before it starts its clock. The median and the least round are kept.

use std::hint::black_box;
use std::time::{Duration, Instant};

/// One round of one version: memory put back, then the call, of which only the time is handed back.
pub type Round = Box<dyn FnMut() -> Duration>;

/// A case: a name, and a round of each version. The last is absent where no hash map does that work.
pub struct Case {
    pub name: String,
    pub verified: Round,
    pub plain: Round,
    pub hashed: Option<Round>,
    /// Whether the hashed version leaves out a test that the others make of a table with points in it.
    pub untested: bool,
}

/// The median and the least of a version's rounds.
#[derive(Clone, Copy)]
pub struct Times {
    pub median: Duration,
    pub least: Duration,
}

/// What a case came to.
pub struct Measured {
    pub name: String,
    pub verified: Times,
    pub plain: Times,
    pub hashed: Option<Times>,
    pub untested: bool,
}

const WARM_UP: Duration = Duration::from_millis(100);
const SPAN: Duration = Duration::from_millis(900);
const LEAST_ROUNDS: usize = 5;
const MOST_ROUNDS: usize = 2000;

/// The time that some work takes. What it answers is kept from being optimised away, and tested after the clock.
pub fn timed<R>(work: impl FnOnce() -> R, good: impl FnOnce(R) -> bool) -> Duration {
    let start = Instant::now();
    let result = black_box(work());
    let time = start.elapsed();
    assert!(good(result), "a measured call does its work");
    time
}

/// Measures a case: rounds of all versions in turn for the span, at least five and at most two thousand.
pub fn measure(case: Case) -> Measured {
    let mut versions = vec![case.verified, case.plain];
    versions.extend(case.hashed);
    let mut times = vec![Vec::new(); versions.len()];
    let start = Instant::now();
    while start.elapsed() < WARM_UP {
        for round in &mut versions {
            round();
        }
    }
    let start = Instant::now();
    while times[0].len() < LEAST_ROUNDS || (start.elapsed() < SPAN && times[0].len() < MOST_ROUNDS) {
        for (round, times) in versions.iter_mut().zip(&mut times) {
            times.push(round());
        }
    }
    let mut summaries = times.into_iter().map(summary);
    Measured {
        name: case.name,
        verified: summaries.next().expect("two versions at least"),
        plain: summaries.next().expect("two versions at least"),
        hashed: summaries.next(),
        untested: case.untested,
    }
}

fn summary(mut times: Vec<Duration>) -> Times {
    times.sort_unstable();
    Times {
        median: times[times.len() / 2],
        least: times[0],
    }
}

/// How many times longer one version took than another.
pub fn ratio(longer: Duration, shorter: Duration) -> f64 {
    longer.as_secs_f64() / shorter.as_secs_f64()
}

/// The median in microseconds, and the least in brackets.
pub fn shown(times: Times) -> String {
    let micros = |time: Duration| time.as_secs_f64() * 1e6;
    format!("{:.1} ({:.1})", micros(times.median), micros(times.least))
}
