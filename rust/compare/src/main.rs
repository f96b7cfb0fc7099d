//! Compares the verified calls with the independent version, over random, edge and damaged inputs of
//! fixed seeds. Without arguments it runs every family and ends with the verdict; with a family's name, and a case's
//! number, it runs that alone.

mod book_damage;
mod case;
mod check;
mod coverage;
mod damage;
mod differences;
mod families;
mod guard;
mod keys;
mod logs;
mod numbers;
mod positions;
mod random;
mod sheets;
mod sides;
mod sound;
mod table;
mod tally;

use case::Case;
use check::Check;
use families::Family;
use random::Random;
use std::process::ExitCode;
use tally::Tally;

/// Failing cases of a family that are told in one line each, after the first, which is told whole.
const TOLD_SHORT: u64 = 10;

fn main() -> ExitCode {
    guard::install();
    let arguments: Vec<String> = std::env::args().skip(1).collect();
    let families = families::all();
    match &arguments[..] {
        [] => run_everything(&families),
        [name] => run_named(&families, name, None),
        [name, case] => run_named(&families, name, Some(case)),
        _ => refused_arguments(&families),
    }
}

/// Runs every family and then judges the coverage.
fn run_everything(families: &[Family]) -> ExitCode {
    let mut total = Tally::default();
    let mut failed = 0;
    for family in families {
        let (tally, failures) = run_family(family);
        println!("{}: seed {:#x}, {tally}", family.name, family.seed);
        total.add(&tally);
        failed += usize::from(failures > 0);
    }
    println!("all families: {total}");
    let lacks = coverage::lacking(&total);
    lacks.iter().for_each(|lack| println!("FAILED coverage: {lack}"));
    println!("coverage: {}", coverage::told(&total));
    failed += usize::from(!lacks.is_empty());
    verdict(families.len() + 1, failed)
}

/// Runs one family, or one case of it.
fn run_named(families: &[Family], name: &str, case: Option<&String>) -> ExitCode {
    let Some(family) = families.iter().find(|family| family.name == name) else {
        return refused_arguments(families);
    };
    let Some(case) = case else {
        let (tally, failures) = run_family(family);
        println!("{name}: seed {:#x}, {tally}", family.seed);
        return verdict(1, usize::from(failures > 0));
    };
    let Ok(case) = case.parse::<u64>() else {
        return refused_arguments(families);
    };
    let check = run_case(family, case);
    check
        .failures
        .iter()
        .for_each(|failure| tell_whole(family, case, failure));
    println!("{name}, case {case}: seed {:#x}, {}", family.seed, check.tally);
    verdict(1, usize::from(!check.failures.is_empty()))
}

/// Runs all cases of a family, tells those that fail, and answers the counts and how many failed.
fn run_family(family: &Family) -> (Tally, u64) {
    let mut tally = Tally::default();
    let mut failures = 0;
    for case in 0..family.cases {
        let check = run_case(family, case);
        tally.add(&check.tally);
        if let Some(first) = check.failures.first() {
            match failures {
                0 => tell_whole(family, case, first),
                1..=TOLD_SHORT => tell_short(family, case, first),
                _ => {}
            }
            failures += 1;
        }
    }
    if failures > 0 {
        println!("FAILED {}: {failures} of {} cases", family.name, family.cases);
    }
    (tally, failures)
}

/// Runs one case with its own random numbers.
fn run_case(family: &Family, number: u64) -> Check {
    let mut check = Check::default();
    check.tally.inputs = 1;
    let random = Random::of_case(family.seed, number);
    (family.run)(&mut Case { number, random }, &mut check);
    check
}

fn tell_whole(family: &Family, case: u64, failure: &str) {
    println!(
        "FAILED {}, seed {:#x}, case {case}, {failure}",
        family.name, family.seed
    );
    println!(
        "  replay: cargo run --release --offline -p compare -- {} {case}",
        family.name
    );
}

fn tell_short(family: &Family, case: u64, failure: &str) {
    let lines: Vec<&str> = failure.lines().take(3).map(str::trim).collect();
    let start: String = lines.join("; ").chars().take(300).collect();
    println!("FAILED {}, case {case}, {start}", family.name);
    println!(
        "  replay: cargo run --release --offline -p compare -- {} {case}",
        family.name
    );
}

fn refused_arguments(families: &[Family]) -> ExitCode {
    println!("arguments: none, or FAMILY, or FAMILY CASE; the families are");
    families
        .iter()
        .for_each(|family| println!("  {} (cases 0 to {})", family.name, family.cases - 1));
    println!("0 passed, 1 failed");
    ExitCode::FAILURE
}

/// Prints the last line, and answers the exit status.
fn verdict(families: usize, failed: usize) -> ExitCode {
    println!("{} passed, {failed} failed", families - failed);
    if failed == 0 {
        ExitCode::SUCCESS
    } else {
        ExitCode::FAILURE
    }
}
