//! Benchmarks of the verified calls against a plain Rust version of the same algorithm and against a hash map. All
//! three take turns in one run on the same input. The output is a table of cases, then tables of how time grows.

use bench::cases;
use bench::growth;
use bench::input::{Numbering, FINENESS, SEED};
use bench::measure::{measure, ratio, shown, Case, Measured, Times};
use std::fs;
use std::process::Command;

fn main() {
    print_machine();
    print_method();
    println!("| case | verified | plain | plain / verified | hashed | hashed / verified |");
    println!("|---|---:|---:|---:|---:|---:|");
    for case in all_cases() {
        println!("{}", row(&measure(case())));
    }
    println!("\n(*) The hashed version makes no soundness test there, which the other two make of the whole table.");
    growth::print_all();
}

fn print_machine() {
    let facts = fs::read_to_string("/proc/cpuinfo").unwrap_or_default();
    let model = facts
        .lines()
        .find(|line| line.starts_with("model name"))
        .and_then(|line| line.split(": ").nth(1));
    println!("- Machine: {}", model.unwrap_or("unknown"));
    let version = Command::new("rustc")
        .arg("--version")
        .output()
        .ok()
        .and_then(|out| String::from_utf8(out.stdout).ok());
    println!(
        "- Compiler of plain and hashed: {}",
        version.as_deref().map_or("unknown", str::trim)
    );
    println!(
        "- Seed {SEED}, fineness S = {FINENESS}, capacity C = 8192, in full tables C = points, for the logs of 16 KB"
    );
    println!("  C = 512; room B = 4096. Readings have numbers anywhere in 32 bits, but where a log has none.");
}

fn print_method() {
    println!("- plain: the same algorithm in safe Rust. hashed: a HashMap with the default hasher from [i32; 6], all");
    println!("  coordinates of a point and then 0, to its mass and value sum, and one from a reading's number to the");
    println!("  reading, without their order; its simplex by sorting the residual.");
    println!("- Times are in µs: the median of the rounds, and in brackets the least. A warm-up comes first, and the");
    println!(
        "  versions take turns round by round. A ratio above 1 means that the verified call is faster; it is that of"
    );
    println!("  the medians, and in brackets that of the least rounds.");
    println!(
        "- Outside the clock: tables are put back from a prepared copy, maps cleared or cloned in place, sheets and"
    );
    println!(
        "  lists overwritten; so every buffer has been touched. Inside the clock: fresh and load clear the table;"
    );
    println!(
        "  filter clears both sheets and copies the sums; list numbers its list and a spare one on the stack; report"
    );
    println!("  clears its own table and sheets on the stack; each test of a table clears a sheet and an index of the");
    println!(
        "  numbers on the stack, 164 KB together. The hashed version allocates inside the clock: its list, a copy of"
    );
    println!("  the map and one list for each pass in filter, and the maps in load and report.\n");
}

/// Every case, made when its turn comes.
fn all_cases() -> Vec<Box<dyn Fn() -> Case>> {
    let mut all: Vec<Box<dyn Fn() -> Case>> = Vec::new();
    for d in [1, 3, 5] {
        all.push(Box::new(move || cases::enter_at_once(d, 4096)));
    }
    for d in [1, 3, 5] {
        all.push(Box::new(move || cases::enter_one_at_a_time(d, 4096)));
    }
    for d in [1, 3, 5] {
        all.push(Box::new(move || cases::soundness(d, 4096)));
    }
    for d in [1, 3, 5] {
        all.push(Box::new(move || cases::enter_nothing(d, 8192)));
    }
    for d in [1, 3, 5] {
        all.push(Box::new(move || cases::withdraw(d, 4096)));
    }
    all.push(Box::new(|| cases::withdraw_from_full(3, 8192)));
    all.push(Box::new(|| cases::merge_to_full(3)));
    all.push(Box::new(|| cases::merge_full(5)));
    all.push(Box::new(|| cases::list(3, 8192)));
    for d in [1, 3, 5] {
        all.push(Box::new(move || cases::filter(d, 8192, 1)));
        all.push(Box::new(move || cases::filter(d, 8192, 4096)));
    }
    all.push(Box::new(|| cases::load(Numbering::None)));
    all.push(Box::new(|| cases::load(Numbering::All)));
    all.push(Box::new(cases::report));
    all.push(Box::new(|| cases::fresh(3, 8192)));
    all
}

fn row(measured: &Measured) -> String {
    let verified = measured.verified;
    let plain = columns(Some(measured.plain), verified, "");
    let hashed = columns(measured.hashed, verified, if measured.untested { " *" } else { "" });
    format!("| {} | {} | {plain} | {hashed} |", measured.name, shown(verified))
}

/// A version's times, and what they are to the verified ones.
fn columns(times: Option<Times>, verified: Times, mark: &str) -> String {
    let Some(times) = times else {
        return "- | -".to_string();
    };
    let of_medians = ratio(times.median, verified.median);
    let of_leasts = ratio(times.least, verified.least);
    format!("{} | {of_medians:.3} ({of_leasts:.3}){mark}", shown(times))
}
