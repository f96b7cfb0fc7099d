//! How time grows: small tables of one case at sizes that double, or at each dimension, with the factor from each line
//! to the next.

use crate::cases;
use crate::measure::{measure, ratio, shown, Case, Measured};

/// Prints every growth table.
pub fn print_all() {
    print_by_readings();
    print_by_points();
    print_by_dimension();
}

fn print_by_readings() {
    let readings = [512, 1024, 2048, 4096];
    print_growth("readings entered at once, d = 3", &readings, |count| {
        cases::enter_at_once(3, count)
    });
    print_growth("readings entered one at a time, d = 3", &readings, |count| {
        cases::enter_one_at_a_time(3, count)
    });
    // One less, so that the last table has room for one more.
    print_growth(
        "readings held, one more entered, d = 3",
        &[511, 1023, 2047, 4095],
        |count| cases::enter_one_more(3, count),
    );
    print_growth("readings held, tested for soundness, d = 3", &readings, |count| {
        cases::soundness(3, count)
    });
    print_growth("readings held, one withdrawn, d = 3", &readings, |count| {
        cases::withdraw(3, count)
    });
    // Half of them in each table, so that the whole has no more than 4,096.
    print_growth(
        "readings of each of two tables merged, d = 3",
        &[256, 512, 1024, 2048],
        |count| cases::merge_spread(3, count),
    );
    print_growth(
        "readings of a log loaded, unnumbered, d = 3",
        &readings,
        cases::load_readings,
    );
}

fn print_by_points() {
    let points = [1024, 2048, 4096, 8192];
    print_growth("points, one reading withdrawn, d = 3, full tables", &points, |count| {
        cases::withdraw_from_full(3, count)
    });
    print_growth("points listed, d = 3, full tables", &points, |count| {
        cases::list(3, count)
    });
    print_growth("points filtered, 1 query, d = 3, full tables", &points, |count| {
        cases::filter(3, count, 1)
    });
}

fn print_by_dimension() {
    let dimensions = [1, 2, 3, 4, 5];
    print_growth("d, 4096 readings entered at once", &dimensions, |d| {
        cases::enter_at_once(d, 4096)
    });
    print_growth("d, one of 4096 readings withdrawn", &dimensions, |d| {
        cases::withdraw(d, 4096)
    });
    print_growth("d, 8192 points listed", &dimensions, |d| cases::list(d, 8192));
    print_growth("d, 8192 points filtered, 1 query", &dimensions, |d| {
        cases::filter(d, 8192, 1)
    });
}

fn print_growth(what: &str, sizes: &[usize], case: impl Fn(usize) -> Case) {
    println!("\nGrowth with {what} (factor of the least from the line before):\n");
    println!("| size | verified | factor | plain | factor | hashed | factor |");
    println!("|---:|---:|---:|---:|---:|---:|---:|");
    let mut before: Option<Measured> = None;
    for &size in sizes {
        let measured = measure(case(size));
        println!("| {size} | {} |", columns(&measured, before.as_ref()).join(" | "));
        before = Some(measured);
    }
}

/// The times and a factor for each version; a line where there is no such version.
fn columns(measured: &Measured, before: Option<&Measured>) -> Vec<String> {
    let versions = |of: &Measured| [Some(of.verified), Some(of.plain), of.hashed];
    let earlier = before.map_or([None; 3], versions);
    let mut columns = Vec::new();
    for (times, earlier) in versions(measured).into_iter().zip(earlier) {
        columns.push(times.map_or("-".to_string(), shown));
        columns.push(match (times, earlier) {
            (Some(times), Some(earlier)) => format!("{:.2}", ratio(times.least, earlier.least)),
            _ => String::new(),
        });
    }
    columns
}
