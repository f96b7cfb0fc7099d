//! The tablets come home in the evening: loads the logs that are named on the command line and merges them into one
//! table, in that order, which does not matter. A log that was cut (15) is told, with the byte of the cut, and what is
//! before it is kept. Any other refusal ends the program with status 1, and nothing is merged.
//!
//! The readings of the logs want numbers of their own (kinds 71 to 75). Unnumbered ones (11 to 15) get 0, 1 and so on
//! in each log, so that a second such log is refused with 20, and the program says why.

use std::process::ExitCode;

use vimrothi::{numbers, Refusal, Table};

/// The most points that a table can have room for.
const CAPACITY: usize = 8_192;

/// The most readings that a table can have room for.
const ROOM: usize = 4_096;

fn main() -> ExitCode {
    let paths: Vec<String> = std::env::args().skip(1).collect();
    match merged(&paths) {
        Ok(whole) => {
            print(&whole);
            ExitCode::SUCCESS
        }
        Err(why) => {
            eprintln!("{why}");
            ExitCode::FAILURE
        }
    }
}

/// One table of all logs, of the first one's d and S. A refusal is told with the log that it is about.
fn merged(paths: &[String]) -> Result<Table, String> {
    let parts: Vec<Table> = paths.iter().map(|path| loaded(path)).collect::<Result<_, _>>()?;
    let first = parts.first().ok_or("name the logs that are to be merged")?;
    let mut whole = Table::fresh(first.d(), first.fineness(), CAPACITY, ROOM).map_err(|refusal| refusal.to_string())?;
    for (path, part) in paths.iter().zip(&parts) {
        whole.merge(part).map_err(|refusal| told(path, refusal))?;
    }
    Ok(whole)
}

/// Why a log could not be merged. A number that is held already wants more words: those who wrote the log may not know
/// that its readings have numbers.
fn told(path: &str, refusal: Refusal) -> String {
    match refusal.number() {
        numbers::NUMBER_HELD => format!(
            "{path}: {refusal}. A reading of this log has the number of one in a log before it. Unnumbered readings \
             (kinds 11 to 15) get 0, 1 and so on in each log: write logs that are to be merged with numbered ones \
             (kinds 71 to 75), and name each log once"
        ),
        _ => format!("{path}: {refusal}"),
    }
}

/// The table of a log, up to the cut where it was cut.
fn loaded(path: &str) -> Result<Table, String> {
    let log = std::fs::read(path).map_err(|error| format!("{path}: {error}"))?;
    match Table::load(&log, ROOM) {
        Ok(table) => {
            println!("{path}: readings {}", table.readings_len());
            Ok(table)
        }
        Err(stopped) => {
            let told = stopped.to_string();
            let cut = stopped.number() == numbers::BODY_CUT;
            // There is no table where the settings themselves are cut.
            let kept = stopped.into_table().filter(|_| cut);
            let kept = kept.ok_or_else(|| format!("{path}: {told}"))?;
            println!("{path}: readings {}, then {told}", kept.readings_len());
            Ok(kept)
        }
    }
}

fn print(whole: &Table) {
    println!(
        "merged: readings {}, points {}",
        whole.readings_len(),
        whole.points_len()
    );
    for reading in whole.readings() {
        let (number, value) = (reading.number, reading.value);
        println!("reading {number}: {value} at {:?}", reading.position);
    }
    for point in whole.points() {
        let (mass, value_sum) = (point.mass, point.value_sum);
        println!("point {:?}: mass {mass}, value sum {value_sum}", point.coordinates);
    }
}
