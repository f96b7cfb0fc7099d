//! What `dyemap` prints for a log: one line for a refusal, or the head, the points in listing order and the answers
//! over all readings.

use crate::loading::applied;
use crate::log::{parse, Content, Parsed, Refusal};
use crate::refusal;
use crate::store::Store;
use crate::table::Head;

/// The program takes logs up to this length.
const MOST_BYTES: usize = 16_384;
/// The program takes capacities up to this.
const MOST_CAPACITY: usize = 512;
/// B of the program.
const BOOK_ROOM: usize = 2_048;

/// The whole output of the program for a log.
pub fn report(log: &[u8]) -> Vec<u8> {
    let text = match answered(log) {
        Ok(text) => text,
        Err(Refusal { number, offset }) => format!("REFUSED {number} {offset}\n"),
    };
    text.into_bytes()
}

fn answered(log: &[u8]) -> Result<String, Refusal> {
    let parsed = parsed_for_program(log)?;
    let fresh = Head::fresh(parsed.settings, BOOK_ROOM);
    let (contents, refusal) = applied(&parsed, &fresh);
    match refusal {
        Some(refusal) => Err(refusal),
        None => Ok(lines(&parsed, &contents.head(&fresh), &contents.store)),
    }
}

/// The length is tested before any byte is judged, and the capacity right after the settings.
fn parsed_for_program(log: &[u8]) -> Result<Parsed, Refusal> {
    let refused_at = |offset| Refusal {
        number: refusal::PROGRAM,
        offset,
    };
    if log.len() > MOST_BYTES {
        return Err(refused_at(MOST_BYTES));
    }
    let parsed = parse(log)?;
    if parsed.settings.capacity > MOST_CAPACITY {
        return Err(refused_at(0));
    }
    Ok(parsed)
}

/// Nothing of the book is printed.
fn lines(parsed: &Parsed, head: &Head, store: &Store) -> String {
    let mut text = format!("HEAD {} {} {} {}\n", head.d, head.fineness, head.readings, head.points);
    for (coordinates, mass, value_sum) in store.listing() {
        text += &format!("POINT {} {mass} {value_sum}\n", spaced(&coordinates));
    }
    for (value, code) in store.answers(&queries(parsed)) {
        text += &format!("ANSWER {value} {code}\n");
    }
    text
}

fn spaced(coordinates: &[i32]) -> String {
    let words: Vec<String> = coordinates.iter().map(i32::to_string).collect();
    words.join(" ")
}

/// The coordinates of all queries, in their order.
fn queries(parsed: &Parsed) -> Vec<i32> {
    let position = |content: &Content| match content {
        Content::Query { position } => position.clone(),
        Content::Reading { .. } => Vec::new(),
    };
    parsed.items.iter().flat_map(|item| position(&item.content)).collect()
}
