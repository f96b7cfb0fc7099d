//! The calls that only read a table: list and filter. They are lent the book too, since a table is sound only with it.

use crate::refusal;
use crate::soundness::sound_judged;
use crate::store::Store;
use crate::table::{length_judged, Head, Lent};

/// Fills the list with the point numbers in the order of their keys: 1, 2, 3.
pub fn list(head: Head, keys: &[i32], sums: &[i64], index: &[u16], book: &[i32], list: &mut [u16]) -> u8 {
    let lent = Lent {
        keys,
        sums,
        index,
        book,
    };
    match listed(&head, &lent, list) {
        Ok(()) => refusal::DONE,
        Err(number) => number,
    }
}

fn listed(head: &Head, lent: &Lent, list: &mut [u16]) -> Result<(), u8> {
    head.judged()?;
    lent.lengths_judged(head)?;
    length_judged(list.len() == head.capacity)?;
    sound_judged(head, lent)?;
    list.fill(0);
    for (place, number) in list.iter_mut().zip(Store::of_table(head, lent).numbers()) {
        *place = number as u16;
    }
    Ok(())
}

/// Answers queries of d + 1 coordinates: 1, 2, 3; then a value and a code for each, 0, 4, 5, 10 or 11.
#[allow(clippy::too_many_arguments)]
pub fn filter(
    head: Head,
    keys: &[i32],
    sums: &[i64],
    index: &[u16],
    book: &[i32],
    first: &mut [i64],
    second: &mut [i64],
    queries: &[i32],
    values: &mut [i32],
    codes: &mut [u8],
) -> u8 {
    let lent = Lent {
        keys,
        sums,
        index,
        book,
    };
    let lengths = [first.len(), second.len(), queries.len(), values.len(), codes.len()];
    if let Err(number) = filter_judged(&head, &lent, lengths) {
        return number;
    }
    let blurred = Store::of_table(&head, &lent).blurred();
    first.fill(0);
    second.fill(0);
    for point in blurred.points() {
        first[2 * point.number] = point.mass;
        first[2 * point.number + 1] = point.value_sum;
    }
    for (i, query) in queries.chunks_exact(head.d + 1).enumerate() {
        (values[i], codes[i]) = blurred.answer(query);
    }
    refusal::DONE
}

/// The lengths are those of the two sheets, the queries, the values and the codes.
fn filter_judged(head: &Head, lent: &Lent, lengths: [usize; 5]) -> Result<(), u8> {
    let [first, second, queries, values, codes] = lengths;
    head.judged()?;
    lent.lengths_judged(head)?;
    length_judged(first == 2 * head.capacity && second == 2 * head.capacity)?;
    length_judged(queries.is_multiple_of(head.d + 1))?;
    let number_of_queries = queries / (head.d + 1);
    length_judged(values == number_of_queries && codes == number_of_queries)?;
    sound_judged(head, lent)
}
