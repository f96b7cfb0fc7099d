//! Withdrawing one reading. The table is taken into a sorted map, the reading comes out of it there, and what is left
//! is written as if its points were entered afresh by number.

use crate::contents::Contents;
use crate::memory::Memory;
use crate::soundness::sound_judged;
use crate::table::{Answer, Head, Lent};

/// Takes the reading of this number back: 1, 2, 3, 19.
pub fn withdraw(
    head: Head,
    keys: &mut [i32],
    sums: &mut [i64],
    index: &mut [u16],
    book: &mut [i32],
    number: i32,
) -> Answer {
    let mut memory = Memory {
        keys,
        sums,
        index,
        book,
    };
    let left = without(&head, &memory.lent(), number);
    Answer::of(head, left.map(|contents| memory.write_afresh(&contents, &head)))
}

/// The table's points and book without the reading of this number.
fn without(head: &Head, lent: &Lent, number: i32) -> Result<Contents, u8> {
    head.judged()?;
    lent.lengths_judged(head)?;
    sound_judged(head, lent)?;
    let mut contents = Contents::of_table(head, lent);
    contents.withdraw(number)?;
    Ok(contents)
}
