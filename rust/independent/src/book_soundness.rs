//! What ticket 8 adds to soundness, clause by clause. The sums are held to the book by pouring its readings into an
//! empty store and comparing the two listings. A listing has no stored order, so that order is free, and it names a
//! point that is missing as well as one that is too many.

use crate::book::{Book, Entry};
use crate::store::Store;
use crate::table::{Head, Lent};

/// n is at most B, the book's readings keep the limits, none has another's number, and the sums are theirs. All of
/// document 01's clauses hold.
pub fn book_is_sound(head: &Head, lent: &Lent) -> bool {
    // A book of too little room has not all n entries.
    if head.readings > head.room {
        return false;
    }
    let book = Book::of_table(head, lent.book);
    readings_keep_limits(&book) && book.numbers_differ() && sums_are_the_books(head, lent, &book)
}

fn readings_keep_limits(book: &Book) -> bool {
    book.entries()
        .iter()
        .map(Entry::limits_judged)
        .all(|judged| judged.is_ok())
}

/// Exactly the points that one of the readings touches are stored, each with the sum over the readings.
fn sums_are_the_books(head: &Head, lent: &Lent, book: &Book) -> bool {
    let stored = Store::of_table(head, lent);
    stored.listing() == book.poured(head.d, head.fineness).listing()
}
