//! Vimrothi smooths dye-test readings over the permutohedral lattice, in exact whole numbers. The work is done by a
//! static library that is proved in Rattle; this crate puts memory of its own and Rust's error types around it.
//!
//! - [`Table`] owns its memory: readings are entered and taken back, tables merged, points listed, queries answered.
//! - [`Reading`] is a reading with its number, as a table's book has it.
//! - [`Refusal`] is the one error type: the documents' number, its words, and the place that was refused. [`numbers`]
//!   has the names of the numbers, and [`words()`] the words of each.
//! - [`report()`] is what the program `dyemap` prints for a log.
//! - [`calls`] has the calls of documents 01 and 02 over lent slices, for those who keep memory of their own.
//!
//! A position is d + 1 whole numbers with sum 0. A value is in hundredths of a ppb. Every call answers for every input:
//! there is nothing to test before it.
//!
//! Each call on a table tests all of it first, which takes about a millisecond where it is full. So readings are
//! entered as lists, not one by one.
//!
//! # An evening by the river
//!
//! Two tablets come home with a log each. The second one's battery went flat in the middle of its second reading.
//! What is before the cut is kept, and the refusal says where the cut is. Then a probe turns out to be fouled, and its
//! reading is taken back.
//!
//! ```
//! use vimrothi::{Point, Reading, Refusal, Table};
//!
//! // Each log has its settings (d = 1, S = 2, C = 8) and then numbered readings of dimension 1: the number, two
//! // coordinates and a value.
//! let upstream = [
//!     &b"\x01\x01\x02\x08\x00"[..],
//!     b"\x71\x65\x00\x00\x00\x03\x00\x00\x00\xFD\xFF\xFF\xFF\x0A\x00\x00\x00", // 101: 10 at (3, -3)
//!     b"\x71\x66\x00\x00\x00\x02\x00\x00\x00\xFE\xFF\xFF\xFF\x04\x00\x00\x00", // 102: 4 at (2, -2)
//! ]
//! .concat();
//! let downstream = [
//!     &b"\x01\x01\x02\x08\x00"[..],
//!     b"\x71\xC9\x00\x00\x00\x05\x00\x00\x00\xFB\xFF\xFF\xFF\x0C\x00\x00\x00", // 201: 12 at (5, -5)
//!     b"\x71\xCA\x00\x00\x00\x04\x00\x00\x00\xFC\xFF",                         // cut
//! ]
//! .concat();
//!
//! let mut table = Table::load(&upstream, 100)?; // a book with room for 100 readings
//! let rescued = match Table::load(&downstream, 100) {
//!     Ok(whole) => whole,
//!     Err(stopped) => {
//!         assert_eq!(stopped.to_string(), "refused with 15 at byte 22: log: body cut short");
//!         stopped.into_table().expect("its settings were good")
//!     }
//! };
//! assert_eq!(rescued.readings(), [Reading::new(201, [5, -5], 12)]);
//!
//! table.merge(&rescued)?;
//! assert_eq!(table.readings_len(), 3);
//! assert_eq!(
//!     table.points(),
//!     [
//!         Point { coordinates: vec![1, -1], mass: 6, value_sum: 36 },
//!         Point { coordinates: vec![2, -2], mass: 4, value_sum: 44 },
//!         Point { coordinates: vec![3, -3], mass: 2, value_sum: 24 },
//!     ]
//! );
//!
//! let answers = table.filter(&[4, -4, 100, -100])?;
//! assert_eq!(answers[0], Ok(9));
//! assert_eq!(answers[1].unwrap_err().number(), 10); // no reading was taken near (100, -100)
//!
//! table.withdraw(201)?; // the fouled probe
//! assert_eq!(table.answer_at(&[4, -4])?, 7);
//! assert_eq!(table.points_len(), 2);
//! # Ok::<(), Refusal>(())
//! ```
//!
//! The library is compiled for x86-64 Linux. Run `.ci/library` before this crate is built.

#![deny(missing_docs)]
#![deny(unsafe_op_in_unsafe_fn)]

#[cfg(not(all(target_os = "linux", target_pointer_width = "64", target_endian = "little")))]
compile_error!("the static library is compiled for x86-64 Linux");

pub mod calls;
mod declared;
mod loading;
pub mod numbers;
mod reading;
mod refusal;
mod table;

pub use calls::Head;
pub use loading::LoadRefusal;
pub use numbers::words;
pub use reading::Reading;
pub use refusal::{Place, Refusal};
pub use table::{Point, Table};

/// What `dyemap` prints for a log: the table, its points and the answers to its queries, or one line `REFUSED` with a
/// number and an offset.
///
/// The limits of the program hold here: a log over 16,384 bytes and a capacity over 512 are refused with 16. A larger
/// log goes through [`Table::load`]. Nothing of the readings' numbers is printed.
///
/// ```
/// let log = [
///     &b"\x01\x01\x02\x08\x00"[..],
///     b"\x11\x02\x00\x00\x00\xFE\xFF\xFF\xFF\x04\x00\x00\x00", // a reading: 4 at (2, -2)
///     b"\x21\x02\x00\x00\x00\xFE\xFF\xFF\xFF",                 // a query at (2, -2)
/// ]
/// .concat();
/// assert_eq!(vimrothi::report(&log), b"HEAD 1 2 1 1\nPOINT 1 -1 4 16\nANSWER 4 0\n");
/// assert_eq!(vimrothi::report(&log[..20]), b"REFUSED 15 18\n");
/// ```
pub fn report(log: &[u8]) -> Vec<u8> {
    let mut out = vec![0; calls::REPORT_ROOM];
    let written = calls::report(log, &mut out);
    out.truncate(written);
    out
}
