//! The names of the refusal numbers of documents 01 and 02, those of `c/vimrothi.h` without its prefix. A call answers
//! with one of them, or with [`DONE`].
//!
//! ```
//! use vimrothi::{numbers, Table};
//!
//! let stopped = Table::load(b"\x01\x01\x02\x08\x00\x11\x03\x00", 100).unwrap_err();
//! let advice = match stopped.number() {
//!     numbers::BODY_CUT => "the battery went flat: what is before the offset can be kept",
//!     numbers::TOO_MANY_READINGS => "load it again with a greater B",
//!     numbers::TOO_MANY_POINTS => "load it again with a greater C",
//!     _ => "look at the byte that is told",
//! };
//! assert!(advice.starts_with("the battery"));
//! ```

/// The call was done: no refusal.
pub const DONE: u8 = 0;

/// d, S, C or B out of range.
pub const SETTINGS_OUT_OF_RANGE: u8 = 1;

/// A lent slice has another length than the settings give, or a list isn't whole items.
pub const OTHER_LENGTH: u8 = 2;

/// The table is not sound.
pub const NOT_SOUND: u8 = 3;

/// A coordinate is beyond ±1,000,000.
pub const COORDINATE_BEYOND: u8 = 4;

/// The coordinates don't sum to 0.
pub const SUM_NOT_ZERO: u8 = 5;

/// A value is beyond ±1,000,000.
pub const VALUE_BEYOND: u8 = 6;

/// More than B readings would be held.
pub const TOO_MANY_READINGS: u8 = 7;

/// More than C points would be stored.
pub const TOO_MANY_POINTS: u8 = 8;

/// Merge: d or S differ.
pub const SETTINGS_DIFFER: u8 = 9;

/// No stored point has weight above 0 for the query.
pub const NO_POINT_MET: u8 = 10;

/// One has, but the blurred mass sum is 0: never met.
pub const NO_MASS_MET: u8 = 11;

/// Log: kind byte not listed.
pub const KIND_NOT_LISTED: u8 = 12;

/// Log: settings not first, or met again.
pub const SETTINGS_MISPLACED: u8 = 13;

/// Log: item of another dimension than the settings.
pub const OTHER_DIMENSION: u8 = 14;

/// Log: body cut short.
pub const BODY_CUT: u8 = 15;

/// Program: log over 16,384 bytes, or C over 512.
pub const PROGRAM_LIMIT: u8 = 16;

/// Raw number or multiplier out of range. No call tells it yet, so it has no [`words`].
pub const RAW_OUT_OF_RANGE: u8 = 17;

/// Withdraw: number not held.
pub const NUMBER_NOT_HELD: u8 = 19;

/// Number held already.
pub const NUMBER_HELD: u8 = 20;

/// The documents' words for a refusal number. Every number has words: 0 is told as done, and a number that no call has
/// as none of the numbers.
///
/// It also explains the codes of [`calls`](crate::calls) and the numbers that `dyemap` prints.
///
/// ```
/// use vimrothi::{numbers, words};
///
/// assert_eq!(words(numbers::BODY_CUT), "log: body cut short");
/// assert_eq!(words(numbers::DONE), "done");
/// assert_eq!(words(255), "not a refusal number");
/// ```
pub fn words(number: u8) -> &'static str {
    match number {
        DONE => "done",
        SETTINGS_OUT_OF_RANGE => "d, S, C or B out of range",
        OTHER_LENGTH => "a lent slice has another length than the settings give, or a list isn't whole items",
        NOT_SOUND => "the table is not sound",
        COORDINATE_BEYOND => "a coordinate is beyond ±1,000,000",
        SUM_NOT_ZERO => "the coordinates don't sum to 0",
        VALUE_BEYOND => "a value is beyond ±1,000,000",
        TOO_MANY_READINGS => "more than B readings would be held",
        TOO_MANY_POINTS => "more than C points would be stored",
        SETTINGS_DIFFER => "merge: d or S differ",
        NO_POINT_MET => "no stored point has weight above 0 for the query",
        NO_MASS_MET => "one has, but the blurred mass sum is 0",
        KIND_NOT_LISTED => "log: kind byte not listed",
        SETTINGS_MISPLACED => "log: settings not first, or met again",
        OTHER_DIMENSION => "log: item of another dimension than the settings",
        BODY_CUT => "log: body cut short",
        PROGRAM_LIMIT => "program: log over 16,384 bytes, or C over 512",
        NUMBER_NOT_HELD => "number not held",
        NUMBER_HELD => "number held already",
        _ => "not a refusal number",
    }
}
