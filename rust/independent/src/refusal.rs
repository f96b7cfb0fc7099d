//! Document 01's refusal numbers and those that ticket 8 of document 02 adds, each under a name. A step that may be
//! refused hands back `Result<_, u8>` with one of them, so that `?` keeps the order in which the documents test.

/// A call that is done, or a query that is answered.
pub const DONE: u8 = 0;
/// d, S, C or B out of range.
pub const SETTINGS: u8 = 1;
/// A lent slice of another length than the settings give, or a list that is not whole items.
pub const LENGTH: u8 = 2;
/// The table is not sound.
pub const UNSOUND: u8 = 3;
/// A coordinate beyond ±1,000,000.
pub const COORDINATE: u8 = 4;
/// The coordinates do not sum to 0.
pub const OFF_HYPERPLANE: u8 = 5;
/// A value beyond ±1,000,000.
pub const VALUE: u8 = 6;
/// More than B readings would be held.
pub const READINGS: u8 = 7;
/// More than C points would be stored.
pub const POINTS: u8 = 8;
/// Merge: d or S differ.
pub const DIFFERENT_SETTINGS: u8 = 9;
/// No stored point has weight above 0 for the query.
pub const NO_WEIGHT: u8 = 10;
/// A stored point has weight above 0, but the blurred mass sum is 0.
pub const NO_MASS: u8 = 11;
/// Log: kind byte not listed.
pub const KIND: u8 = 12;
/// Log: settings not first, or met again.
pub const SETTINGS_PLACE: u8 = 13;
/// Log: item of another dimension than the settings.
pub const DIMENSION: u8 = 14;
/// Log: body cut short.
pub const CUT_SHORT: u8 = 15;
/// Program: log over 16,384 bytes, or C over 512.
pub const PROGRAM: u8 = 16;
/// Withdraw: number not held.
pub const NOT_HELD: u8 = 19;
/// Enter, merge and loading: number held already.
pub const HELD: u8 = 20;
