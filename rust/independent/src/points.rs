//! The points of a table as a sorted map, which the store fills and the blur reads.

use std::collections::BTreeMap;

/// Points by their kept coordinates. The map's order is the listing order.
pub(crate) type Points = BTreeMap<Vec<i32>, Point>;

/// A stored point's number and pair.
#[derive(Clone, Copy, Debug, PartialEq, Eq)]
pub(crate) struct Point {
    /// How many points were stored before it.
    pub number: usize,
    pub mass: i64,
    pub value_sum: i64,
}
