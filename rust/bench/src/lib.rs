//! Two other versions of the calls, for the benchmarks: `plain` is the same algorithm in ordinary safe Rust, `hashed`
//! is what one would write with a `HashMap` instead. `input` draws readings, queries and logs from a seed, `memory` has
//! tables for both kinds of calls over lent slices, and `measure`, `cases` and `growth` time the three versions side by
//! side.

pub mod cases;
pub mod growth;
pub mod hashed;
pub mod input;
pub mod measure;
pub mod memory;
pub mod plain;
