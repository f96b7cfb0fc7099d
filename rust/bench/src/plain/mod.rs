//! The calls of documents 01 and 02 in ordinary safe Rust: the algorithm of the proved crates, with their refusals in
//! their order, over the same lent slices. The calls have the signatures of `vimrothi::calls`, and its types.

mod book;
mod enter;
mod filter;
mod index;
mod lattice;
mod list;
mod log;
mod merge;
mod numbers;
mod report;
mod simplex;
mod soundness;
mod table;
mod text;
mod withdraw;

pub use enter::enter;
pub use filter::filter;
pub use list::list;
pub use log::load;
pub use merge::merge;
pub use report::report;
pub use table::fresh;
pub use withdraw::withdraw;
