//! An independent version of document 01 with ticket 8 of document 02, written from the documents alone.
//!
//! Its worth is that it goes another way than a fast implementation would. Weights come from the definition of the
//! spread, without sorting a residual. The points stand in a sorted map, and answers are sums over all of them.
//! Soundness is tested clause by clause, and the sums are held to the book by pouring its readings anew. Where this
//! crate and `vimrothi` agree byte for byte, two readings of the documents agree.

#![forbid(unsafe_code)]
#![warn(missing_docs)]

mod answers;
mod blur;
mod book;
mod book_soundness;
mod calls;
mod contents;
mod loading;
mod log;
mod memory;
mod points;
mod position;
mod refusal;
mod report;
mod rounding;
mod search;
mod settings;
mod soundness;
mod store;
mod table;
mod weights;
mod withdraw;

pub use answers::{filter, list};
pub use calls::{enter, fresh, merge};
pub use loading::load;
pub use report::report;
pub use store::Store;
pub use table::{Answer, Entered, Head, Loaded};
pub use weights::{weighted_points, Weighted};
pub use withdraw::withdraw;
