//! Tests of the calls as a user of the crate meets them: what they answer, and what they leave in lent memory.

mod book_soundness;
mod errors_that_look_right;
mod lent_memory;
mod log_numbers;
mod log_refusals;
mod order;
mod refusals;
mod table;
mod withdraw;
mod withdrawn_readings;
mod worked_log;
