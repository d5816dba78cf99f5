//! A second simulator of the DEC 338 display, written from document 01, Nos. 1, 2, 4, 5 and 6 of
//! document 02 and the manual alone.

#![forbid(unsafe_code)]

// The rules, a file to a section of document 01, and Nos. 2 and 6 of document 02. They are private
// because each counts on the tests that come before it; the calls `operate`, `run`, `list_words` and
// `read_listing` make those tests and take any input.
mod characters;
mod control_words;
mod data_words;
mod host_operations;
mod listing;
mod refusals_and_endings;
mod registers;
mod turn;
mod words;

// What stands around the rules.
pub mod coverage;
pub mod generate;
pub mod practice;
pub mod replay;

pub use host_operations::operate;
pub use listing::{list_words, read_listing, ListingRefusal};
pub use refusals_and_endings::{Answer, Ending, Loan, LoanRange};
pub use registers::{Bytes, Character, Line, Motion, Registers, Routine, Side, Stage, State};
pub use turn::run;
