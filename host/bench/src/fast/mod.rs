//! Document 01's algorithms as one would write them for speed in safe Rust: the record and the table by reference and
//! changed where they stand, fields by octet fragments as the product takes them, rows found by halving. Every index is
//! checked, and the answers are those of the proved calls. Reading and writing are there by 64-bit words as well.

#![forbid(unsafe_code)]

mod bits_in;
mod bits_out;
pub mod by_value;
pub mod by_words;
mod calendar;
mod check;
mod fragments;
mod limits;
mod listing;
mod order;
mod read;
mod refusals;
mod rules;
mod table;
mod way;
mod well;
mod words;
mod write;
mod zero;

pub use check::check;
pub use listing::list_row;
pub use read::read;
pub use table::{post, receipt, release};
pub use write::write;
pub use zero::NO_HEADER;

use pruvelaccio::{Header, Refusal};

/// Reading and writing, by fragments or by words.
pub type Read = fn(&[u8], &mut Header) -> Result<usize, Refusal>;
pub type Write = fn(&Header, usize, &mut [u8]) -> Result<usize, Refusal>;
