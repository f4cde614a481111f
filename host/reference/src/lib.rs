//! A second gateway library, written from the defining paper alone so that its
//! answers can be laid beside those of the first one. It is slow and plain on
//! purpose: one bit at a time, growing lists, no shared state.
//!
//! A refusal is its number from the paper, with the bit place or the block that
//! it points at, if any.

#![forbid(unsafe_code)]

mod bits;
mod board;
mod legal;
mod listing;
mod program;
mod reader;
mod refusal;
mod rules;
mod types;
mod writer;

#[cfg(test)]
mod tests;

pub use bits::{bit_at, BitReader, BitWriter};
pub use board::{
    address_order, key_order, post, receipt, release, well_formed, Board, Key, Recipient, Row,
};
pub use legal::*;
pub use listing::{list_row, listing};
pub use program::program;
pub use reader::{read, user_data};
pub use refusal::Refusal;
pub use types::{
    Address, Block, Dtg, Header, Identity, Reference, Requests, Response, Stamp,
};
pub use writer::{check, write};
