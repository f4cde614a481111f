//! Refusals, by what they point at.

use pruvelaccio::Refusal;

/// A refusal that points at nothing.
pub fn only(number: u32) -> Refusal {
    Refusal { number, place: 0, block: 0 }
}

/// A refusal at a bit of the datagram.
pub fn at(number: u32, place: usize) -> Refusal {
    Refusal { number, place, block: 0 }
}

/// A refusal for a block, counted from 0 here and from 1 in what is told.
pub fn in_block(number: u32, index: usize) -> Refusal {
    Refusal { number, place: 0, block: index as u32 + 1 }
}
