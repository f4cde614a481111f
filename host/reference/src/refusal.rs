//! What a call gives back instead of doing its work.

/// A refusal: its number, and what it points at. Faults of single bits and
/// fields point at a bit while reading. Faults between fields point at a block
/// where one is to blame (Ticket 2 of document 02). All others point at nothing.
#[derive(Clone, Copy, PartialEq, Eq, Debug)]
pub struct Refusal {
    pub number: u32,
    /// A bit of the datagram, or 0 if the refusal points at none.
    pub place: usize,
    /// A block counted from 1, or 0 if the refusal points at none.
    pub block: u32,
}

impl Refusal {
    /// A refusal that is all told by its number.
    pub fn new(number: u32) -> Refusal {
        Refusal { number, place: 0, block: 0 }
    }

    /// A refusal at a bit of the datagram.
    pub fn at(number: u32, place: usize) -> Refusal {
        Refusal { number, place, block: 0 }
    }

    /// A refusal for a block's sake, counted from 1.
    pub fn in_block(number: u32, block: u32) -> Refusal {
        Refusal { number, place: 0, block }
    }
}
