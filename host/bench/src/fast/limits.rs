//! The limits of document 01 that reading, the check and writing share.

/// Longest texts, in characters.
pub const UNIT_NAME: usize = 64;
pub const FILE_NAME: usize = 64;
pub const MARKING: usize = 32;
pub const AMPLIFICATION: usize = 50;

/// Longest lists; G2 and G3 share theirs.
pub const ADDRESSEES: usize = 16;
pub const BLOCKS: usize = 16;
pub const REFERENCES: usize = 4;

pub const ROWS: usize = 32;

/// Octets of header and data together.
pub const DATAGRAM: usize = 65_507;

/// The character that ends a text shorter than its maximum.
pub const MARKER: u8 = 127;
