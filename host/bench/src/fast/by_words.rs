//! The same reading and writing with bits by words: the second measure.

use super::words::Words;
use pruvelaccio::{Header, Refusal};

#[inline(never)]
pub fn read(datagram: &[u8], into: &mut Header) -> Result<usize, Refusal> {
    super::read::read_by(Words, datagram, into)
}

#[inline(never)]
pub fn write(h: &Header, count: usize, out: &mut [u8]) -> Result<usize, Refusal> {
    super::write::write_by(Words, h, count, out)
}
