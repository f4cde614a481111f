//! Bits by octet fragments, as the product takes and puts them: one octet at a time, from each octet that a field
//! touches the part that belongs to it, low bits first.

use super::limits::MARKER;
use super::way::{Output, Way};

#[derive(Clone, Copy)]
pub struct Fragments;

impl Way for Fragments {
    /// A field in one octet or two goes without a loop.
    #[inline]
    fn take(self, octets: &[u8], place: usize, width: usize) -> u32 {
        let (first, skip) = (place / 8, place % 8);
        let mask = (1 << width) - 1;
        let one = u32::from(octets[first]) >> skip;
        if skip + width <= 8 {
            return one & mask;
        }
        let two = one | u32::from(octets[first + 1]) << (8 - skip);
        if skip + width <= 16 {
            return two & mask;
        }
        let (mut value, mut done) = (two, 16 - skip);
        for &octet in &octets[first + 2..(place + width).div_ceil(8)] {
            value |= u32::from(octet) << done;
            done += 8;
        }
        value & mask
    }

    #[inline]
    fn together(self, octets: &[u8], place: usize) -> impl Fn(usize, usize) -> u32 {
        move |distance, width| self.take(octets, place + distance, width)
    }

    fn take_text(self, octets: &[u8], place: usize, cells: &mut [u8]) -> usize {
        for (count, cell) in cells.iter_mut().enumerate() {
            let next = character(octets, place + 7 * count);
            if next == MARKER {
                return count;
            }
            *cell = next;
        }
        cells.len()
    }

    /// The octet begun is not read back: its bits are at hand.
    #[inline]
    fn put(self, out: &mut Output, value: u64, width: usize) {
        let (first, skip) = (out.place / 8, out.place % 8);
        out.place += width;
        let one = out.begun | (value << skip) as u8;
        if skip + width < 8 {
            out.begun = one;
            return;
        }
        out.octets[first] = one;
        let mut rest = value >> (8 - skip);
        if skip + width >= 16 {
            for octet in &mut out.octets[first + 1..out.place / 8] {
                *octet = rest as u8;
                rest >>= 8;
            }
        }
        out.begun = rest as u8;
    }

    /// Place and octet begun stay in registers for the whole text.
    fn put_text(self, out: &mut Output, characters: &[u8], marker: bool) {
        let (mut place, mut begun) = (out.place, u32::from(out.begun));
        for &character in characters {
            let skip = place % 8;
            begun |= u32::from(character) << skip;
            // Only at an octet's beginning do seven bits leave it open.
            if skip > 0 {
                out.octets[place / 8] = begun as u8;
                begun >>= 8;
            }
            place += 7;
        }
        out.place = place;
        out.begun = begun as u8;
        if marker {
            self.put(out, u64::from(MARKER), 7);
        }
    }
}

/// The seven bits of a character, in one octet or two.
#[inline]
fn character(octets: &[u8], place: usize) -> u8 {
    let (first, skip) = (place / 8, place % 8);
    let one = octets[first] >> skip;
    let two = if skip > 1 { octets[first + 1] << (8 - skip) } else { 0 };
    (one | two) & 127
}
