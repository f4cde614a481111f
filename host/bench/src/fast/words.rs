//! Bits by words of 64: a field out of one word, a text eight characters in a step.

use super::limits::MARKER;
use super::way::{Output, Way};

#[derive(Clone, Copy)]
pub struct Words;

impl Way for Words {
    #[inline]
    fn take(self, octets: &[u8], place: usize, width: usize) -> u32 {
        self.together(octets, place)(0, width)
    }

    #[inline]
    fn together(self, octets: &[u8], place: usize) -> impl Fn(usize, usize) -> u32 {
        let word = word(octets, place);
        move |distance, width| (word >> distance) as u32 & ((1 << width) - 1)
    }

    /// Eight characters in a step as long as no marker is among them, then the last ones.
    fn take_text(self, octets: &[u8], place: usize, cells: &mut [u8]) -> usize {
        let mut count = 0;
        while count + 8 <= cells.len() {
            let characters = spread(word(octets, place + 7 * count));
            if marker_in(characters) < 8 {
                break;
            }
            cells[count..count + 8].copy_from_slice(&characters.to_le_bytes());
            count += 8;
        }
        let rest = &mut cells[count..];
        if rest.is_empty() {
            return count;
        }
        let characters = spread(word(octets, place + 7 * count));
        let used = marker_in(characters).min(rest.len());
        rest[..used].copy_from_slice(&characters.to_le_bytes()[..used]);
        count + used
    }

    /// At most 56 bits. The word is stored whole where it fits: what lies behind its bits is 0 and is written again by
    /// the next fields.
    #[inline]
    fn put(self, out: &mut Output, value: u64, width: usize) {
        let (first, skip) = (out.place / 8, out.place % 8);
        let word = u64::from(out.begun) | value << skip;
        let whole = (skip + width) / 8;
        let octets = word.to_le_bytes();
        match out.octets.get_mut(first..first + 8) {
            Some(room) => room.copy_from_slice(&octets),
            None => out.octets[first..first + whole].copy_from_slice(&octets[..whole]),
        }
        out.place += width;
        out.begun = (word >> (8 * whole)) as u8;
    }

    /// Eight characters in a step; the rest goes with the marker.
    fn put_text(self, out: &mut Output, characters: &[u8], marker: bool) {
        let mut groups = characters.chunks_exact(8);
        for group in &mut groups {
            self.put(out, pack(group.try_into().expect("eight characters")), 56);
        }
        let rest = groups.remainder();
        let mut last = [0; 8];
        last[..rest.len()].copy_from_slice(rest);
        let mut places = rest.len();
        if marker {
            last[places] = MARKER;
            places += 1;
        }
        self.put(out, pack(last), 7 * places);
    }
}

/// The bits from a place on: 57 of them or more, or all there are.
#[inline]
fn word(octets: &[u8], place: usize) -> u64 {
    let first = (place / 8).min(octets.len().saturating_sub(8));
    match octets[first..].first_chunk() {
        Some(eight) => u64::from_le_bytes(*eight) >> (place - 8 * first),
        None => short_word(octets) >> place,
    }
}

/// All of fewer than eight octets.
#[cold]
fn short_word(octets: &[u8]) -> u64 {
    octets.iter().rev().fold(0, |word, &octet| word << 8 | u64::from(octet))
}

/// Eight characters of seven bits, each into an octet of its own: halves, then quarters, then single ones.
fn spread(word: u64) -> u64 {
    let x = (word & 0x0fff_ffff) | ((word & 0x00ff_ffff_f000_0000) << 4);
    let x = (x & 0x0000_3fff_0000_3fff) | ((x & 0x0fff_c000_0fff_c000) << 2);
    (x & 0x007f_007f_007f_007f) | ((x & 0x3f80_3f80_3f80_3f80) << 1)
}

/// Where the first marker stands among eight characters; 8 where there is none.
fn marker_in(characters: u64) -> usize {
    const EVERY: u64 = 0x0101_0101_0101_0101;
    let others = characters ^ (EVERY * MARKER as u64);
    // An octet that is not 0 carries into its own top bit.
    let not_zero = (others + EVERY * 0x7f) & (EVERY * 0x80);
    (not_zero ^ (EVERY * 0x80)).trailing_zeros() as usize / 8
}

/// Eight octets below 128 into 56 bits: pairs, then quarters, then halves.
fn pack(octets: [u8; 8]) -> u64 {
    let x = u64::from_le_bytes(octets);
    let x = (x & 0x007f_007f_007f_007f) | ((x & 0x7f00_7f00_7f00_7f00) >> 1);
    let x = (x & 0x0000_3fff_0000_3fff) | ((x & 0x3fff_0000_3fff_0000) >> 2);
    (x & 0x0fff_ffff) | ((x & 0x0fff_ffff_0000_0000) >> 4)
}
