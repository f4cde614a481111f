//! Single bits in and out.

use crate::legal::MARKER;
use crate::refusal::Refusal;

/// Bit k: octet k / 8, and within it the bit of weight 2^(k mod 8).
pub fn bit_at(octets: &[u8], k: usize) -> bool {
    let octet = octets[k / 8];
    let shifted = octet >> (k % 8);
    shifted % 2 == 1
}

/// Reads fields off a datagram from the left; `place` is the next unread bit.
pub struct BitReader<'a> {
    pub octets: &'a [u8],
    pub place: usize,
}

impl<'a> BitReader<'a> {
    pub fn new(octets: &'a [u8]) -> BitReader<'a> {
        BitReader { octets, place: 0 }
    }

    /// How many bits there are in all.
    pub fn end(&self) -> usize {
        self.octets.len() * 8
    }

    /// A number of so many bits, lowest bit first. If not all of them are
    /// there, the field is refused as a whole, at its first bit.
    pub fn number(&mut self, width: usize) -> Result<u32, Refusal> {
        let start = self.place;
        if start + width > self.end() {
            return Err(Refusal::at(1, start));
        }
        let mut value: u32 = 0;
        let mut weight: u32 = 1;
        for i in 0..width {
            if bit_at(self.octets, start + i) {
                value += weight;
            }
            weight *= 2;
        }
        self.place = start + width;
        Ok(value)
    }

    /// A presence bit or a recurrence bit.
    pub fn flag(&mut self) -> Result<bool, Refusal> {
        let value = self.number(1)?;
        Ok(value == 1)
    }

    /// A number that must also be legal; otherwise it is refused at its own
    /// first bit with the given number.
    pub fn code(
        &mut self,
        width: usize,
        legal: impl Fn(u32) -> bool,
        number: u32,
    ) -> Result<u32, Refusal> {
        let start = self.place;
        let value = self.number(width)?;
        if !legal(value) {
            return Err(Refusal::at(number, start));
        }
        Ok(value)
    }

    /// A text of at most `maximum` characters. The marker is looked for only
    /// while there is room for another character: a full text has none.
    /// A character that is cut off is refused at its own first bit, which
    /// `number` does already.
    pub fn text(&mut self, maximum: usize) -> Result<Vec<u8>, Refusal> {
        let start = self.place;
        let mut text: Vec<u8> = Vec::new();
        while text.len() < maximum {
            let character = self.number(7)? as u8;
            if character == MARKER {
                break;
            }
            text.push(character);
        }
        if text.is_empty() {
            return Err(Refusal::at(4, start));
        }
        Ok(text)
    }

    /// `[number]`
    pub fn optional_number(&mut self, width: usize) -> Result<Option<u32>, Refusal> {
        if self.flag()? {
            Ok(Some(self.number(width)?))
        } else {
            Ok(None)
        }
    }

    /// `[text]`
    pub fn optional_text(&mut self, maximum: usize) -> Result<Option<Vec<u8>>, Refusal> {
        if self.flag()? {
            Ok(Some(self.text(maximum)?))
        } else {
            Ok(None)
        }
    }
}

/// Collects bits in the order they will stand in the datagram.
pub struct BitWriter {
    pub bits: Vec<bool>,
}

impl BitWriter {
    pub fn new() -> BitWriter {
        BitWriter { bits: Vec::new() }
    }

    pub fn flag(&mut self, value: bool) {
        self.bits.push(value);
    }

    /// A number of so many bits, lowest bit first.
    pub fn number(&mut self, value: u32, width: usize) {
        let mut rest = value;
        for _ in 0..width {
            self.bits.push(rest % 2 == 1);
            rest /= 2;
        }
    }

    /// A text, closed by the marker unless it is as long as it may be.
    pub fn text(&mut self, text: &[u8], maximum: usize) {
        for character in text {
            self.number(u32::from(*character), 7);
        }
        if text.len() < maximum {
            self.number(u32::from(MARKER), 7);
        }
    }

    /// `[number]`
    pub fn optional_number(&mut self, value: Option<u32>, width: usize) {
        self.flag(value.is_some());
        if let Some(value) = value {
            self.number(value, width);
        }
    }

    /// `[text]`
    pub fn optional_text(&mut self, text: &Option<Vec<u8>>, maximum: usize) {
        self.flag(text.is_some());
        if let Some(text) = text {
            self.text(text, maximum);
        }
    }

    /// Adds zero bits until the last octet is full, then packs.
    pub fn octets(mut self) -> Vec<u8> {
        while self.bits.len() % 8 != 0 {
            self.bits.push(false);
        }
        let mut octets: Vec<u8> = Vec::new();
        let mut k = 0;
        while k < self.bits.len() {
            let mut octet: u8 = 0;
            for i in 0..8 {
                if self.bits[k + i] {
                    octet += 1 << i;
                }
            }
            octets.push(octet);
            k += 8;
        }
        octets
    }
}

impl Default for BitWriter {
    fn default() -> Self {
        BitWriter::new()
    }
}
