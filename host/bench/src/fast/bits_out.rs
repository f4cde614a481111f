//! Fields into octets.

use super::way::{Output, Way};
use pruvelaccio::{Dtg, OptionalNumber, OptionalText, Stamp, Text};

/// The values are legal: that is decided before.
pub struct BitsOut<'a, W> {
    way: W,
    out: Output<'a>,
}

impl<'a, W: Way> BitsOut<'a, W> {
    pub fn new(way: W, octets: &'a mut [u8]) -> BitsOut<'a, W> {
        BitsOut { way, out: Output { octets, place: 0, begun: 0 } }
    }

    #[inline]
    pub fn number(&mut self, value: u32, width: usize) {
        self.way.put(&mut self.out, u64::from(value), width);
    }

    #[inline]
    pub fn flag(&mut self, value: bool) {
        self.number(u32::from(value), 1);
    }

    /// The presence bit and the value go together; an absent value is not looked at.
    #[inline]
    pub fn optional(&mut self, x: &OptionalNumber, width: usize) {
        if x.present {
            self.number(1 | x.value << 1, width + 1);
        } else {
            self.flag(false);
        }
    }

    pub fn dtg(&mut self, d: &Dtg) {
        let (date, time) = (&d.date, &d.time);
        let low = date.year | date.month << 7 | date.day << 11;
        let high = time.hour | time.minute << 5 | time.second << 11;
        self.way.put(&mut self.out, u64::from(low) | u64::from(high) << 16, 33);
    }

    pub fn stamp(&mut self, s: &Stamp) {
        self.dtg(&s.dtg);
        self.optional(&s.extension, 12);
    }

    pub fn optional_text(&mut self, x: &OptionalText, most: usize) {
        self.flag(x.present);
        if x.present {
            self.text(&x.text, most);
        }
    }

    /// A text with its marker, or a full one without.
    pub fn text(&mut self, t: &Text, most: usize) {
        let count = t.len as usize;
        self.way.put_text(&mut self.out, &t.chars[..count], count < most);
    }

    /// Stores the last octet begun, its other bits 0.
    pub fn finish(self) {
        let Output { octets, place, begun } = self.out;
        if place % 8 > 0 {
            octets[place / 8] = begun;
        }
    }
}
