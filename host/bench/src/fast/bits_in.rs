//! Fields off a datagram, with what a reading refuses of them.

use super::calendar::days_in;
use super::refusals::at;
use super::way::Way;
use pruvelaccio::{Date, Dtg, OptionalNumber, OptionalText, Refusal, Stamp, Text, Time};

/// `place` is the next unread bit and never passes the end of the octets.
pub struct BitsIn<'a, W> {
    way: W,
    octets: &'a [u8],
    place: usize,
}

/// Width and largest value of the hour, the minute and the second.
const TIME_FIELDS: [(usize, u32); 3] = [(5, 23), (6, 59), (6, 59)];

impl<'a, W: Way> BitsIn<'a, W> {
    pub fn new(way: W, octets: &'a [u8]) -> BitsIn<'a, W> {
        BitsIn { way, octets, place: 0 }
    }

    pub fn place(&self) -> usize {
        self.place
    }

    #[inline]
    fn left(&self) -> usize {
        8 * self.octets.len() - self.place
    }

    #[inline]
    pub fn number(&mut self, width: usize) -> Result<u32, Refusal> {
        if self.left() < width {
            return Err(at(1, self.place));
        }
        let value = self.way.take(self.octets, self.place, width);
        self.place += width;
        Ok(value)
    }

    #[inline]
    pub fn flag(&mut self) -> Result<bool, Refusal> {
        Ok(self.number(1)? == 1)
    }

    /// A number that has to lie within bounds.
    #[inline]
    pub fn code(
        &mut self,
        width: usize,
        least: u32,
        most: u32,
        fault: u32,
    ) -> Result<u32, Refusal> {
        let start = self.place;
        let value = self.number(width)?;
        if value < least || value > most {
            return Err(at(fault, start));
        }
        Ok(value)
    }

    #[inline]
    pub fn optional(&mut self, width: usize, into: &mut OptionalNumber) -> Result<(), Refusal> {
        if self.flag()? {
            into.present = true;
            into.value = self.number(width)?;
        }
        Ok(())
    }

    /// A bit that has to be 0.
    #[inline]
    pub fn zero(&mut self, fault: u32) -> Result<(), Refusal> {
        self.code(1, 0, 0, fault).map(|_| ())
    }

    /// A recurrence bit, where `left` more entries have room behind the one that it leads.
    #[inline]
    pub fn recurs(&mut self, left: usize) -> Result<bool, Refusal> {
        let most = u32::from(left > 0);
        Ok(self.code(1, 0, most, 5)? == 1)
    }

    /// The bits up to a whole octet, all 0.
    pub fn fill(&mut self) -> Result<(), Refusal> {
        let start = self.place;
        let used = start % 8;
        if used == 0 {
            return Ok(());
        }
        let bits = self.number(8 - used)?;
        if bits != 0 {
            return Err(at(9, start + bits.trailing_zeros() as usize));
        }
        Ok(())
    }

    /// The 33 bits of a DTG, judged once; where that does not go, field by field to find the first fault.
    pub fn dtg(&mut self, into: &mut Dtg) -> Result<(), Refusal> {
        if self.left() < 33 {
            return self.dtg_by_fields();
        }
        let part = self.way.together(self.octets, self.place);
        let date = Date { year: part(0, 7), month: part(7, 4), day: part(11, 5) };
        let time = Time { hour: part(16, 5), minute: part(21, 6), second: part(27, 6) };
        let dtg = Dtg { date, time };
        if !super::check::dtg_legal(&dtg) {
            return self.dtg_by_fields();
        }
        *into = dtg;
        self.place += 33;
        Ok(())
    }

    /// The days that there are hang on the year and the month, which have been judged before them.
    #[cold]
    fn dtg_by_fields(&mut self) -> Result<(), Refusal> {
        let year = self.code(7, 0, 99, 3)?;
        let month = self.code(4, 1, 12, 3)?;
        self.code(5, 1, days_in(year, month), 3)?;
        for (width, most) in TIME_FIELDS {
            self.code(width, 0, most, 3)?;
        }
        Ok(())
    }

    pub fn stamp(&mut self, into: &mut Stamp) -> Result<(), Refusal> {
        self.dtg(&mut into.dtg)?;
        self.optional(12, &mut into.extension)
    }

    pub fn optional_text(&mut self, most: usize, into: &mut OptionalText) -> Result<(), Refusal> {
        if self.flag()? {
            into.present = true;
            self.text(most, &mut into.text)?;
        }
        Ok(())
    }

    /// A text of at most `most` characters: up to the marker, or as many as there is room for. The cells are 0 when it
    /// begins.
    pub fn text(&mut self, most: usize, into: &mut Text) -> Result<(), Refusal> {
        let start = self.place;
        let whole = (self.left() / 7).min(most);
        let count = self.way.take_text(self.octets, start, &mut into.chars[..whole]);
        if count == whole && whole < most {
            return Err(at(1, start + 7 * whole));
        }
        if count == 0 {
            return Err(at(4, start));
        }
        into.len = count as u32;
        self.place += 7 * (count + usize::from(count < most));
        Ok(())
    }
}
