//! How many days a month has.

/// The months of a year by their numbers, with the days that its February has. No month has any other number.
const fn months(february: u8) -> [u8; 16] {
    [0, 31, february, 31, 30, 31, 30, 31, 31, 30, 31, 30, 31, 0, 0, 0]
}

/// Four years, the first of which divides by four: 64 octets, looked up without a branch.
const DAYS: [[u8; 16]; 4] = [months(29), months(28), months(28), months(28)];

/// The days of a month, which is one of 1 to 12; of any other number what is told has no meaning.
#[inline]
pub fn days_in(year: u32, month: u32) -> u32 {
    u32::from(DAYS[year as usize % 4][month as usize % 16])
}
