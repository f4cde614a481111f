//! Limits and legal codes. Reader, writer and board all ask here, so that the
//! three cannot drift apart on what a value may be.

/// Longest texts, in characters.
pub const MAX_UNIT_NAME: usize = 64;
pub const MAX_FILE_NAME: usize = 64;
pub const MAX_MARKING: usize = 32;
pub const MAX_AMPLIFICATION: usize = 50;

/// Longest lists. Recipients and information addressees share theirs.
pub const MAX_ADDRESSEES: usize = 16;
pub const MAX_BLOCKS: usize = 16;
pub const MAX_REFERENCES: usize = 4;

/// Most rows on a board.
pub const MAX_ROWS: usize = 32;

/// Most octets of header and data together: what one UDP datagram can carry.
pub const MAX_DATAGRAM: usize = 65_507;

/// Most hexadecimal digits on one line of the program's input.
pub const MAX_DIGITS: usize = 16_384;

/// The character that closes a text shorter than its maximum. It can therefore
/// never be one of the text's own characters.
pub const MARKER: u8 = 127;

pub fn legal_version(value: u32) -> bool {
    value == 1 || value == 2
}

/// Whether blocks of this version have room for a standard version, and with
/// it the presence bit in front. Version 1 has neither. This is all that the
/// two layouts differ in, so it is asked here and nowhere else.
pub(crate) fn has_standard_version(version: u32) -> bool {
    version == 2
}

pub fn legal_compression(value: u32) -> bool {
    value == 0 || value == 1
}

pub fn legal_umf(value: u32) -> bool {
    value <= 8
}

pub fn legal_response_code(value: u32) -> bool {
    value >= 1 && value <= 6
}

pub fn legal_year(value: u32) -> bool {
    value <= 99
}

pub fn legal_month(value: u32) -> bool {
    value >= 1 && value <= 12
}

/// How long the months are, January first, without and with a leap day.
const COMMON_YEAR: [u32; 12] = [31, 28, 31, 30, 31, 30, 31, 31, 30, 31, 30, 31];
const LEAP_YEAR: [u32; 12] = [31, 29, 31, 30, 31, 30, 31, 31, 30, 31, 30, 31];

/// The century is not sent, and is not needed: a hundred is itself a multiple
/// of four, and the only year of even hundreds that can be meant is 2000, which
/// had its leap day.
fn leap_year(year: u32) -> bool {
    year % 4 == 0
}

/// The last day of a month. A month that is none has no days, so its last is 0.
fn last_day(year: u32, month: u32) -> u32 {
    if !legal_month(month) {
        return 0;
    }
    let lengths = if leap_year(year) { LEAP_YEAR } else { COMMON_YEAR };
    lengths[month as usize - 1]
}

/// A day is never judged by itself: how far it may go is up to its month, and
/// in February to the year as well.
pub fn legal_day(year: u32, month: u32, day: u32) -> bool {
    day >= 1 && day <= last_day(year, month)
}

pub fn legal_hour(value: u32) -> bool {
    value <= 23
}

pub fn legal_minute(value: u32) -> bool {
    value <= 59
}

pub fn legal_second(value: u32) -> bool {
    value <= 59
}

/// Whether a number can be told in so many bits. The widths here are at most
/// 24, so the power fits easily.
pub fn fits(value: u32, width: usize) -> bool {
    let mut limit: u32 = 1;
    for _ in 0..width {
        limit *= 2;
    }
    value < limit
}
