//! Addresses and keys in order. What is compared here was checked before: it is legal.

use pruvelaccio::{Address, Key, Row, Stamp, Text};
use std::cmp::Ordering;

pub fn characters(t: &Text) -> &[u8] {
    &t.chars[..(t.len as usize).min(t.chars.len())]
}

/// All URNs come before all names; URNs go by their number, names as lists of characters do.
pub fn by_address(a: &Address, b: &Address) -> Ordering {
    match (a.urn.present, b.urn.present) {
        (true, true) => a.urn.value.cmp(&b.urn.value),
        (true, false) => Ordering::Less,
        (false, true) => Ordering::Greater,
        (false, false) => characters(&a.name.text).cmp(characters(&b.name.text)),
    }
}

/// A legal DTG and its extension as one number, in their order: 8 bits for each field of the DTG, none before
/// extension 0.
pub fn moment(s: &Stamp) -> u64 {
    let (date, time) = (&s.dtg.date, &s.dtg.time);
    let fields = [date.year, date.month, date.day, time.hour, time.minute, time.second];
    let dtg = fields.iter().fold(0, |sum, &field| sum << 8 | u64::from(field));
    let extension = if s.extension.present { u64::from(s.extension.value) + 1 } else { 0 };
    dtg << 13 | extension
}

pub fn by_key(a: &Key, b: &Key) -> Ordering {
    by_address(&a.address, &b.address).then_with(|| moment(&a.stamp).cmp(&moment(&b.stamp)))
}

/// The place of a key among rows in order; or the place where it would stand.
pub fn find_row(rows: &[Row], address: &Address, stamp: &Stamp) -> Result<usize, usize> {
    let sought = moment(stamp);
    rows.binary_search_by(|row| {
        by_address(&row.key.address, address).then_with(|| moment(&row.key.stamp).cmp(&sought))
    })
}
