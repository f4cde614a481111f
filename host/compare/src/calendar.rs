//! Which days a month has; and whether a call was refused for a day that only its month forbids, or done with a
//! 29 February.

use reference::{Block, Board, Dtg, Key, Refusal};

use crate::records::Case;

pub fn days_in(year: u32, month: u32) -> u32 {
    match month {
        2 if year % 4 == 0 => 29,
        2 => 28,
        4 | 6 | 9 | 11 => 30,
        _ => 31,
    }
}

/// What an answer says about days that hang on their month.
#[derive(Clone, Copy)]
pub enum Days {
    /// Refused with 3 for a day that other months have.
    Late,
    /// Refused with 30 for such a day in a row.
    LateRow,
    /// Done with a 29 February.
    Leap,
}

/// A day that other months have, in a month that there is.
fn late(dtg: &Dtg) -> bool {
    let first = days_in(dtg.year, dtg.month) + 1;
    dtg.year <= 99 && (1..=12).contains(&dtg.month) && (first..=31).contains(&dtg.day)
}

fn leap(dtg: &Dtg) -> bool {
    (dtg.month, dtg.day) == (2, 29)
}

/// Makes such a day the last of its month.
fn mend(dtg: &mut Dtg) {
    if late(dtg) {
        dtg.day = days_in(dtg.year, dtg.month);
    }
}

fn dtgs(block: &mut Block) -> impl Iterator<Item = &mut Dtg> {
    let origin = block.stamp.iter_mut().map(|stamp| &mut stamp.dtg);
    let answered = block.response.iter_mut().map(|response| &mut response.stamp.dtg);
    let referred = block.references.iter_mut().flatten().map(|entry| &mut entry.stamp.dtg);
    origin.chain(&mut block.perishable).chain(answered).chain(referred)
}

/// 0 for done.
fn number<T>(told: &Result<T, Refusal>) -> u32 {
    told.as_ref().err().map_or(0, |refusal| refusal.number)
}

/// A call that was lent a record. It was refused for a day if it is not refused with 3 once the days are mended.
pub fn of_record<T>(case: &Case, told: &Result<T, Refusal>) -> Option<Days> {
    let mut record = case.record.clone();
    let mut dtgs = record.blocks.iter_mut().flat_map(dtgs);
    match number(told) {
        0 => dtgs.any(|dtg| leap(dtg)).then_some(Days::Leap),
        3 => {
            dtgs.for_each(mend);
            (number(&reference::check(&record, case.count)) != 3).then_some(Days::Late)
        }
        _ => None,
    }
}

/// A release from a table; what it was refused for is found in the same way.
pub fn of_key<T>(table: &Board, key: &Key, told: &Result<T, Refusal>) -> Option<Days> {
    let mut key = key.clone();
    match number(told) {
        0 => leap(&key.stamp.dtg).then_some(Days::Leap),
        3 => {
            mend(&mut key.stamp.dtg);
            (number(&reference::release(&mut table.clone(), &key)) != 3).then_some(Days::Late)
        }
        _ => None,
    }
}

/// A call on a table that was refused for a row's day: with the days mended the table is well formed.
pub fn of_table<T>(table: &Board, told: &Result<T, Refusal>) -> Option<Days> {
    if number(told) != 30 {
        return None;
    }
    let mut table = table.clone();
    table.rows.iter_mut().for_each(|row| mend(&mut row.key.stamp.dtg));
    reference::well_formed(&table).then_some(Days::LateRow)
}
