//! The listing, row by row, into outputs of every kind.

use reference::Board;

use crate::calendar;
use crate::headers::{same_octets, same_size};
use crate::library;
use crate::run::{caught, Run};
use crate::tables::Pair;
use crate::tally::Kind;

const GUARD: usize = 24;

/// Every row, the number behind the last, and one far behind; each with exact room, with an octet less and with more.
pub fn compare_rows(run: &mut Run, pair: &Pair) -> Result<(), String> {
    let rows = pair.plain.rows.len() as u32;
    let far = *run.random.pick(&[33, 256, 1 << 16, 1 << 31, u32::MAX]);
    for number in (0..=rows + 1).chain([far.max(rows + 2)]) {
        let length = reference::listing(&pair.plain, number).map_or(0, |text| text.len());
        compare_row(run, pair, number, length)?;
        if length > 0 {
            compare_row(run, pair, number, length - 1)?;
        }
        let more = length + 1 + run.random.index(30);
        compare_row(run, pair, number, more)?;
    }
    Ok(())
}

pub fn compare_row(run: &mut Run, pair: &Pair, number: u32, room: usize) -> Result<(), String> {
    run.tally.rows += 1;
    let told = |text| describe(text, &pair.plain, number, room);
    caught(|| list(run, pair, number, room)).map_err(told)
}

fn describe(text: String, plain: &Board, number: u32, room: usize) -> String {
    format!("{text}\ninput: row {number}, room {room}\ntable: {plain:?}")
}

fn list(run: &mut Run, pair: &Pair, number: u32, room: usize) -> Result<(), String> {
    let mut own = run.random.octets(GUARD + room + GUARD);
    let mut other = own.clone();
    let lent = GUARD..GUARD + room;
    let plain = reference::list_row(&pair.plain, number, &mut other[lent.clone()]);
    let got = library::list_row(&pair.table, number, &mut own[lent])?;
    if run.random.one_in(32) {
        library::same_struct_row(&pair.table, number, room)?;
    }
    run.tally.note(Kind::ListRow, &plain)?;
    run.tally.note_days(Kind::ListRow, calendar::of_table(&pair.plain, &plain));
    same_size("list_row", plain, got)?;
    same_octets("list_row", &other, &own)
}
