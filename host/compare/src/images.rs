//! The octets of a table after a call, worked out from the octets before it and from what the second program made of
//! the rows: a posting moves rows up whole and stores a new one, 0 wherever it uses nothing; a receipt changes codes; a
//! release moves rows down whole and leaves 0 where the last one stood; a refusal changes nothing.

use std::cmp::Ordering;
use std::mem::{offset_of, size_of};

use pruvelaccio::TableOctets;
use reference::Board;

use crate::laid;

const ROW: usize = size_of::<pruvelaccio::Row>();
const RECIPIENTS: usize = offset_of!(pruvelaccio::Row, recipients);
const RECIPIENT: usize = size_of::<pruvelaccio::Recipient>();

/// `before` and `after` are the second program's rows; they tell what was done.
pub fn after(octets: &TableOctets, before: &Board, after: &Board) -> TableOctets {
    let mut table = *octets;
    match after.rows.len().cmp(&before.rows.len()) {
        Ordering::Greater => posted(&mut table, before, after),
        Ordering::Equal => settled(&mut table, before, after),
        Ordering::Less => released(&mut table, before, after),
    }
    table
}

/// The place of the row that one of the two has and the other not.
fn place(one: &Board, two: &Board) -> usize {
    one.rows.iter().zip(&two.rows).take_while(|(a, b)| a.key == b.key).count()
}

fn posted(table: &mut TableOctets, before: &Board, after: &Board) {
    let (at, rows) = (place(before, after), before.rows.len());
    let s = table.octets_mut();
    s.copy_within(at * ROW..rows * ROW, (at + 1) * ROW);
    let new = &mut s[at * ROW..(at + 1) * ROW];
    new.fill(0);
    laid::row(&after.rows[at], new);
    laid::rows(rows + 1, table);
}

fn settled(table: &mut TableOctets, before: &Board, after: &Board) {
    let rows = before.rows.iter().zip(&after.rows).zip(table.octets_mut().chunks_exact_mut(ROW));
    for ((old, new), s) in rows {
        let places = s[RECIPIENTS..].chunks_exact_mut(RECIPIENT);
        let codes = old.recipients.iter().zip(&new.recipients).zip(places);
        for ((_, new), s) in codes.filter(|((old, new), _)| old != new) {
            laid::codes(new, s);
        }
    }
}

fn released(table: &mut TableOctets, before: &Board, after: &Board) {
    let (at, rows) = (place(before, after), before.rows.len());
    let s = table.octets_mut();
    s.copy_within((at + 1) * ROW..rows * ROW, at * ROW);
    s[(rows - 1) * ROW..rows * ROW].fill(0);
    laid::rows(rows - 1, table);
}
