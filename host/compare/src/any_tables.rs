//! Whole tables of octets: any octets at all, and those of well-formed tables with some of them replaced. Of octets
//! without any aim nearly all have too many rows, so most are made with counts, flags and numbers that could be true.
//! And keys for them.

use std::mem::{offset_of, size_of};

use pruvelaccio::{KeyOctets, Row, Table, TableOctets, KEY, TABLE};
use reference::Key;

use crate::any_octets::{instead, small};
use crate::cells::Places;
use crate::random::Random;
use crate::rubbish::{any_key, any_table, set};
use crate::run::Run;
use crate::tables::Pair;

const ROWS: usize = offset_of!(Table, rows);
const COUNT: usize = offset_of!(Table, count);
const ROW: usize = size_of::<Row>();
const RECIPIENTS: usize = offset_of!(Row, count);

fn put(table: &mut TableOctets, at: usize, number: u32) {
    table.octets_mut()[at..at + 4].copy_from_slice(&number.to_le_bytes());
}

// ---------------------------------------------------------------------------
// Any octets

pub fn any(run: &mut Run) -> TableOctets {
    let random = &mut run.random;
    let mut table = any_table(random);
    match random.below(8) {
        0 => {}
        1 => put(&mut table, COUNT, random.below(34)),
        2 | 3 => put(&mut table, COUNT, 0),
        _ => aim(&mut table, &run.table_places, random),
    }
    table
}

/// One or two rows with few recipients, small numbers, characters that are mostly legal, and flags of which few or many
/// are set. Cells behind these rows are anything.
fn aim(table: &mut TableOctets, places: &Places, random: &mut Random) {
    let rows = 1 + random.index(2);
    let used = ROWS + rows * ROW;
    let within = |list: &[usize]| list.partition_point(|at| *at < used);
    let octets = table.octets_mut();
    places.characters[..within(&places.characters)].iter().for_each(|at| octets[*at] &= 0x7F);
    let set_of = *random.pick(&[2, 2, 3, 8]);
    for at in &places.flags[..within(&places.flags)] {
        octets[*at] = if random.one_in(set_of) { set(random) } else { 0 };
    }
    let limit = *random.pick(&[2, 3, 4, 13]);
    for at in &places.numbers[..within(&places.numbers)] {
        put(table, *at, small(limit, random));
    }
    for row in 0..rows {
        put(table, ROWS + row * ROW + RECIPIENTS, 1 + random.below(2));
    }
    put(table, COUNT, rows as u32);
}

// ---------------------------------------------------------------------------
// Well-formed tables with octets replaced

/// One to eight octets of a well-formed table are replaced.
pub fn replaced(run: &mut Run, base: &Pair) -> TableOctets {
    let random = &mut run.random;
    let mut table = base.table;
    for _ in 0..1 + random.below(8) {
        let at = place(base.plain.rows.len(), &run.table_places, random);
        let octet = &mut table.octets_mut()[at];
        *octet = instead(*octet, random);
    }
    table
}

/// Mostly in a row that is used, and often in a flag or a number there.
fn place(rows: usize, places: &Places, random: &mut Random) -> usize {
    let used = ROWS + rows.max(1) * ROW;
    let within = |list: &[usize]| list.partition_point(|at| *at < used);
    match random.below(16) {
        0..=3 => random.index(TABLE),
        4 => COUNT + random.index(4),
        5..=7 => places.flags[random.index(within(&places.flags))],
        8..=10 => places.numbers[random.index(within(&places.numbers))],
        11 => places.numbers[random.index(within(&places.numbers))] + random.index(4),
        _ => random.index(used),
    }
}

// ---------------------------------------------------------------------------
// Keys

/// Mostly a given key over rubbish; at times with some octets replaced, or any octets.
pub fn key(run: &mut Run, from: &Key) -> KeyOctets {
    let random = &mut run.random;
    let mut key = run.rubbish.key(from, random);
    match random.below(8) {
        0 => key = any_key(random),
        1 | 2 => {
            for _ in 0..1 + random.below(3) {
                let octet = &mut key.octets_mut()[random.index(KEY)];
                *octet = instead(*octet, random);
            }
        }
        _ => {}
    }
    key
}
