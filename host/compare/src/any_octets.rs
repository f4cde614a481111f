//! Whole records of octets: any octets at all, those of valid records with some of them replaced, and those of records
//! that break a rule. Of octets without any aim nearly all are refused for their version, so most are made with flags
//! and numbers that could be true.

use std::mem::{offset_of, size_of};

use pruvelaccio::{Block, Header, RecordOctets, RECORD};
use reference::Board;

use crate::cells::Places;
use crate::laid;
use crate::pool::{self, Pool};
use crate::random::Random;
use crate::records::{self, Case};
use crate::rubbish::{any_octets, loosen, set};
use crate::run::Run;
use crate::tables;

/// A record with the octets of user data and the number of the block that go to a call with it.
pub struct Lending {
    pub record: RecordOctets,
    pub count: u64,
    pub block: u32,
}

const VERSION: usize = offset_of!(Header, front.version);
const BLOCKS: usize = offset_of!(Header, blocks.list);
const COUNT: usize = offset_of!(Header, blocks.count);

fn put(record: &mut RecordOctets, at: usize, number: u32) {
    record.octets_mut()[at..at + 4].copy_from_slice(&number.to_le_bytes());
}

// ---------------------------------------------------------------------------
// Any octets

pub fn any(run: &mut Run) -> Lending {
    let random = &mut run.random;
    let mut record = any_octets(random);
    match random.below(4) {
        0 => {}
        1 => put(&mut record, VERSION, records::version(random)),
        _ => aim(&mut record, &run.places, random),
    }
    let (count, block) = (*random.pick(&[0, 1, 2, 7, 40]), 1 + random.below(3));
    let count = if random.one_in(16) { other_count(count, random) } else { count };
    Lending { record, count, block }
}

/// Small numbers, characters that are mostly legal, and flags of which few or many are set.
fn aim(record: &mut RecordOctets, places: &Places, random: &mut Random) {
    let octets = record.octets_mut();
    places.characters.iter().for_each(|at| octets[*at] &= 0x7F);
    let set_of = *random.pick(&[2, 8, 16, 64, 128]);
    for at in &places.flags {
        octets[*at] = if random.one_in(set_of) { set(random) } else { 0 };
    }
    let limit = *random.pick(&[2, 4, 8, 13]);
    for at in &places.numbers {
        let number = small(limit, random);
        put(record, *at, number);
    }
    if !random.one_in(16) {
        put(record, VERSION, records::version(random));
    }
    if !random.one_in(8) {
        put(record, COUNT, 1 + random.below(2));
    }
}

/// Mostly below a limit; at times anything.
pub fn small(limit: u32, random: &mut Random) -> u32 {
    match random.below(64) {
        0 => random.next() as u32,
        1 => random.below(256),
        2 => u32::MAX - random.below(2),
        _ => random.below(limit),
    }
}

// ---------------------------------------------------------------------------
// Valid records with octets replaced, and records that break a rule

/// One to eight octets of a valid record, and now and then the count of data, are replaced. The record suits the table:
/// it can be a message to be posted there, or an answer to one of its rows.
pub fn replaced(run: &mut Run, pool: &Pool, table: &Board) -> Lending {
    let random = &mut run.random;
    let case = match random.below(8) {
        0 | 1 => records::case(random),
        2..=4 => pool::message(pool, random),
        _ => tables::receipt(pool, table, random),
    };
    let octets = 1 + random.below(8);
    lend(run, &case, octets)
}

/// The octets of a record that breaks a rule or has a wrong size, at most one of them replaced: with more it would
/// seldom be the rule that is told.
pub fn broken(run: &mut Run) -> Lending {
    let case = run.broken_case();
    let octets = run.random.below(2);
    lend(run, &case, octets)
}

/// A record's octets over zeros or rubbish, so many of them replaced.
fn lend(run: &mut Run, case: &Case, replaced: u32) -> Lending {
    let random = &mut run.random;
    let blocks = case.record.blocks.len();
    let mut record = RecordOctets::zero();
    if !random.one_in(4) {
        record = *run.rubbish.octets(random);
    }
    laid::over(&case.record, &mut record);
    if random.coin() {
        loosen(record.octets_mut(), &run.places, random);
    }
    for _ in 0..replaced {
        let at = place(blocks, &run.places, random);
        let octet = &mut record.octets_mut()[at];
        *octet = instead(*octet, random);
    }
    let count = if random.one_in(16) { other_count(case.count, random) } else { case.count };
    Lending { record, count, block: tables::block_number(blocks, random) }
}

/// Mostly in the fields before the blocks or in a block that is used, and often in a flag or a number there.
fn place(blocks: usize, places: &Places, random: &mut Random) -> usize {
    let used = BLOCKS + blocks * size_of::<Block>();
    let within = |list: &[usize]| list.partition_point(|at| *at < used);
    match random.below(16) {
        0 | 1 => random.index(RECORD),
        2 => COUNT + random.index(4),
        3..=6 => places.flags[random.index(within(&places.flags))],
        7..=10 => places.numbers[random.index(within(&places.numbers))],
        11 => places.numbers[random.index(within(&places.numbers))] + random.index(4),
        _ => random.index(used),
    }
}

/// Another octet, or by chance the same.
pub fn instead(octet: u8, random: &mut Random) -> u8 {
    match random.below(4) {
        0 => random.next() as u8,
        1 => random.below(20) as u8,
        2 => octet ^ (1 << random.below(8)),
        _ => *random.pick(&[0, 0, 1, 1, 2, 29, 30, 31, 127, 128, 255]),
    }
}

/// Too little data or too much, up to counts that overflow in a sum.
fn other_count(count: u64, random: &mut Random) -> u64 {
    match random.below(6) {
        0 => 0,
        1 => count.wrapping_add(1),
        2 => count.saturating_sub(1),
        3 => u64::MAX - u64::from(random.below(3)),
        4 => count.wrapping_add(1 << 32),
        _ => 65_400 + u64::from(random.below(200)),
    }
}
