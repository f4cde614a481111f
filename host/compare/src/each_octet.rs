//! Every octet of one well-formed table, changed by itself, and every octet in every flag of one row and of a key: all
//! four calls, with arguments that are about the row in which the change stands.

use std::mem::size_of;

use pruvelaccio::{KeyOctets, Row, Table, TableOctets, TABLE};
use reference::{Address, Board, Key, Requests, Response, Stamp};

use crate::cells::{Cells, Places};
use crate::convert;
use crate::laid;
use crate::pool::{self, Pool};
use crate::records::{bare_block, bare_header};
use crate::run::Run;
use crate::table_octets::{compare_calls, Answers, Arguments, Lending};
use crate::taken;
use crate::tally::Tally;

/// So many rows are used: one place is left for a posting.
const ROWS: usize = 31;
const ROW: usize = size_of::<Row>();

fn lending(plain: reference::Header, count: u64) -> Lending {
    let mut header = Box::new(pruvelaccio::Header::ZERO);
    convert::header(&plain, &mut header, 0);
    Lending { plain, header, block: 1, count }
}

/// A message from a station that has posted nothing.
fn posting(board: &Board) -> Lending {
    let mut record = bare_header();
    record.originator = Some(Address { urn: Some(7_654_321), name: None });
    record.recipients = Some(vec![Address { urn: Some(1), name: None }]);
    record.blocks = vec![bare_block()];
    record.blocks[0].stamp = Some(board.rows[0].key.stamp.clone());
    record.blocks[0].requests = Some(Requests { machine: true, acknowledge: false, reply: true });
    lending(record, 1)
}

/// Code 2 from the first recipient of a row.
fn answering(key: &Key, answerer: &Address) -> Lending {
    let mut record = bare_header();
    record.originator = Some(answerer.clone());
    record.recipients = Some(vec![key.address.clone()]);
    let stamp: Stamp = key.stamp.clone();
    let (cantco, cantpro, amplification) = (None, None, None);
    let response = Response { stamp, code: 2, cantco, cantpro, amplification };
    record.blocks[0].response = Some(response);
    lending(record, 0)
}

/// What is asked about a row.
fn arguments(board: &Board, row: usize) -> Arguments {
    let held = &board.rows[row];
    let mut key = KeyOctets::zero();
    laid::key(&held.key, &mut key, 0);
    Arguments {
        post: posting(board),
        receipt: answering(&held.key, &held.recipients[0].address),
        key: (held.key.clone(), key),
        row: row as u32 + 1,
    }
}

/// A table whose rows all have something open at their first recipient; unused places hold rubbish.
fn base(run: &mut Run) -> (Board, TableOctets) {
    let pool = Pool::new(&mut run.random);
    let mut board = pool::table(&pool, ROWS, &mut run.random);
    for row in &mut board.rows {
        let first = &mut row.recipients[0];
        (first.machine, first.acknowledge, first.reply) = (0, 0, 0);
    }
    let mut table = run.rubbish.table(&board, &mut run.random);
    // flags as the library stores them: the changes come from here
    laid::table(&board, &mut table, 0);
    (board, table)
}

/// How many changes were tried, and after how many of them all four calls were done.
pub struct Changes {
    pub tried: usize,
    pub done: usize,
}

fn note(changes: &mut Changes, answers: &Answers) {
    let Answers { post, receipt, release, list_row } = answers;
    let changed = [post, receipt, release].iter().all(|told| told.is_ok());
    changes.tried += 1;
    changes.done += usize::from(changed && list_row.is_ok());
}

/// Every octet of the table, with its lowest bit turned and with all its bits turned.
pub fn compare_octets(seed: u64) -> Result<Changes, String> {
    let mut run = Run::new(seed, Tally::new());
    let (board, mut table) = base(&mut run);
    let asked: Vec<Arguments> = (0..ROWS).map(|row| arguments(&board, row)).collect();
    let mut changes = Changes { tried: 0, done: 0 };
    for at in 0..TABLE {
        let about = &asked[(at / ROW).min(ROWS - 1)];
        for turned in [1, 255] {
            table.octets_mut()[at] ^= turned;
            let told = |text| format!("octet {at} changed by {turned}: {text}");
            note(&mut changes, &compare_calls(&mut run, &table, about).map_err(told)?);
            table.octets_mut()[at] ^= turned;
        }
    }
    Ok(changes)
}

/// Every octet in every flag of a row that is used, and in every flag of a key.
pub fn compare_flags(seed: u64) -> Result<Changes, String> {
    let mut run = Run::new(seed, Tally::new());
    let (board, mut table) = base(&mut run);
    let row = board.rows.iter().position(|row| row.recipients.len() == 16).unwrap_or(0);
    let mut about = arguments(&board, row);
    let mut changes = Changes { tried: 0, done: 0 };
    row_flags(&mut run, &mut table, row, &about, &mut changes)?;
    key_flags(&mut run, &table, &mut about, &mut changes)?;
    Ok(changes)
}

fn row_flags(
    run: &mut Run,
    table: &mut TableOctets,
    row: usize,
    about: &Arguments,
    changes: &mut Changes,
) -> Result<(), String> {
    let flags = Places::of::<Table>().flags;
    for at in flags.into_iter().filter(|at| at / ROW == row) {
        let before = table.octets()[at];
        for octet in 0..=255 {
            table.octets_mut()[at] = octet;
            let told = |text| format!("the flag at octet {at} is {octet}: {text}");
            note(changes, &compare_calls(run, table, about).map_err(told)?);
        }
        table.octets_mut()[at] = before;
    }
    Ok(())
}

fn key_flags(
    run: &mut Run,
    table: &TableOctets,
    about: &mut Arguments,
    changes: &mut Changes,
) -> Result<(), String> {
    let key = about.key.1;
    for at in Places::of::<pruvelaccio::Key>().flags {
        for octet in 0..=255 {
            about.key.1.octets_mut()[at] = octet;
            about.key.0 = taken::key(&about.key.1);
            let told = |text| format!("the flag at octet {at} of the key is {octet}: {text}");
            note(changes, &compare_calls(run, table, about).map_err(told)?);
        }
        about.key.1 = key;
    }
    Ok(())
}
