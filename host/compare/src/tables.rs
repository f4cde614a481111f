//! Lists of postings, receipts and releases, played to both programs side by side.

use pruvelaccio::raw::Answer;
use pruvelaccio::{Header, Refusal, Table, TableOctets};
use reference::{Board, Key};

use crate::calendar;
use crate::damage::{misdate, BAD_ADDRESSES, BAD_DTGS, LATE_DAYS};
use crate::images;
use crate::laid;
use crate::library;
use crate::listing;
use crate::pool::{self, Pool};
use crate::random::Random;
use crate::records::{self, Case};
use crate::run::{caught, Run};
use crate::taken;
use crate::tally::Kind;

#[derive(Clone, Debug)]
pub enum Call {
    Post(Case, u32),
    Receipt(Case, u32),
    Release(Key),
}

/// The two tables that should be one.
pub struct Pair {
    pub table: TableOctets,
    pub plain: Board,
}

/// What the second program answers to a call on the table.
pub type Told = Result<(), reference::Refusal>;

/// With what a call was refused, if both programs say so.
pub type Refused = Result<Option<reference::Refusal>, String>;

/// The answer with its number, block and place, and every octet of the table.
pub fn same_table(
    told: Told,
    expected: &TableOctets,
    got: Answer,
    after: &TableOctets,
) -> Result<(), String> {
    let reference::Refusal { number, place, block } =
        told.err().unwrap_or(reference::Refusal::new(0));
    let due = Answer { number, block, place };
    if due != got {
        return Err(format!("the second program gives {due:?}, the library {got:?}"));
    }
    if expected == after {
        return Ok(());
    }
    let at = expected.octets().iter().zip(after.octets()).position(|(a, b)| a != b);
    let rows = (taken::table(expected), taken::table(after));
    Err(format!(
        "tables differ from octet {at:?} on\nexpected: {:?}\nlibrary: {:?}",
        rows.0, rows.1
    ))
}

/// One call to both; the pair goes on with what each made of it. Gives the refusal if there was one.
pub fn compare_call(run: &mut Run, pair: &mut Pair, call: &Call) -> Refused {
    compare_in(run, &mut pair.table, &mut pair.plain, call)
}

/// The same on a table that stands elsewhere.
pub fn compare_in(
    run: &mut Run,
    table: &mut TableOctets,
    plain: &mut Board,
    call: &Call,
) -> Refused {
    run.tally.calls += 1;
    let before = plain.clone();
    let described = |text| format!("{text}\ninput: {call:?}\ntable before: {before:?}");
    let played = caught(|| {
        let octets = *table;
        let (told, got) = play(run, table, plain, call)?;
        same_table(told, &images::after(&octets, &before, plain), got, table)?;
        if told.is_ok() {
            same_rows(plain, table)?;
        }
        Ok(told.err())
    });
    played.map_err(described)
}

/// The octets hold the rows.
fn same_rows(plain: &Board, table: &TableOctets) -> Result<(), String> {
    let taken = taken::table(table);
    if taken == *plain {
        return Ok(());
    }
    Err(format!("tables differ\nsecond program: {plain:?}\nlibrary: {taken:?}"))
}

/// The second program's answer, and the library's.
fn play(
    run: &mut Run,
    table: &mut TableOctets,
    plain: &mut Board,
    call: &Call,
) -> Result<(Told, Answer), String> {
    match call {
        Call::Post(case, block) => enter(run, &POST, (table, plain), case, *block),
        Call::Receipt(case, block) => enter(run, &RECEIPT, (table, plain), case, *block),
        Call::Release(key) => take_out(run, table, plain, key),
    }
}

/// The library is asked for the table as a struct too once in so many calls: that costs more than the call.
const STRUCTS: u32 = 8;

/// A call that takes a record to the table: the second program's, the library's, and the wrapper's for a struct.
struct OnTable {
    name: &'static str,
    kind: Kind,
    plain: fn(&mut Board, &reference::Header, u32, u64) -> Told,
    proved: fn(&mut TableOctets, &Header, u32, usize) -> Result<Answer, String>,
    whole: fn(&mut Table, &Header, u32, usize) -> Result<(), Refusal>,
}

const POST: OnTable = OnTable {
    name: "post",
    kind: Kind::Post,
    plain: reference::post,
    proved: library::post,
    whole: Table::post,
};

const RECEIPT: OnTable = OnTable {
    name: "receipt",
    kind: Kind::Receipt,
    plain: reference::receipt,
    proved: library::receipt,
    whole: Table::receipt,
};

fn enter(
    run: &mut Run,
    call: &OnTable,
    (table, plain): (&mut TableOctets, &mut Board),
    case: &Case,
    block: u32,
) -> Result<(Told, Answer), String> {
    let (before, count) = (*table, case.count as usize);
    let header = run.rubbish.header(case, &mut run.random);
    let told = (call.plain)(plain, &case.record, block, case.count);
    let got = (call.proved)(table, &header, block, count)?;
    if run.random.one_in(STRUCTS) {
        let whole = |t: &mut Table| (call.whole)(t, &header, block, count);
        library::same_struct(call.name, &before, (got, table), whole)?;
    }
    run.tally.note(call.kind, &told)?;
    run.tally.note_days(call.kind, calendar::of_table(plain, &told));
    run.tally.note_days(call.kind, calendar::of_record(case, &told));
    Ok((told, got))
}

fn take_out(
    run: &mut Run,
    table: &mut TableOctets,
    plain: &mut Board,
    from: &Key,
) -> Result<(Told, Answer), String> {
    let before = *table;
    let key = run.rubbish.key(from, &mut run.random);
    let told = reference::release(plain, from);
    let got = library::release(table, &key)?;
    if run.random.one_in(STRUCTS) {
        let whole = |t: &mut Table| t.release(&(&key).into());
        library::same_struct("release", &before, (got, table), whole)?;
    }
    run.tally.note(Kind::Release, &told)?;
    run.tally.note_days(Kind::Release, calendar::of_table(plain, &told));
    run.tally.note_days(Kind::Release, calendar::of_key(plain, from, &told));
    Ok((told, got))
}

// ---------------------------------------------------------------------------
// Which call comes next

/// A table to begin with; one with no row may be the library's own or any other with count 0. Whether it is the
/// library's own.
fn start(run: &mut Run, pool: &Pool) -> Result<(Pair, bool), String> {
    let rows = *run.random.pick(&[0, 0, 1, 8, 20, 31, 32, 32]);
    let plain = pool::table(pool, rows, &mut run.random);
    let mut table = run.rubbish.table(&plain, &mut run.random);
    let own = rows == 0 && run.random.coin();
    if own {
        library::empty(&mut table)?;
    }
    Ok((Pair { table, plain }, own))
}

/// From the library's own empty table on, every octet follows from the rows alone.
pub fn same_image(plain: &Board, table: &TableOctets) -> Result<(), String> {
    if laid::table_alone(plain) == *table {
        return Ok(());
    }
    Err(format!("the octets are not those that the rows alone have: {plain:?}"))
}

/// Mostly the block that is meant; otherwise none that there is.
pub fn block_number(blocks: usize, random: &mut Random) -> u32 {
    match random.below(32) {
        0 => 0,
        1 => blocks as u32 + 1,
        2 => u32::MAX - random.below(3),
        _ => 1 + random.index(blocks.max(1)) as u32,
    }
}

/// Mostly a key that a row has, and mostly an answerer who owes something there.
pub fn receipt(pool: &Pool, plain: &Board, random: &mut Random) -> Case {
    if plain.rows.is_empty() || random.one_in(6) {
        return pool::receipt(pool.key(random), pool.address(random), random);
    }
    let row = random.pick(&plain.rows);
    let answerer = match random.below(6) {
        0 => pool.address(random),
        _ => random.pick(&row.recipients).address.clone(),
    };
    let mut key = row.key.clone();
    if random.one_in(8) {
        pool::nudge(&mut key, pool, random);
    }
    pool::receipt(key, answerer, random)
}

/// A key to release: one that a row has, one that may be held, or one that is illegal.
pub fn key(pool: &Pool, plain: &Board, random: &mut Random) -> Key {
    let mut key = pool.key(random);
    if !plain.rows.is_empty() && random.coin() {
        key = random.pick(&plain.rows).key.clone();
    }
    if random.one_in(8) {
        pool::nudge(&mut key, pool, random);
    }
    // Sometimes wrong twice, so that the order of the checks shows.
    for _ in 0..1 + random.below(2) {
        match random.below(10) {
            0 => random.pick(BAD_ADDRESSES).2(&mut key.address, random),
            1 => random.pick(BAD_DTGS).1(&mut key.stamp.dtg, random),
            2 => random.pick(LATE_DAYS).1(&mut key.stamp.dtg, random),
            3 => key.stamp.extension = Some(4096 + random.below(100)),
            _ => {}
        }
    }
    key
}

/// The record of a posting or a receipt: made of the pool, any valid one, a damaged one, one that breaks a rule, or one
/// with a day that there is not.
pub fn record(run: &mut Run, pool: &Pool, plain: &Board, posting: bool) -> Case {
    let random = &mut run.random;
    match random.below(24) {
        0 => records::case(random),
        1 | 2 => run.damaged_case(),
        3..=6 => run.broken_case(),
        // The other kind of message: 20 for a posting, 24 for a receipt.
        7 if posting => receipt(pool, plain, random),
        7 => pool::message(pool, random),
        8 if posting => misdate(pool::message(pool, random), random),
        8 => misdate(receipt(pool, plain, random), random),
        _ if posting => pool::message(pool, random),
        _ => receipt(pool, plain, random),
    }
}

pub fn call(run: &mut Run, pool: &Pool, plain: &Board) -> Call {
    match run.random.below(10) {
        0..=4 => {
            let case = record(run, pool, plain, true);
            let number = block_number(case.record.blocks.len(), &mut run.random);
            Call::Post(case, number)
        }
        5..=8 => {
            let case = record(run, pool, plain, false);
            let number = block_number(case.record.blocks.len(), &mut run.random);
            Call::Receipt(case, number)
        }
        _ => Call::Release(key(pool, plain, &mut run.random)),
    }
}

/// A list of calls, with the listing at its end. Now and then the unused cells get new rubbish on the way.
pub fn compare_list(run: &mut Run) -> Result<(), String> {
    let pool = Pool::new(&mut run.random);
    let (mut pair, mut own) = start(run, &pool)?;
    for _ in 0..24 + run.random.below(24) {
        let call = call(run, &pool, &pair.plain);
        compare_call(run, &mut pair, &call)?;
        if own {
            same_image(&pair.plain, &pair.table)?;
        }
        if run.random.one_in(if own { 64 } else { 8 }) {
            pair.table = run.rubbish.table(&pair.plain, &mut run.random);
            own = false;
        }
    }
    listing::compare_rows(run, &pair)
}
