//! Tables with one thing wrong in them: every call has to refuse them with 30 and leave them as they are.

use std::cmp::Ordering;

use reference::{Address, Board, Dtg, Recipient, Refusal, Row, Stamp};

use crate::damage::{BAD_ADDRESSES, BAD_DTGS, LATE_DAYS};
use crate::listing;
use crate::pool::{self, Pool};
use crate::random::Random;
use crate::run::Run;
use crate::tables::{call, compare_call, Call, Pair};

/// Does the damage, or says that the table lacks what it needs.
type Spoil = fn(&mut Board, &mut Random) -> bool;

fn row<'a>(table: &'a mut Board, random: &mut Random) -> &'a mut Row {
    let i = random.index(table.rows.len());
    &mut table.rows[i]
}

fn recipient<'a>(table: &'a mut Board, random: &mut Random) -> &'a mut Recipient {
    let row = row(table, random);
    let i = random.index(row.recipients.len());
    &mut row.recipients[i]
}

fn swap_neighbours<T>(list: &mut [T], random: &mut Random) -> bool {
    if list.len() < 2 {
        return false;
    }
    let i = random.index(list.len() - 1);
    list.swap(i, i + 1);
    true
}

/// A day that the month of a row's key does not have; the rows stay in order, so that nothing else is wrong.
fn late_day(table: &mut Board, way: usize, random: &mut Random) -> bool {
    LATE_DAYS[way].1(&mut row(table, random).key.stamp.dtg, random);
    let order = |pair: &[Row]| reference::key_order(&pair[0].key, &pair[1].key);
    table.rows.windows(2).all(|pair| order(pair) == Ordering::Less)
}

/// Rows behind the last one, in order, until there are so many: nothing but the count is wrong.
fn lengthen(table: &mut Board, length: usize) {
    let dtg = Dtg { year: 99, month: 12, day: 31, hour: 23, minute: 59, second: 59 };
    for i in table.rows.len()..length {
        let mut row = table.rows[i - 1].clone();
        row.key.address = Address { urn: None, name: Some(vec![126; 64]) };
        row.key.stamp = Stamp { dtg: dtg.clone(), extension: Some(4000 + i as u32) };
        table.rows.push(row);
    }
}

/// So many recipients, in order and with everything open.
fn crowd(row: &mut Row, length: u32) {
    let address = |urn| Address { urn: Some(urn), name: None };
    let owe = |i| Recipient { address: address(7 * i), machine: 0, acknowledge: 0, reply: 0 };
    row.recipients = (0..length).map(owe).collect();
}

/// A code that does not answer the request of its cell.
fn misfit(table: &mut Board, cell: u32, random: &mut Random) -> bool {
    let row = row(table, random);
    let i = random.index(row.recipients.len());
    let r = &mut row.recipients[i];
    match cell {
        0 => r.machine = *random.pick(&[3, 4, 5, 6, 7, 257, u32::MAX]),
        1 => r.acknowledge = *random.pick(&[1, 4, 5, 6, 7, 258, u32::MAX]),
        _ => r.reply = *random.pick(&[1, 3, 7, 8, 260, u32::MAX]),
    }
    [row.asked.machine, row.asked.acknowledge, row.asked.reply][cell as usize]
}

/// A code, fitting, where its request was not asked. 2 fits everywhere.
fn unasked(table: &mut Board, random: &mut Random) -> bool {
    let row = row(table, random);
    let asked = [row.asked.machine, row.asked.acknowledge, row.asked.reply];
    let i = random.index(row.recipients.len());
    let r = &mut row.recipients[i];
    let cell = random.index(3);
    let fitting = [1, 3, 4 + random.below(3)][cell];
    let code = if random.coin() { 2 } else { fitting };
    *[&mut r.machine, &mut r.acknowledge, &mut r.reply][cell] = code;
    !asked[cell]
}

/// A 2 at one asked request, and another one open.
fn open_beside_2(table: &mut Board, random: &mut Random) -> bool {
    let row = row(table, random);
    let asked = [row.asked.machine, row.asked.acknowledge, row.asked.reply];
    let i = random.index(row.recipients.len());
    let r = &mut row.recipients[i];
    let (two, open) = (random.index(3), random.index(3));
    let cells = [&mut r.machine, &mut r.acknowledge, &mut r.reply];
    *cells[two] = 2;
    *cells[open] = 0;
    two != open && asked[two] && asked[open]
}

const SPOILS: &[(&str, Spoil)] = &[
    ("over 32 rows", |t, r| {
        lengthen(t, 33 + r.index(2));
        true
    }),
    ("rows out of order", |t, r| swap_neighbours(&mut t.rows, r)),
    ("a row twice", |t, r| {
        let i = r.index(t.rows.len());
        t.rows.insert(i, t.rows[i].clone());
        t.rows.len() <= 32
    }),
    ("equal keys", |t, r| {
        let i = r.index(t.rows.len());
        let key = t.rows[i].key.clone();
        t.rows.get_mut(i + 1).map(|row| row.key = key).is_some()
    }),
    ("illegal address in a key", |t, r| {
        r.pick(BAD_ADDRESSES).2(&mut row(t, r).key.address, r);
        true
    }),
    ("illegal DTG in a key", |t, r| {
        r.pick(BAD_DTGS).1(&mut row(t, r).key.stamp.dtg, r);
        true
    }),
    ("29 February where there are 28 in a key", |t, r| late_day(t, 0, r)),
    ("30 or 31 February in a key", |t, r| late_day(t, 1, r)),
    ("31 of a month of 30 in a key", |t, r| late_day(t, 2, r)),
    ("the day behind the last of a short month in a key", |t, r| late_day(t, 3, r)),
    ("illegal extension in a key", |t, r| {
        row(t, r).key.stamp.extension = Some(4096 << r.below(20));
        true
    }),
    ("no recipient", |t, r| {
        row(t, r).recipients.clear();
        true
    }),
    ("over 16 recipients", |t, r| {
        let length = 17 + r.below(2);
        crowd(row(t, r), length);
        true
    }),
    ("recipients out of order", |t, r| swap_neighbours(&mut row(t, r).recipients, r)),
    ("a recipient twice", |t, r| {
        let list = &mut row(t, r).recipients;
        let i = r.index(list.len());
        list.insert(i, list[i].clone());
        list.len() <= 16
    }),
    ("illegal address of a recipient", |t, r| {
        r.pick(BAD_ADDRESSES).2(&mut recipient(t, r).address, r);
        true
    }),
    ("nothing asked", |t, r| {
        let row = row(t, r);
        row.asked = reference::Requests { machine: false, acknowledge: false, reply: false };
        for r in &mut row.recipients {
            (r.machine, r.acknowledge, r.reply) = (0, 0, 0);
        }
        true
    }),
    ("a code at a request not asked", unasked),
    ("a machine code that does not fit", |t, r| misfit(t, 0, r)),
    ("an acknowledge code that does not fit", |t, r| misfit(t, 1, r)),
    ("a reply code that does not fit", |t, r| misfit(t, 2, r)),
    ("2 beside an open request", open_beside_2),
];

fn spoiled(pool: &Pool, (name, spoil): &(&str, Spoil), random: &mut Random) -> Board {
    for _ in 0..10_000 {
        let rows = *random.pick(&[1, 2, 5, 31, 32]);
        let mut table = pool::table(pool, rows, random);
        if spoil(&mut table, random) {
            return table;
        }
    }
    panic!("no table could be spoiled: {name}");
}

/// A table spoiled in any way.
pub fn any_spoiled(pool: &Pool, random: &mut Random) -> Board {
    spoiled(pool, random.pick(SPOILS), random)
}

/// All four calls on a table spoiled in the way of this turn.
pub fn compare_spoiled(run: &mut Run, turn: u64) -> Result<(), String> {
    let pool = Pool::new(&mut run.random);
    let way = &SPOILS[(turn % SPOILS.len() as u64) as usize];
    let plain = spoiled(&pool, way, &mut run.random);
    let good = pool::table(&pool, 4, &mut run.random);
    let table = run.rubbish.table(&plain, &mut run.random);
    let mut pair = Pair { table, plain };
    // Arguments for a good table, whatever they are: 30 comes before all that can be said of them.
    let mut left = [true; 3];
    while left.contains(&true) {
        let call = call(run, &pool, &good);
        let kind = match call {
            Call::Post(..) => 0,
            Call::Receipt(..) => 1,
            Call::Release(_) => 2,
        };
        if std::mem::take(&mut left[kind]) {
            expect_30(compare_call(run, &mut pair, &call)?, way.0)?;
        }
    }
    let room = run.random.index(64);
    let number = run.random.below(40);
    listing::compare_row(run, &pair, number, room)
}

fn expect_30(refusal: Option<Refusal>, way: &str) -> Result<(), String> {
    if refusal == Some(Refusal::new(30)) {
        return Ok(());
    }
    Err(format!("{way}: both programs answer {refusal:?}, not 30"))
}
