//! Few addresses and few stamps, so that postings, receipts and releases meet at the same keys; and the records and
//! tables made of them.

use std::cmp::Ordering;

use reference::{
    Address, Block, Board, Dtg, Header, Key, Recipient, Requests, Response, Row, Stamp,
};

use crate::calendar::days_in;
use crate::random::Random;
use crate::records::{self, bare_block, bare_header, Case, Maker};

pub struct Pool {
    pub addresses: Vec<Address>,
    pub stamps: Vec<Stamp>,
}

fn urn(number: u32) -> Address {
    Address { urn: Some(number), name: None }
}

fn name(text: &[u8]) -> Address {
    Address { urn: None, name: Some(text.to_vec()) }
}

impl Pool {
    /// Neighbours in the order: numbers that differ in one octet, names that begin each other.
    pub fn new(random: &mut Random) -> Pool {
        let mut addresses = vec![urn(0), urn(1), urn(256), urn(0xFF_FFFF), name(b"1"), name(b"A")];
        addresses.extend([name(b"AB"), name(&[b'A'; 63]), name(&[b'A'; 64]), name(b"\x00\"\\~")]);
        addresses.push(Maker { random, often: 4 }.address());
        addresses.push(Maker { random, often: 4 }.address());
        let base = Maker { random, often: 4 }.dtg();
        let stamps = (0..8).map(|i| near(&base, i, random)).collect();
        Pool { addresses, stamps }
    }

    pub fn address(&self, random: &mut Random) -> Address {
        random.pick(&self.addresses).clone()
    }

    pub fn key(&self, random: &mut Random) -> Key {
        Key { address: self.address(random), stamp: random.pick(&self.stamps).clone() }
    }

    fn addressees(&self, random: &mut Random) -> Vec<Address> {
        let length = if random.one_in(16) { 16 } else { 1 + random.index(5) };
        (0..length).map(|_| self.address(random)).collect()
    }
}

/// Another year in which there is the same day; each fourth year has 29 February again.
fn other_year(dtg: &Dtg) -> u32 {
    let year = 99 - dtg.year;
    if dtg.day <= days_in(year, dtg.month) {
        year
    } else {
        (dtg.year + 4) % 100
    }
}

/// Another month in which there is the same day: December, where June or February lacks the last of July or November.
fn other_month(dtg: &Dtg) -> u32 {
    let month = 13 - dtg.month;
    if dtg.day <= days_in(dtg.year, month) {
        month
    } else {
        12
    }
}

/// Another day of the same month; the one in its middle stays.
fn other_day(dtg: &Dtg) -> u32 {
    days_in(dtg.year, dtg.month) + 1 - dtg.day
}

/// A stamp that differs from the base in one field at most, so that every field decides an order now and then.
fn near(base: &Dtg, i: u32, random: &mut Random) -> Stamp {
    let mut dtg = base.clone();
    match i {
        0 => dtg.year = other_year(base),
        1 => dtg.month = other_month(base),
        2 => dtg.day = other_day(base),
        3 => dtg.hour = 23 - dtg.hour,
        4 => dtg.minute = 59 - dtg.minute,
        5 => dtg.second = 59 - dtg.second,
        _ => {}
    }
    let extension = *random.pick(&[None, None, Some(0), Some(1), Some(255), Some(256), Some(4095)]);
    Stamp { dtg, extension }
}

/// A key next to this one: no extension is not extension 0, and one field is enough to make another message.
pub fn nudge(key: &mut Key, pool: &Pool, random: &mut Random) {
    let dtg = &mut key.stamp.dtg;
    match random.below(6) {
        0 => key.address = pool.address(random),
        1 => dtg.year = other_year(dtg),
        2 => dtg.day = other_day(dtg),
        3 => dtg.second = 59 - dtg.second,
        4 if key.stamp.extension.is_some() => key.stamp.extension = None,
        _ => key.stamp.extension = Some(key.stamp.extension.map_or(0, |n| n ^ 1)),
    }
}

// ---------------------------------------------------------------------------
// Records

pub fn asked(random: &mut Random) -> Requests {
    let bits = 1 + random.below(7);
    Requests { machine: bits & 1 != 0, acknowledge: bits & 2 != 0, reply: bits & 4 != 0 }
}

fn asking(stamp: Stamp, random: &mut Random) -> Block {
    let mut block = bare_block();
    block.stamp = Some(stamp);
    block.requests = Some(asked(random));
    match random.below(16) {
        0 => block.requests = None,
        1 => {
            let none = Requests { machine: false, acknowledge: false, reply: false };
            block.requests = Some(none);
        }
        _ => {}
    }
    block
}

pub fn answering(stamp: Stamp, random: &mut Random) -> Block {
    let code = 1 + random.below(6);
    let mut block = bare_block();
    block.response = Some(Response {
        stamp,
        code,
        cantco: (code == 6 && random.coin()).then(|| random.below(8)),
        cantpro: (code == 2 && random.coin()).then(|| random.below(64)),
        amplification: None,
    });
    block
}

fn with_sizes(mut record: Header, random: &mut Random) -> Case {
    let told = record.blocks.len() > 1 || random.coin();
    let count = records::give_sizes(&mut record, told, random);
    Case { record, count }
}

/// A message of one or more blocks, some of which may be answers.
pub fn message(pool: &Pool, random: &mut Random) -> Case {
    let mut record = bare_header();
    record.version = records::version(random);
    record.originator = Some(pool.address(random));
    record.recipients = Some(pool.addressees(random)).filter(|_| !random.one_in(16));
    record.blocks.clear();
    let length = if random.one_in(6) { 2 + random.index(3) } else { 1 };
    for i in 0..length {
        let stamp = random.pick(&pool.stamps).clone();
        let answer = i > 0 && random.one_in(3);
        let block = if answer { answering(stamp, random) } else { asking(stamp, random) };
        record.blocks.push(block);
    }
    with_sizes(record, random)
}

/// A receipt for a key from an answerer; now and then without one of the two, or for two keys at once.
pub fn receipt(key: Key, answerer: Address, random: &mut Random) -> Case {
    let mut record = bare_header();
    record.version = records::version(random);
    record.originator = Some(answerer).filter(|_| !random.one_in(24));
    record.recipients = match random.below(36) {
        0 => None,
        1 => Some(vec![key.address.clone(), key.address.clone()]),
        _ => Some(vec![key.address.clone()]),
    };
    record.information = random.one_in(16).then(|| vec![key.address.clone()]);
    record.blocks = vec![answering(key.stamp.clone(), random)];
    if random.one_in(8) {
        record.blocks.push(answering(key.stamp, random));
    }
    with_sizes(record, random)
}

// ---------------------------------------------------------------------------
// Tables

/// A well-formed table with so many rows.
pub fn table(pool: &Pool, rows: usize, random: &mut Random) -> Board {
    let mut table = Board::new();
    while table.rows.len() < rows {
        let key = pool.key(random);
        let order = |row: &Row| reference::key_order(&row.key, &key);
        let at = table.rows.iter().take_while(|row| order(row) == Ordering::Less).count();
        if table.rows.get(at).map(order) != Some(Ordering::Equal) {
            let row = row(pool, key, random);
            table.rows.insert(at, row);
        }
    }
    table
}

fn row(pool: &Pool, key: Key, random: &mut Random) -> Row {
    let asked = asked(random);
    let mut addresses = pool.addressees(random);
    if random.one_in(4) {
        // Sixteen that differ: the pool has fewer.
        addresses = (0..16).map(|i| urn(3 * i + random.below(3))).collect();
    }
    addresses.sort_by(reference::address_order);
    addresses.dedup();
    let owe = |address: Address, random: &mut Random| recipient(address, &asked, random);
    let recipients = addresses.into_iter().map(|address| owe(address, random)).collect();
    Row { key, asked, recipients }
}

/// Codes as calls leave them: each fits its request, and once a 2 stands nothing is open.
fn recipient(address: Address, asked: &Requests, random: &mut Random) -> Recipient {
    let mut cells = [0, 0, 0];
    let fitting: [&[u32]; 3] = [&[1], &[3], &[4, 5, 6]];
    let refused = random.one_in(4);
    for (i, wanted) in [asked.machine, asked.acknowledge, asked.reply].into_iter().enumerate() {
        if wanted && random.coin() {
            cells[i] = *random.pick(fitting[i]);
        } else if wanted && refused {
            cells[i] = 2;
        }
    }
    Recipient { address, machine: cells[0], acknowledge: cells[1], reply: cells[2] }
}
