//! Random records, keys and tables: mostly valid, out of few addresses and times so that they meet; and ways of
//! spoiling them.

use crate::fast;
use crate::random::Random;
use crate::samples::{addressees, named, number, urn};
use pruvelaccio::*;

fn any_text(random: &mut Random, most: usize) -> OptionalText {
    let count = if random.once_in(4) { most - random.below(2) } else { 1 + random.below(most) };
    let mut chars = [0; 64];
    for c in &mut chars[..count] {
        *c = random.below(127) as u8;
    }
    OptionalText { present: true, text: Text { chars, len: count as u32 } }
}

pub fn address(random: &mut Random) -> Address {
    match random.below(9) {
        0 => urn(3),
        1 => urn(207),
        2 => urn(208),
        3 => named("A"),
        4 => named("AB"),
        5 => named("A\"\\\n~"),
        6 => urn(random.bits(24)),
        7 => Address { name: any_text(random, 64), ..named("A") },
        _ => named("B"),
    }
}

/// The last days of months of every length.
const LAST_DAYS: [[u32; 3]; 8] = [
    [0, 2, 29],
    [1, 2, 28],
    [96, 2, 29],
    [99, 2, 28],
    [4, 4, 30],
    [97, 6, 30],
    [99, 11, 30],
    [99, 12, 31],
];

/// Days that their months do not have, and others do.
const NO_DAYS: [[u32; 3]; 8] = [
    [1, 2, 29],
    [99, 2, 29],
    [0, 2, 30],
    [96, 2, 31],
    [96, 4, 31],
    [4, 6, 31],
    [97, 9, 31],
    [99, 11, 31],
];

fn one_of(list: &[[u32; 3]], random: &mut Random) -> Date {
    let [year, month, day] = list[random.below(list.len())];
    Date { year, month, day }
}

/// Mostly on one day, so that keys meet; else on a month's last.
pub fn stamp(random: &mut Random) -> Stamp {
    let mut s = fast::NO_HEADER.blocks.list[0].times.origin.stamp;
    s.dtg = crate::samples::dtg(random.below(2) as u32, 55);
    if random.once_in(4) {
        s.dtg.date = one_of(&LAST_DAYS, random);
    }
    if random.once_in(2) {
        s.extension = number(random.below(2) as u32);
    }
    s
}

pub fn key(random: &mut Random) -> Key {
    Key { address: address(random), stamp: stamp(random) }
}

fn list(random: &mut Random, most: usize) -> OptionalAddresses {
    let count = if random.once_in(3) { 1 } else { 1 + random.below(most) };
    let list: Vec<Address> = (0..count).map(|_| address(random)).collect();
    addressees(&list)
}

fn front(random: &mut Random) -> Front {
    let mut front = fast::NO_HEADER.front;
    front.version = 1 + random.below(2) as u32;
    if !random.once_in(8) {
        front.originator = OptionalAddress { present: true, address: address(random) };
    }
    if !random.once_in(8) {
        let most = if random.once_in(4) { 16 } else { 2 };
        front.recipients = list(random, most);
    }
    let room = 16 - front.recipients.addresses.count as usize;
    if room > 0 && random.once_in(4) {
        front.information = list(random, room);
    }
    front
}

fn identity(random: &mut Random) -> OptionalIdentity {
    let mut g4 = fast::NO_HEADER.blocks.list[0].format.identity;
    g4.present = true;
    g4.identity.fad = random.bits(4);
    g4.identity.number = random.bits(7);
    if random.once_in(2) {
        g4.identity.subtype = number(random.bits(7));
    }
    g4
}

/// The fields that both kinds of block have.
fn common(random: &mut Random) -> Block {
    let mut b = fast::NO_HEADER.blocks.list[0];
    b.format.umf = [0, 2, 3, 5, 8][random.below(5)];
    b.handling.codes.precedence = random.bits(3);
    b.handling.codes.classification = random.bits(2);
    if random.once_in(3) {
        b.format.version = number(random.bits(4));
        b.format.identity = identity(random);
    }
    if random.once_in(4) {
        b.format.file = any_text(random, 64);
        b.handling.marking = any_text(random, 32);
    }
    if random.once_in(4) {
        let g9 = &mut b.references;
        g9.present = true;
        g9.references.count = 1 + random.below(4) as u32;
        for entry in &mut g9.references.list[..g9.references.count as usize] {
            *entry = Reference { address: address(random), stamp: stamp(random) };
        }
    }
    b
}

fn posting(random: &mut Random, size: u32) -> Block {
    let mut b = common(random);
    b.handling.size = number(size);
    b.times.origin = OptionalStamp { present: true, stamp: stamp(random) };
    if random.once_in(4) {
        b.times.perish = OptionalDtg { present: true, dtg: stamp(random).dtg };
    }
    b.times.requests.present = !random.once_in(8);
    if b.times.requests.present {
        b.times.requests.requests = Requests {
            machine: random.once_in(2),
            acknowledge: random.once_in(2),
            reply: random.once_in(2),
        };
    }
    b
}

fn answer(random: &mut Random) -> Block {
    let mut b = common(random);
    b.handling.size = number(0);
    b.response.present = true;
    let response = &mut b.response.response;
    response.stamp = stamp(random);
    response.compliance.code = 1 + random.below(6) as u32;
    if random.once_in(2) {
        match response.compliance.code {
            6 => response.compliance.cantco = number(random.bits(3)),
            2 => response.compliance.cantpro = number(random.bits(6)),
            _ => response.amplification = any_text(random, 50),
        }
    }
    b
}

/// A record with the count of its user data.
pub fn header(random: &mut Random) -> (Box<Header>, usize) {
    let mut h = Box::new(fast::NO_HEADER);
    h.front = front(random);
    let blocks = if random.once_in(3) { 1 + random.below(16) } else { 1 };
    let mut count = 0;
    for b in &mut h.blocks.list[..blocks] {
        let size = 1 + random.below(9);
        *b = if random.once_in(2) { answer(random) } else { posting(random, size as u32) };
        b.format.version.present &= h.front.version != 1 || random.once_in(16);
        count += b.handling.size.value as usize;
    }
    h.blocks.count = blocks as u32;
    h.sized = blocks > 1 || random.once_in(4);
    if blocks == 1 && random.once_in(2) {
        h.blocks.list[0].handling.size = number(0);
        h.blocks.list[0].handling.size.present = false;
    }
    (h, count)
}

/// Makes the record answer a row: from one of its recipients to its originator, with its time.
pub fn aim(h: &mut Header, row: &Row, random: &mut Random) {
    let recipients = (row.count as usize).clamp(1, 16);
    let address = row.recipients[random.below(recipients)].address;
    h.front.originator = OptionalAddress { present: true, address };
    h.front.recipients = addressees(&[row.key.address]);
    for b in &mut h.blocks.list {
        b.response.response.stamp = row.key.stamp;
    }
}

/// A number that does not fit, or just fits, a cell that may hold up to `most`.
fn off(random: &mut Random, most: u32) -> u32 {
    [0, most, most + 1, u32::MAX][random.below(4)]
}

fn spoil_address(a: &mut Address, random: &mut Random) {
    match random.below(5) {
        0 => a.urn.present = !a.urn.present,
        1 => a.name.present = !a.name.present,
        2 => a.urn.value = off(random, 0xff_ffff),
        3 => spoil_text(&mut a.name.text, random, 64),
        _ => a.urn.present = a.name.present,
    }
}

fn spoil_text(t: &mut Text, random: &mut Random, most: u32) {
    match random.below(2) {
        0 => t.len = off(random, most),
        _ => t.chars[random.below(64)] = 126 + random.below(3) as u8,
    }
}

fn spoil_dtg(d: &mut Dtg, random: &mut Random) {
    let (date, time) = (&mut d.date, &mut d.time);
    match random.below(8) {
        0 => date.year = off(random, 99),
        1 => date.month = off(random, 12),
        2 => date.day = off(random, 31),
        3 => time.hour = off(random, 23),
        4 => time.minute = off(random, 59),
        5 => time.second = off(random, 59),
        // Whether there is that day hangs on the month.
        6 => date.day = 28 + random.below(5) as u32,
        _ => *date = one_of(&NO_DAYS, random),
    }
}

fn spoil_stamp(s: &mut Stamp, random: &mut Random) {
    match random.below(8) {
        0 => s.extension.value = off(random, 4095),
        1 => s.extension.present = !s.extension.present,
        _ => spoil_dtg(&mut s.dtg, random),
    }
}

fn spoil_front(f: &mut Front, random: &mut Random) {
    match random.below(8) {
        0 => f.version = off(random, 2),
        1 => f.compression = number(off(random, 1)),
        2 => f.originator.present = !f.originator.present,
        3 => spoil_address(&mut f.originator.address, random),
        4 => f.recipients.addresses.count = off(random, 16),
        5 => spoil_address(&mut f.recipients.addresses.list[random.below(2)], random),
        6 => f.information.present = !f.information.present,
        _ => f.information.addresses.count = off(random, 16),
    }
}

fn spoil_message(b: &mut Block, random: &mut Random) {
    match random.below(10) {
        0 => b.format.umf = [1, 4, 9, u32::MAX][random.below(4)],
        1 => b.format.version = number(off(random, 15)),
        2 => b.format.identity.present = !b.format.identity.present,
        3 => b.format.identity.identity.number = off(random, 127),
        4 => spoil_text(&mut b.format.file.text, random, 64),
        5 => b.handling.size.present = !b.handling.size.present,
        6 => b.handling.size.value = off(random, 0xf_ffff),
        7 => b.handling.codes.precedence = off(random, 7),
        8 => b.handling.codes.retransmit = off(random, 1),
        _ => spoil_text(&mut b.handling.marking.text, random, 32),
    }
}

fn spoil_groups(b: &mut Block, random: &mut Random) {
    let response = &mut b.response.response;
    match random.below(14) {
        0 => b.times.origin.present = !b.times.origin.present,
        1 => spoil_stamp(&mut b.times.origin.stamp, random),
        2 => b.times.perish.present = !b.times.perish.present,
        3 => spoil_dtg(&mut b.times.perish.dtg, random),
        4 => b.times.requests.present = !b.times.requests.present,
        5 => b.response.present = !b.response.present,
        6 => spoil_stamp(&mut response.stamp, random),
        7 => response.compliance.code = off(random, 6),
        8 => response.compliance.cantco = number(off(random, 7)),
        9 => response.compliance.cantpro = number(off(random, 63)),
        10 => spoil_text(&mut response.amplification.text, random, 50),
        11 => b.references.references.count = off(random, 4),
        12 => spoil_address(&mut b.references.references.list[0].address, random),
        _ => spoil_stamp(&mut b.references.references.list[0].stamp, random),
    }
}

/// Changes one cell of a record, not always to something wrong.
pub fn spoil(h: &mut Header, random: &mut Random) {
    let blocks = (h.blocks.count as usize).clamp(1, 16);
    let b = &mut h.blocks.list[random.below(blocks)];
    match random.below(10) {
        0 | 1 => spoil_front(&mut h.front, random),
        2 => h.sized = !h.sized,
        3 => h.blocks.count = off(random, 16),
        4 | 5 => spoil_message(b, random),
        _ => spoil_groups(b, random),
    }
}

/// Changes something that the rules or the sizes look at, in any block; each field by itself stays as good as it was.
pub fn break_rule(h: &mut Header, random: &mut Random) {
    let blocks = (h.blocks.count as usize).clamp(1, 16);
    let b = &mut h.blocks.list[random.below(blocks)];
    match random.below(12) {
        0 => h.front.originator.present = false,
        1 => h.front.compression = number(random.bits(1)),
        2 => h.sized = false,
        3 => b.format.umf = [1, 4][random.below(2)],
        4 | 5 => {
            b.format.umf = [1, 4][random.below(2)];
            b.format.identity = identity(random);
        }
        6 => b.handling.size.present = false,
        7 => b.handling.size = number(random.below(2) as u32),
        8 => b.times.perish = OptionalDtg { present: true, dtg: stamp(random).dtg },
        9 => b.times.origin.present = false,
        10 => b.response.response.compliance.cantco = number(random.bits(3)),
        _ => b.response.response.compliance.cantpro = number(random.bits(6)),
    }
}

pub fn spoil_key(key: &mut Key, random: &mut Random) {
    match random.below(2) {
        0 => spoil_address(&mut key.address, random),
        _ => spoil_stamp(&mut key.stamp, random),
    }
}

/// Changes one cell of a table, often so that it is no longer well formed.
pub fn spoil_table(t: &mut Table, random: &mut Random) {
    let rows = (t.count as usize).clamp(1, 32);
    let other = t.rows[random.below(rows)].key;
    let row = &mut t.rows[random.below(rows)];
    match random.below(8) {
        0 => t.count = off(random, 32),
        1 => row.count = off(random, 16),
        2 => row.asked.machine = !row.asked.machine,
        3 => spoil_key(&mut row.key, random),
        4 => spoil_address(&mut row.recipients[random.below(2)].address, random),
        5 => row.recipients[random.below(2)].machine = random.below(8) as u32,
        6 => row.recipients[random.below(2)].reply = random.below(8) as u32,
        _ => row.key = other,
    }
}
