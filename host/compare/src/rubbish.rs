//! Structs whose cells hold anything, and octets that do. A record, a table or a key is laid over one of them, so that
//! every cell it does not use is rubbish when the product is asked. Filling them costs much, so a stock is made once
//! and copied.

use pruvelaccio::{Header, Key, KeyOctets, RecordOctets, Table, TableOctets, KEY, RECORD, TABLE};

use crate::cells::{Cell, Cells, Places};
use crate::convert;
use crate::laid;
use crate::random::Random;
use crate::records::Case;

pub struct Rubbish {
    octets: Vec<RecordOctets>,
    headers: Vec<Header>,
    tables: Vec<TableOctets>,
    keys: Vec<KeyOctets>,
    places: Places,
}

/// Flags stay 0 or 1: no other octet is a flag in Rust.
fn fill<T: Cells>(random: &mut Random) -> T {
    let mut cells = T::ZERO;
    cells.each(0, &mut |_, cell| match cell {
        Cell::Flag(flag) => *flag = random.coin(),
        Cell::Number(number) => *number = any_number(random),
        Cell::Char(character) => *character = random.next() as u8,
    });
    cells
}

/// Small numbers too, since these look like counts and codes that could be true.
fn any_number(random: &mut Random) -> u32 {
    match random.below(3) {
        0 => random.below(20),
        1 => u32::MAX - random.below(20),
        _ => random.next() as u32,
    }
}

/// What is added to a count that its array cannot hold anyway. Large ones show a sum of counts that overflows.
fn stretch(random: &mut Random) -> u32 {
    match random.below(4) {
        0 => random.next() as u32,
        1 => u32::MAX - random.below(40),
        _ => 0,
    }
}

fn any<const N: usize>(random: &mut Random) -> [u8; N] {
    random.octets(N).try_into().expect("as many")
}

pub fn any_octets(random: &mut Random) -> RecordOctets {
    RecordOctets::from(any::<RECORD>(random))
}

pub fn any_table(random: &mut Random) -> TableOctets {
    TableOctets::from(any::<TABLE>(random))
}

pub fn any_key(random: &mut Random) -> KeyOctets {
    KeyOctets::from(any::<KEY>(random))
}

/// Any octets, but for numbers like those above.
fn fill_octets<const N: usize>(places: &Places, random: &mut Random) -> [u8; N] {
    let mut octets = any(random);
    for at in &places.numbers {
        octets[*at..at + 4].copy_from_slice(&any_number(random).to_le_bytes());
    }
    octets
}

/// Any octet but 0, and often 1.
pub fn set(random: &mut Random) -> u8 {
    if random.coin() {
        1
    } else {
        1 + random.below(255) as u8
    }
}

/// Every flag that is 1 may be any octet but 0.
pub fn loosen(octets: &mut [u8], places: &Places, random: &mut Random) {
    for at in &places.flags {
        if octets[*at] == 1 {
            octets[*at] = set(random);
        }
    }
}

impl Rubbish {
    pub fn new(random: &mut Random) -> Rubbish {
        let (places, of_key) = (Places::of::<Table>(), Places::of::<Key>());
        Rubbish {
            octets: (0..24).map(|_| any_octets(random)).collect(),
            headers: (0..24).map(|_| fill(random)).collect(),
            tables: (0..8).map(|_| fill_octets(&places, random).into()).collect(),
            keys: (0..64).map(|_| fill_octets::<KEY>(&of_key, random).into()).collect(),
            places,
        }
    }

    pub fn octets(&self, random: &mut Random) -> &RecordOctets {
        random.pick(&self.octets)
    }

    pub fn header(&self, case: &Case, random: &mut Random) -> Header {
        let mut header = *random.pick(&self.headers);
        convert::header(&case.record, &mut header, stretch(random));
        header
    }

    /// Half of the tables have flags other than 1.
    pub fn table(&self, rows: &reference::Board, random: &mut Random) -> TableOctets {
        let mut table = *random.pick(&self.tables);
        laid::table(rows, &mut table, stretch(random));
        if random.coin() {
            loosen(table.octets_mut(), &self.places, random);
        }
        table
    }

    pub fn key(&self, from: &reference::Key, random: &mut Random) -> KeyOctets {
        let mut key = *random.pick(&self.keys);
        laid::key(from, &mut key, stretch(random));
        key
    }
}
