//! The proved calls and the fast ones agree: number, place and block, record, octets, table and listing, on every input
//! that is measured and on random ones. Fast reading and writing are held against the proved ones by fragments and by
//! words.

use crate::cells::{all_cells, used_cells};
use crate::draft;
use crate::fast;
use crate::random::Random;
use crate::samples::{self, Sample};
use pruvelaccio::{Date, Header, HeaderRead, Key, Refusal, Table};

const RECORDS: usize = 4000;
const BROKEN: usize = 2000;
const TABLES: usize = 80;
const CALLS_EACH: usize = 60;

/// The numbers of refusals, document 01's and document 02's for the rules and the sizes.
const NUMBERS: [u32; 34] = [
    1, 2, 3, 4, 5, 6, 7, 9, 11, 12, 20, 21, 22, 23, 24, 25, 26, 27, 28, 29, 30, 41, 42, 43, 44, 45,
    46, 47, 48, 49, 51, 52, 53, 54,
];

/// Those that tell a message block.
const BLAMED: [u32; 11] = [41, 42, 43, 44, 45, 46, 47, 48, 49, 53, 54];

/// Years that divide by four and years beside them, and two numbers that are no year.
const YEARS: [u32; 10] = [0, 1, 2, 3, 4, 96, 97, 99, 100, 127];

/// A posting or receipt with its arguments, or a release.
pub enum Call<'a> {
    Post(&'a Header, u32, usize),
    Receipt(&'a Header, u32, usize),
    Release(&'a Key),
}

impl Call<'_> {
    pub fn proved(&self, t: &mut Table) -> Result<(), Refusal> {
        match self {
            Call::Post(h, number, count) => t.post(h, *number, *count),
            Call::Receipt(h, number, count) => t.receipt(h, *number, *count),
            Call::Release(key) => t.release(key),
        }
    }

    pub fn fast(&self, t: &mut Table) -> Result<(), Refusal> {
        match self {
            Call::Post(h, number, count) => fast::post(t, h, *number, *count),
            Call::Receipt(h, number, count) => fast::receipt(t, h, *number, *count),
            Call::Release(key) => fast::release(t, key),
        }
    }

    pub fn by_value(&self, t: &mut Table) -> Result<(), Refusal> {
        match self {
            Call::Post(h, number, count) => fast::by_value::post(t, h, *number, *count),
            Call::Receipt(h, number, count) => fast::by_value::receipt(t, h, *number, *count),
            Call::Release(key) => fast::by_value::release(t, key),
        }
    }
}

/// What was compared so far, and the refusals met. The records that the readings fill, the proved one and the fast ones
/// by fragments and by words, are used again and again, so that they always hold old cells.
struct Compared {
    lent: Box<Header>,
    filled: [Box<Header>; 2],
    datagrams: usize,
    records: usize,
    calls: usize,
    met: Vec<Refusal>,
}

impl Compared {
    fn note<T>(&mut self, answer: &Result<T, Refusal>) {
        self.met.extend(answer.as_ref().err());
    }

    /// A record that is lent is filled as a new one is; after a refusal it is as it was.
    fn lent_reading(&mut self, datagram: &[u8], proved: &Result<HeaderRead, Refusal>) {
        let before = all_cells(&self.lent);
        let length = pruvelaccio::read_into(datagram, &mut self.lent);
        assert_eq!(proved.as_ref().map(|r| r.length), length.as_ref().copied());
        let after = proved.as_ref().map_or(before, |r| all_cells(&r.header));
        assert_eq!(after, all_cells(&self.lent));
    }

    fn reading(&mut self, datagram: &[u8]) {
        let proved = pruvelaccio::read(datagram);
        self.lent_reading(datagram, &proved);
        let ways: [fast::Read; 2] = [fast::read, fast::by_words::read];
        for (fast_read, record) in ways.iter().zip(&mut self.filled) {
            let fast = fast_read(datagram, record);
            assert_eq!(proved.as_ref().map(|r| r.length), fast.as_ref().copied());
            if let Ok(read) = &proved {
                assert_eq!(all_cells(&read.header), all_cells(record));
            }
        }
        let start = proved.as_ref().map_or(datagram.len(), |r| r.length);
        assert_eq!(pruvelaccio::user_data(datagram), &datagram[start..]);
        self.datagrams += 1;
        self.note(&proved);
    }

    /// The check, and writing by fragments and by words into outputs of the same length and content.
    fn writing(&mut self, h: &Header, count: usize, room: usize) -> Result<usize, Refusal> {
        assert_eq!(pruvelaccio::check(h, count), fast::check(h, count));
        let mut one = vec![0xa5; room];
        let written = pruvelaccio::write(h, count, &mut one);
        let ways: [fast::Write; 2] = [fast::write, fast::by_words::write];
        for fast_write in ways {
            let mut two = vec![0xa5; room];
            assert_eq!(written, fast_write(h, count, &mut two));
            assert_eq!(one, two);
        }
        self.records += 1;
        self.note(&written);
        written
    }

    /// A call on copies of a table: the table afterwards.
    fn call(&mut self, t: &Table, call: &Call) -> Box<Table> {
        let (mut one, mut two, mut three) = (Box::new(*t), Box::new(*t), Box::new(*t));
        let answer = call.proved(&mut one);
        assert_eq!(answer, call.fast(&mut two));
        assert_eq!(answer, call.by_value(&mut three));
        let after = used_cells(&one);
        assert_eq!(after, used_cells(&two));
        assert_eq!(after, used_cells(&three));
        self.calls += 1;
        self.note(&answer);
        one
    }

    fn row(&mut self, t: &Table, number: u32, room: usize) {
        let (mut one, mut two) = (vec![0xa5; room], vec![0xa5; room]);
        let listed = t.list_row(number, &mut one);
        assert_eq!(listed, fast::list_row(t, number, &mut two));
        assert_eq!(one, two);
        self.note(&listed);
    }

    fn listing(&mut self, t: &Table) {
        (0..34).for_each(|number| self.row(t, number, 4096));
    }
}

/// All headers and tables that are measured.
fn measured(compared: &mut Compared) {
    let mut list = vec![samples::small(), samples::typical(), samples::largest()];
    list.extend([samples::typical_old(), samples::largest_posting(), samples::named_receipt()]);
    for count in [1, 2, 4, 8, 16] {
        list.extend([samples::plain_blocks(count), samples::full_blocks(count)]);
    }
    for s in &list {
        compared.reading(&s.datagram);
        let written = compared.writing(&s.header, s.count, 8192);
        assert_eq!(written, Ok(s.octets));
    }
    for table in [samples::almost_empty(), samples::nearly_full(), samples::full()] {
        measured_calls(compared, &table, &list);
        compared.listing(&table);
    }
}

fn measured_calls(compared: &mut Compared, table: &Table, list: &[Sample]) {
    for s in list {
        compared.call(table, &Call::Post(&s.header, s.header.blocks.count, s.count));
        compared.call(table, &Call::Receipt(&s.header, 1, s.count));
    }
    for key in [samples::first_key(), samples::middle_key()] {
        compared.call(table, &Call::Release(&key));
    }
}

/// The limit of 65,507 octets, which nothing random comes near.
fn longest(compared: &mut Compared) {
    let s = samples::typical();
    for octets in [65_507, 65_508] {
        let mut datagram = s.datagram.clone();
        datagram.resize(octets, 0);
        compared.reading(&datagram);
        let _ = compared.writing(&s.header, octets - s.octets, 8192);
    }
    let _ = compared.writing(&s.header, usize::MAX, 8192);
}

/// Every month and day of those, and numbers that are none.
fn dates() -> impl Iterator<Item = Date> {
    let days = |year, month| (0..34).map(move |day| Date { year, month, day });
    YEARS.into_iter().flat_map(move |year| (0..18).flat_map(move |month| days(year, month)))
}

/// Each of them in a datagram, in a record, in a key and in a row.
fn every_date(compared: &mut Compared) {
    let (s, table) = (samples::typical(), samples::almost_empty());
    let (mut header, mut key, mut held) = (s.header, samples::first_key(), table.clone());
    for date in dates() {
        header.blocks.list[0].times.origin.stamp.dtg.date = date;
        key.stamp.dtg.date = date;
        held.rows[0].key.stamp.dtg.date = date;
        compared.reading(&samples::dated(&date));
        let _ = compared.writing(&header, s.count, 8192);
        compared.call(&table, &Call::Post(&header, 1, s.count));
        compared.call(&table, &Call::Release(&key));
        compared.call(&held, &Call::Release(&key));
        compared.row(&held, 1, 4096);
    }
}

/// A few bits flipped, the end cut off, or octets put behind.
fn mutated(datagram: &[u8], random: &mut Random) -> Vec<u8> {
    let mut octets = datagram.to_vec();
    match random.below(4) {
        0 => octets.truncate(random.below(datagram.len() + 1)),
        1 => octets.resize(datagram.len() + 1 + random.below(9), 0),
        _ => {
            for _ in 0..1 + random.below(3) {
                octets[random.below(datagram.len())] ^= 1 << random.below(8);
            }
        }
    }
    octets
}

/// A random record, spoiled every other time; and what it is written as, whole and mutated.
fn random_record(compared: &mut Compared, random: &mut Random) {
    let (mut h, count) = draft::header(random);
    if random.once_in(2) {
        draft::spoil(&mut h, random);
    }
    let room = if random.once_in(8) { random.below(64) } else { 8192 };
    let Ok(octets) = compared.writing(&h, count, room) else { return };
    let mut datagram = vec![0; 8192];
    fast::write(&h, count, &mut datagram).expect("written before");
    datagram.truncate(octets);
    datagram.resize(octets + count, 0x5a);
    compared.reading(&datagram);
    (0..3).for_each(|_| compared.reading(&mutated(&datagram, random)));
}

/// A record in which one to three rules are broken or sizes wrong: checked, written, and posted. The data mostly goes
/// with the sizes as they then are.
fn broken_record(compared: &mut Compared, t: &Table, random: &mut Random) {
    let (mut h, before) = draft::header(random);
    (0..1 + random.below(3)).for_each(|_| draft::break_rule(&mut h, random));
    let sizes = h.blocks.list[..h.blocks.count as usize].iter().map(|b| b.handling.size);
    let sum = sizes.filter(|size| size.present).map(|size| size.value as usize).sum();
    let count = if random.once_in(4) { before } else { sum };
    let _ = compared.writing(&h, count, 8192);
    compared.call(t, &Call::Post(&h, 1, count));
}

/// One random call on a table: the table afterwards.
fn random_call(compared: &mut Compared, t: &Table, random: &mut Random) -> Box<Table> {
    let (mut h, count) = draft::header(random);
    let mut key = draft::key(random);
    if t.count > 0 && random.once_in(2) {
        let row = &t.rows[random.below((t.count as usize).min(32))];
        key = row.key;
        draft::aim(&mut h, row, random);
    }
    if random.once_in(8) {
        draft::spoil(&mut h, random);
        draft::spoil_key(&mut key, random);
    }
    let number = if random.once_in(4) { random.below(4) as u32 } else { h.blocks.count };
    let answers = h.blocks.list[(number as usize).clamp(1, 16) - 1].response.present;
    let call = match random.below(8) {
        0 => Call::Release(&key),
        1 => Call::Post(&h, number, count),
        2 => Call::Receipt(&h, number, count),
        _ if answers => Call::Receipt(&h, number, count),
        _ => Call::Post(&h, number, count),
    };
    compared.call(t, &call)
}

/// Random calls in turn on a table that grows, and others on spoiled copies of it.
fn random_table(compared: &mut Compared, random: &mut Random) {
    let mut t = Box::new(Table::empty());
    for _ in 0..CALLS_EACH {
        t = random_call(compared, &t, random);
        compared.row(&t, random.below(34) as u32, random.below(400));
        let mut spoiled = t.clone();
        draft::spoil_table(&mut spoiled, random);
        random_call(compared, &spoiled, random);
        compared.row(&spoiled, random.below(4) as u32, 4096);
    }
    compared.listing(&t);
}

/// Asserts that all agree and that every refusal was met, and says over how many inputs.
pub fn run() {
    let mut random = Random(0x2045_4700_1c00_0002);
    let filled = [Box::new(fast::NO_HEADER), Box::new(fast::NO_HEADER)];
    let lent = Box::new(fast::NO_HEADER);
    let mut compared =
        Compared { lent, filled, datagrams: 0, records: 0, calls: 0, met: Vec::new() };
    measured(&mut compared);
    longest(&mut compared);
    every_date(&mut compared);
    (0..RECORDS).for_each(|_| random_record(&mut compared, &mut random));
    (0..TABLES).for_each(|_| random_table(&mut compared, &mut random));
    let table = samples::almost_empty();
    (0..BROKEN).for_each(|_| broken_record(&mut compared, &table, &mut random));
    for number in NUMBERS {
        let met = compared.met.iter().any(|refusal| refusal.number == number);
        assert!(met, "refusal {number} was not met");
    }
    for number in BLAMED {
        let met = compared.met.iter().any(|refusal| refusal.number == number && refusal.block > 1);
        assert!(met, "refusal {number} was not met in a later block");
    }
    println!(
        "proved and fast, by fragments and by words, agree on {} records, {} datagrams and {} calls on tables, \
         measured and random ones; every refusal was met",
        compared.records, compared.datagrams, compared.calls
    );
}
