//! How often each call gave each refusal, and what a run has to have seen.

use std::ops::Range;

use reference::Refusal;

use crate::calendar::Days;

/// The calls of the product that can be refused.
#[derive(Clone, Copy)]
pub enum Kind {
    Read,
    Check,
    Write,
    Post,
    Receipt,
    Release,
    ListRow,
    /// The calls on whole records of octets are counted by themselves.
    OctetsCheck,
    OctetsWrite,
    OctetsPost,
    OctetsReceipt,
    /// And those on whole tables of octets.
    TablePost,
    TableReceipt,
    TableRelease,
    TableListRow,
}

/// Refusals of a record's fields, the rules (a) to (i), and the sizes that a record can have wrong.
const FIELDS: &[u32] = &[2, 3, 4, 5, 6];
const RULES: &[u32] = &[41, 42, 43, 44, 45, 46, 47, 48, 49];
const SIZES: &[u32] = &[52, 53, 54];

/// The refusals of a call, in parts.
type Parts = &'static [&'static [u32]];

const READ: Parts = &[&[1], FIELDS, &[7, 9], RULES, &[51], SIZES, &[12]];
const CHECK: Parts = &[FIELDS, RULES, SIZES, &[12]];
const WRITE: Parts = &[FIELDS, RULES, SIZES, &[11, 12]];
const POST: Parts = &[FIELDS, RULES, SIZES, &[12, 20, 21, 22, 23, 29, 30]];
const RECEIPT: Parts = &[FIELDS, RULES, SIZES, &[12, 24, 25, 26, 27, 28, 29, 30]];
const RELEASE: Parts = &[&[3, 4, 6, 26, 30]];
const LIST_ROW: Parts = &[&[11, 30]];

/// Each call's name, and the refusals that it can give.
const KINDS: [(&str, Parts); 15] = [
    ("read", READ),
    ("check", CHECK),
    ("write", WRITE),
    ("post", POST),
    ("receipt", RECEIPT),
    ("release", RELEASE),
    ("list_row", LIST_ROW),
    ("check_octets", CHECK),
    ("write_octets", WRITE),
    ("post_octets", POST),
    ("receipt_octets", RECEIPT),
    ("post, table", POST),
    ("receipt, table", RECEIPT),
    ("release, table", RELEASE),
    ("list_row, table", LIST_ROW),
];

/// Done, and every refusal.
const NUMBERS: [u32; 35] = [
    0, 1, 2, 3, 4, 5, 6, 7, 9, 11, 12, 20, 21, 22, 23, 24, 25, 26, 27, 28, 29, 30, 41, 42, 43, 44,
    45, 46, 47, 48, 49, 51, 52, 53, 54,
];

/// The calls that take a record or a key, and those that take a table.
const DATED: &[Kind] =
    &[Kind::Read, Kind::Check, Kind::Write, Kind::Post, Kind::Receipt, Kind::Release];
const TABLED: &[Kind] = &[Kind::Post, Kind::Receipt, Kind::Release, Kind::ListRow];

/// What answers have to say about days that hang on their month, in the order of `Days`, and of which calls.
const DAYS: [(&str, &[Kind]); 3] = [
    ("a day that only its month forbids, refused with 3", DATED),
    ("such a day in a row, refused with 30", TABLED),
    ("done with a 29 February", DATED),
];

/// 0 stands for done, which every call can be.
fn possible(kind: usize, number: u32) -> bool {
    number == 0 || KINDS[kind].1.iter().any(|part| part.contains(&number))
}

/// Whether the number tells a message block; 46 tells block 0 where the header's own size is lacking.
fn names_block(number: u32) -> bool {
    RULES.contains(&number) || number == 53 || number == 54
}

/// Whether a refusal has the block and the place that its number tells. Places are told by a reading alone.
fn points_right(kind: Kind, refusal: Refusal) -> bool {
    let Refusal { number, place, block } = refusal;
    let first = u32::from(names_block(number) && number != 46);
    let last = if names_block(number) { 16 } else { 0 };
    let placed = matches!(kind, Kind::Read) && matches!(number, 1..=7 | 9);
    (first..=last).contains(&block) && (place == 0 || placed)
}

pub const LEAST: u64 = 50;

/// How often each version came up, in what was taken and in what was refused; any other version stands first.
#[derive(Clone, Copy, Default)]
pub struct Versions {
    taken: [u64; 3],
    refused: [u64; 3],
}

impl Versions {
    pub fn note(&mut self, version: u32, taken: bool) {
        let counts = if taken { &mut self.taken } else { &mut self.refused };
        counts[if version == 1 || version == 2 { version as usize } else { 0 }] += 1;
    }

    fn add(&mut self, other: &Versions) {
        for (sums, counts) in [(&mut self.taken, &other.taken), (&mut self.refused, &other.refused)]
        {
            sums.iter_mut().zip(counts).for_each(|(sum, n)| *sum += n);
        }
    }

    fn print(&self, what: &str) {
        let words =
            |c: &[u64; 3]| format!("{} of version 1, {} of 2, {} of others", c[1], c[2], c[0]);
        println!("{what} taken: {}; refused: {}", words(&self.taken), words(&self.refused));
    }

    /// Each version has at least 4 of 10, in what was taken and in what was refused.
    fn shares_equal(&self) -> bool {
        [self.taken, self.refused].iter().all(|c| 10 * c[1].min(c[2]) >= 4 * (c[1] + c[2]))
    }
}

/// How often a number came up with no block, with the first and with a later one.
type Blocks = [u64; 3];

/// What a line of the counts is about: all answers with a number, or those about no block or about a later one.
#[derive(Clone, Copy)]
enum Part {
    All,
    Header,
    Later,
}

#[derive(Clone, Copy)]
struct Line {
    number: u32,
    part: Part,
}

/// Each number, and behind it the blocks that have to come up for it.
fn lines() -> Vec<Line> {
    let mut lines = Vec::new();
    for number in NUMBERS {
        lines.push(Line { number, part: Part::All });
        if number == 46 {
            lines.push(Line { number, part: Part::Header });
        }
        if names_block(number) {
            lines.push(Line { number, part: Part::Later });
        }
    }
    lines
}

impl Line {
    fn label(&self) -> String {
        match (self.number, self.part) {
            (0, _) => "done".to_string(),
            (number, Part::All) => number.to_string(),
            (number, Part::Header) => format!("{number}, header"),
            (number, Part::Later) => format!("{number}, later"),
        }
    }

    fn of(&self, blocks: &Blocks) -> u64 {
        match self.part {
            Part::All => blocks.iter().sum(),
            Part::Header => blocks[0],
            Part::Later => blocks[2],
        }
    }
}

/// The counts of a call, by number.
type Seen = [Blocks; 55];

pub struct Tally {
    seen: [Seen; KINDS.len()],
    days: [[u64; KINDS.len()]; DAYS.len()],
    /// Of the records that were checked, and of the datagrams that were read.
    pub record_versions: Versions,
    pub datagram_versions: Versions,
    /// Records of version 1 with a standard version, which it does not have.
    pub needless_standards: u64,
    pub records: u64,
    /// Whole records of octets.
    pub octets: u64,
    /// Whole tables of octets.
    pub tables: u64,
    pub datagrams: u64,
    pub calls: u64,
    pub rows: u64,
    pub programs: u64,
}

impl Tally {
    pub fn new() -> Tally {
        let seen = [[[0; 3]; 55]; KINDS.len()];
        let (records, octets, tables, datagrams) = (0, 0, 0, 0);
        let (record_versions, datagram_versions) = (Versions::default(), Versions::default());
        Tally {
            seen,
            days: [[0; KINDS.len()]; DAYS.len()],
            record_versions,
            datagram_versions,
            needless_standards: 0,
            records,
            octets,
            tables,
            datagrams,
            calls: 0,
            rows: 0,
            programs: 0,
        }
    }

    /// Adds another run's counts.
    pub fn add(&mut self, other: &Tally) {
        let sums = self.seen.iter_mut().flatten().flatten();
        sums.zip(other.seen.iter().flatten().flatten()).for_each(|(sum, n)| *sum += n);
        let sums = self.days.iter_mut().flatten();
        sums.zip(other.days.iter().flatten()).for_each(|(sum, n)| *sum += n);
        self.record_versions.add(&other.record_versions);
        self.datagram_versions.add(&other.datagram_versions);
        self.needless_standards += other.needless_standards;
        self.records += other.records;
        self.octets += other.octets;
        self.tables += other.tables;
        self.datagrams += other.datagrams;
        self.calls += other.calls;
        self.rows += other.rows;
        self.programs += other.programs;
    }

    pub fn inputs(&self) -> u64 {
        self.records + self.datagrams + self.calls
    }

    /// Notes an answer. A number that the call cannot give, or one with a block or a place that it does not tell, is a
    /// difference even where both programs agree.
    pub fn note<T>(&mut self, kind: Kind, told: &Result<T, Refusal>) -> Result<(), String> {
        let refusal = told.as_ref().err().copied().unwrap_or(Refusal::new(0));
        let (name, number) = (KINDS[kind as usize].0, refusal.number);
        if !possible(kind as usize, number) {
            return Err(format!("{name} was refused with {number}, which is none of its refusals"));
        }
        if !points_right(kind, refusal) {
            return Err(format!("{name} gives {refusal:?}, which its number does not tell"));
        }
        self.seen[kind as usize][number as usize][refusal.block.min(2) as usize] += 1;
        Ok(())
    }

    /// Notes what an answer says about days that hang on their month.
    pub fn note_days(&mut self, kind: Kind, days: Option<Days>) {
        days.into_iter().for_each(|days| self.days[days as usize][kind as usize] += 1);
    }

    /// The calls on records and on tables as octets behind the others, in tables of their own.
    pub fn print(&self) {
        let (records, tables) = (Kind::OctetsCheck as usize, Kind::TablePost as usize);
        for (kinds, wide) in [(0..records, 10), (records..tables, 16), (tables..KINDS.len(), 16)] {
            let names = KINDS[kinds.clone()].iter().map(|(name, _)| format!("{name:>wide$}"));
            println!("{:<12}{}{:>wide$}", "refusal", names.collect::<String>(), "all");
            lines().iter().for_each(|line| self.print_line(line, kinds.clone(), wide));
        }
        self.print_days();
        self.record_versions.print("records");
        self.datagram_versions.print("datagrams");
        println!("records of version 1 with a standard version: {}", self.needless_standards);
    }

    fn print_line(&self, line: &Line, kinds: Range<usize>, wide: usize) {
        let mut text = format!("{:<12}", line.label());
        let mut all = 0;
        for kind in kinds {
            let count = line.of(&self.seen[kind][line.number as usize]);
            all += count;
            let cell = if possible(kind, line.number) { count.to_string() } else { "-".into() };
            text += &format!("{cell:>wide$}");
        }
        println!("{text}{all:>wide$}");
    }

    /// The calls of one of `DAYS`, each by its name and with its count.
    fn days_by_call(&self, which: usize) -> impl Iterator<Item = (&str, u64)> {
        let counts = &self.days[which];
        DAYS[which].1.iter().map(|kind| (KINDS[*kind as usize].0, counts[*kind as usize]))
    }

    fn print_days(&self) {
        for (which, (what, _)) in DAYS.iter().enumerate() {
            let counts = self.days_by_call(which).map(|(name, count)| format!("{name} {count}"));
            println!("{what}: {}", counts.collect::<Vec<_>>().join(", "));
        }
    }

    fn lacking_days(&self) -> Vec<String> {
        let mut lacking = Vec::new();
        for (which, (what, _)) in DAYS.iter().enumerate() {
            let seldom = self.days_by_call(which).filter(|(_, count)| *count < LEAST);
            lacking.extend(seldom.map(|(name, count)| format!("{name} {what}: {count} times")));
        }
        lacking
    }

    /// Done and every refusal that came up too seldom, call by call; and those that seldom told a block behind the
    /// first, or the lacking header size.
    pub fn lacking(&self) -> Vec<String> {
        let mut lacking = Vec::new();
        for (kind, seen) in self.seen.iter().enumerate() {
            for line in lines().iter().filter(|line| possible(kind, line.number)) {
                let count = line.of(&seen[line.number as usize]);
                if count < LEAST {
                    lacking.push(format!("{} {}: {count} times", KINDS[kind].0, line.label()));
                }
            }
        }
        if !self.record_versions.shares_equal() || !self.datagram_versions.shares_equal() {
            lacking.push("the versions' shares are not equal".to_string());
        }
        if self.needless_standards < LEAST {
            lacking.push("records of version 1 with a standard version".to_string());
        }
        lacking.extend(self.lacking_days());
        lacking
    }
}
