//! Whether the comparison can fail at all: answers that were damaged on purpose have to be reported, and those left
//! alone must not be.

use std::mem::{offset_of, size_of};

use pruvelaccio::raw::{Answer, SizeAnswer};
use pruvelaccio::{Header, RecordOctets, TableOctets, TABLE};
use reference::{Board, Refusal};

use crate::fenced::{Fenced, Side};
use crate::headers::{same_octets, same_reading, same_size};
use crate::images;
use crate::laid;
use crate::pool::{self, Pool};
use crate::program::same_output;
use crate::random::Random;
use crate::tables::same_table;
use crate::tally::{Kind, Tally};

/// A message from URN 207 to URN 3 with an octet of data.
const DATAGRAM: [u8; 17] =
    [0xE2, 0x67, 0, 0, 0x1D, 0, 0, 0, 1, 0, 0xC1, 0x37, 0xE0, 0x76, 0x33, 0, 1];

/// How many damaged answers were tried; an error names one that passed.
pub fn run() -> Result<usize, String> {
    let readings = [readings(), refused_readings(), refused_for_a_block()];
    let others = [sizes(), tables(), images(), fences(), counts()];
    let mut damaged = 0;
    for (name, reported, outcome) in readings.into_iter().chain(others).flatten() {
        if outcome.is_err() != reported {
            return Err(format!("self-check: {name} gives {outcome:?}"));
        }
        damaged += usize::from(reported);
    }
    Ok(damaged)
}

/// A name, whether a difference has to be reported, and what was.
type Tried = (&'static str, bool, Result<(), String>);

fn with<T: Copy>(from: &T, change: fn(&mut T)) -> T {
    let mut answer = *from;
    change(&mut answer);
    answer
}

/// Octets that were there before a reading.
const BEFORE: [u8; pruvelaccio::RECORD] = [0xA5; pruvelaccio::RECORD];

/// The record with an octet changed at an offset.
fn spoiled(record: &RecordOctets, offset: usize) -> RecordOctets {
    let mut changed = *record;
    changed.octets_mut()[offset] ^= 1;
    changed
}

fn readings() -> Vec<Tried> {
    let plain = reference::read(&DATAGRAM);
    let before = RecordOctets::from(BEFORE);
    let after = plain.as_ref().map_or(before, |(record, _)| laid::alone(record));
    let good = SizeAnswer { number: 0, block: 0, place: 0, length: 16 };
    let of = |change| same_reading(&plain, &before, &with(&good, change), &after);
    let at = |offset| same_reading(&plain, &before, &good, &spoiled(&after, offset));
    let last = pruvelaccio::RECORD - 1;
    vec![
        ("a reading", false, of(|_| {})),
        ("its number", true, of(|a| a.number = 1)),
        ("its place", true, of(|a| a.place = 1)),
        ("its block", true, of(|a| a.block = 1)),
        ("its length", true, of(|a| a.length = 15)),
        ("a used number", true, at(offset_of!(Header, front.originator.address.urn.value))),
        ("a used flag", true, at(offset_of!(Header, front.originator.present))),
        ("an unused flag", true, at(offset_of!(Header, front.information.present))),
        ("an unused character", true, at(offset_of!(Header, front.originator.address.name.text))),
        ("an octet between the cells", true, at(offset_of!(Header, sized) + 3)),
        ("the last octet", true, at(last)),
        ("the record as it was", true, same_reading(&plain, &before, &good, &before)),
    ]
}

/// Three octets end inside the URN, which begins at bit 7.
fn refused_readings() -> Vec<Tried> {
    let plain = reference::read(&DATAGRAM[..3]);
    let before = RecordOctets::from(BEFORE);
    let good = SizeAnswer { number: 1, block: 0, place: 7, length: 0 };
    let of = |change| same_reading(&plain, &before, &with(&good, change), &before);
    let at = |offset| same_reading(&plain, &before, &good, &spoiled(&before, offset));
    let cleared = same_reading(&plain, &before, &good, &RecordOctets::zero());
    vec![
        ("a refused reading", false, of(|_| {})),
        ("its place too far", true, of(|a| a.place = 8)),
        ("a block beside it", true, of(|a| a.block = 1)),
        ("another refusal", true, of(|a| a.number = 3)),
        ("a length beside it", true, of(|a| a.length = 3)),
        ("the first octet beside it", true, at(0)),
        ("an octet between the cells beside it", true, at(offset_of!(Header, sized) + 1)),
        ("a cleared record beside it", true, cleared),
    ]
}

/// The message has no data: its one block is told.
fn refused_for_a_block() -> Vec<Tried> {
    let plain = reference::read(&DATAGRAM[..16]);
    let before = RecordOctets::from(BEFORE);
    let good = SizeAnswer { number: 53, block: 1, place: 0, length: 0 };
    let of = |change| same_reading(&plain, &before, &with(&good, change), &before);
    vec![
        ("a reading refused for a block", false, of(|_| {})),
        ("another block", true, of(|a| a.block = 2)),
        ("no block", true, of(|a| a.block = 0)),
        ("its place beside the block", true, of(|a| a.place = 1)),
        ("another number of the block", true, of(|a| a.number = 54)),
    ]
}

/// Octets beside those that are lent, at either end.
fn fences() -> Vec<Tried> {
    let beside = |side, offset: isize| {
        let mut fenced = Fenced::new(8);
        fenced.hold(&[1; 8], side);
        let octet = fenced.lent_mut().as_mut_ptr().wrapping_offset(offset);
        // SAFETY: the octet is one of the fenced page, of which eight are lent.
        unsafe { *octet ^= 1 };
        fenced.intact()
    };
    vec![
        ("a lent octet at the front", false, beside(Side::Front, 0)),
        ("a lent octet at the back", false, beside(Side::Back, 7)),
        ("an octet behind those at the front", true, beside(Side::Front, 8)),
        ("the octet in front of those at the back", true, beside(Side::Back, -1)),
    ]
}

fn sizes() -> Vec<Tried> {
    let told = |number, block, place, length| SizeAnswer { number, block, place, length };
    let done = |answer| same_size("check", Ok(5), answer);
    let refused = |answer| same_size("check", Err(Refusal::in_block(54, 3)), answer);
    vec![
        ("a size", false, done(told(0, 0, 0, 5))),
        ("another size", true, done(told(0, 0, 0, 6))),
        ("a block beside a size", true, done(told(0, 1, 0, 5))),
        ("a refusal for a size", true, done(told(11, 0, 0, 0))),
        ("a refusal", false, refused(told(54, 3, 0, 0))),
        ("its number", true, refused(told(53, 3, 0, 0))),
        ("its block", true, refused(told(54, 2, 0, 0))),
        ("no block", true, refused(told(54, 0, 0, 0))),
        ("its place", true, refused(told(54, 3, 1, 0))),
        ("its size", true, refused(told(54, 3, 0, 5))),
        ("a size for a refusal", true, refused(told(0, 0, 0, 5))),
        ("octets", false, same_octets("write", &[1, 2, 3], &[1, 2, 3])),
        ("the last octet", true, same_octets("write", &[1, 2, 3], &[1, 2, 4])),
        ("an octet less", true, same_octets("write", &[1, 2, 3], &[1, 2])),
        ("printed text", true, same_output("worked out", b"rows 0\n", b"rows 0")),
    ]
}

/// The answer of a call on the table, and every octet after it: those of a cell, of an unused one, of an unused row,
/// between the cells, the last.
fn tables() -> Vec<Tried> {
    let mut random = Random::new(1);
    let pool = Pool::new(&mut random);
    let plain: Board = pool::table(&pool, 31, &mut random);
    let table = laid::table_alone(&plain);
    let (told, good) = (Err(Refusal::new(26)), Answer { number: 26, block: 0, place: 0 });
    let of = |change| same_table(told, &table, with(&good, change), &table);
    let (blamed, fourth) =
        (Err(Refusal::in_block(46, 4)), Answer { number: 46, block: 4, place: 0 });
    let of_block = |change| same_table(blamed, &table, with(&fourth, change), &table);
    let at = |offset: usize| {
        let mut after = table;
        after.octets_mut()[offset] ^= 1;
        same_table(told, &table, good, &after)
    };
    let row = size_of::<pruvelaccio::Row>();
    let (key, asked) = (offset_of!(pruvelaccio::Row, key), offset_of!(pruvelaccio::Row, asked));
    vec![
        ("a call", false, of(|_| {})),
        ("its number", true, of(|a| a.number = 0)),
        ("its place", true, of(|a| a.place = 1)),
        ("its block", true, of(|a| a.block = 1)),
        ("a call refused for a block", false, of_block(|_| {})),
        ("another block", true, of_block(|a| a.block = 3)),
        ("no block", true, of_block(|a| a.block = 0)),
        ("a key", true, at(7 * row + key)),
        ("a request", true, at(30 * row + asked)),
        ("an octet between the cells", true, at(asked + 3)),
        ("an unused row", true, at(31 * row)),
        ("the count", true, at(offset_of!(pruvelaccio::Table, count))),
        ("the last octet", true, at(TABLE - 1)),
    ]
}

/// What a call leaves: images that are wrong in one thing have to differ from those that are right.
fn images() -> Vec<Tried> {
    let mut random = Random::new(2);
    let pool = Pool::new(&mut random);
    let plain: Board = pool::table(&pool, 8, &mut random);
    let (mut less, mut settled) = (plain.clone(), plain.clone());
    less.rows.remove(3);
    settled.rows[5].recipients[0].reply ^= 7;
    let alone = |board: &Board| laid::table_alone(board);
    let leads =
        |from: &Board, to: &Board| same_after(&images::after(&alone(from), from, to), &alone(to));
    vec![
        ("a release", false, leads(&plain, &less)),
        ("a posting", false, leads(&less, &plain)),
        ("a receipt", false, leads(&plain, &settled)),
        ("a refusal", false, leads(&plain, &plain)),
        ("a row too many", true, same_after(&alone(&plain), &alone(&less))),
        ("a code too many", true, same_after(&alone(&plain), &alone(&settled))),
    ]
}

fn same_after(expected: &TableOctets, after: &TableOctets) -> Result<(), String> {
    same_table(Ok(()), expected, Answer { number: 0, block: 0, place: 0 }, after)
}

fn counts() -> Vec<Tried> {
    let mut tally = Tally::new();
    let lacking = if tally.lacking().is_empty() { Ok(()) } else { Err(String::new()) };
    let mut note = |kind, refusal| tally.note(kind, &Err::<(), Refusal>(refusal));
    vec![
        ("a refusal that a call can give", false, note(Kind::Release, Refusal::new(26))),
        ("one that it cannot", true, note(Kind::Release, Refusal::new(5))),
        ("one that is no more", true, note(Kind::Check, Refusal::new(8))),
        ("a reading's alone", true, note(Kind::Check, Refusal::new(51))),
        ("a block that is told", false, note(Kind::Check, Refusal::in_block(46, 16))),
        ("the lacking header size", false, note(Kind::Check, Refusal::new(46))),
        ("a block behind the last", true, note(Kind::Check, Refusal::in_block(46, 17))),
        ("a block that is not told", true, note(Kind::Check, Refusal::new(47))),
        ("a block that nobody tells", true, note(Kind::Read, Refusal::in_block(52, 1))),
        ("a place that is told", false, note(Kind::Read, Refusal::at(9, 33))),
        ("a place that nobody tells", true, note(Kind::Check, Refusal::at(3, 33))),
        ("nothing seen", true, lacking),
    ]
}

#[cfg(test)]
mod tests {
    use super::*;
    use crate::calendar::{self, Days};
    use crate::cells::{Cell, Cells, Places};
    use crate::convert;
    use crate::damage::LATE_DAYS;
    use crate::tally::LEAST;
    use pruvelaccio::{KeyOctets, Table};

    /// Changes the k-th cell; false behind the last one.
    fn change<T: Cells>(cells: &mut T, k: usize) -> bool {
        let mut i = 0;
        cells.each(0, &mut |_, cell| {
            if i == k {
                match cell {
                    Cell::Flag(flag) => *flag = !*flag,
                    Cell::Number(number) => *number ^= 1 << 31,
                    Cell::Char(character) => *character ^= 128,
                }
            }
            i += 1;
        });
        k < i
    }

    /// Every one of the first cells, then every `step`-th, is seen to differ.
    fn every_cell_counts<T: Cells>(step: usize) {
        let mut k = 0;
        let mut changed = T::ZERO;
        while change(&mut changed, k) {
            assert!(changed.difference(&T::ZERO).is_some(), "cell {k}");
            change(&mut changed, k);
            assert!(changed.difference(&T::ZERO).is_none(), "cell {k}");
            k += step;
        }
        assert!(k > 1000);
    }

    #[test]
    fn every_cell_of_a_header_counts() {
        every_cell_counts::<Header>(1);
    }

    #[test]
    fn every_cell_of_a_table_counts() {
        every_cell_counts::<Table>(11);
    }

    #[test]
    fn damaged_answers_are_reported() {
        assert!(run().unwrap() > 25);
    }

    #[test]
    fn a_panic_is_reported() {
        let stopped = crate::run::caught(|| -> Result<(), String> { panic!("on {}", "purpose") });
        assert_eq!(stopped, Err("a panic: on purpose".to_string()));
    }

    /// What is laid over rubbish comes back as it was; and over zeros the octets are those of the wrapper's struct.
    #[test]
    fn tables_there_and_back() {
        let mut random = Random::new(2);
        let rubbish = crate::rubbish::Rubbish::new(&mut random);
        for rows in 0..=32 {
            let pool = Pool::new(&mut random);
            let plain = pool::table(&pool, rows, &mut random);
            assert!(reference::well_formed(&plain));
            let table = rubbish.table(&plain, &mut random);
            assert_eq!(crate::taken::table(&table), plain);
            let alone = laid::table_alone(&plain);
            assert!(alone == TableOctets::from(&Table::from(&alone)));
        }
    }

    #[test]
    fn keys_there_and_back() {
        let mut random = Random::new(6);
        let rubbish = crate::rubbish::Rubbish::new(&mut random);
        let pool = Pool::new(&mut random);
        for _ in 0..500 {
            let plain = pool.key(&mut random);
            assert_eq!(crate::taken::key(&rubbish.key(&plain, &mut random)), plain);
            let mut alone = KeyOctets::zero();
            laid::key(&plain, &mut alone, 0);
            assert_eq!(crate::taken::key(&alone), plain);
        }
    }

    /// A table with too many rows, or a row with too many recipients, is taken as one that is refused.
    #[test]
    fn tables_that_pass_their_arrays() {
        let table = TableOctets::from([0x02; TABLE]);
        assert_eq!(crate::taken::table(&table).rows.len(), 33);
        let mut one = table;
        laid::rows(1, &mut one);
        let rows = crate::taken::table(&one).rows;
        assert_eq!((rows.len(), rows[0].recipients.len()), (1, 17));
        assert_eq!(rows[0].key.address.name.as_ref().map(Vec::len), Some(65));
    }

    /// What is laid into octets comes back as it was, over zeros and over rubbish; and over zeros the octets are those
    /// of the wrapper's struct.
    #[test]
    fn records_there_and_back() {
        let mut random = Random::new(5);
        for _ in 0..2000 {
            let record = crate::records::case(&mut random).record;
            let alone = laid::alone(&record);
            assert_eq!(crate::taken::header(&alone), record);
            let mut header = Header::ZERO;
            convert::header(&record, &mut header, 0);
            assert!(alone == RecordOctets::from(&header));
            let mut over = crate::rubbish::any_octets(&mut random);
            laid::over(&record, &mut over);
            assert_eq!(crate::taken::header(&over), record);
        }
    }

    /// A count that passes its array is held as one entry too many, and that is enough to be refused.
    #[test]
    fn counts_that_pass_their_arrays() {
        let record = RecordOctets::from([0x02; pruvelaccio::RECORD]);
        let header = crate::taken::header(&record);
        assert_eq!(header.version, 0x0202_0202);
        assert_eq!(header.blocks.len(), 17);
        assert_eq!(header.recipients.map(|list| list.len()), Some(17));
        let block = &header.blocks[16];
        assert_eq!(block.references.as_ref().map(Vec::len), Some(5));
        assert_eq!(block.file_name.as_ref().map(Vec::len), Some(65));
    }

    fn each_octet_once(places: &Places, octets: usize) -> bool {
        let mut held = vec![0; octets];
        places.flags.iter().chain(&places.characters).for_each(|at| held[*at] += 1);
        places.numbers.iter().for_each(|at| (*at..at + 4).for_each(|i| held[i] += 1));
        held.iter().all(|times| *times <= 1)
    }

    #[test]
    fn every_octet_of_a_table_is_of_one_cell_or_none() {
        let places = Places::of::<Table>();
        assert!(each_octet_once(&places, TABLE));
        assert_eq!(places.flags.len(), 32 * 38);
    }

    #[test]
    fn every_octet_of_a_record_is_of_one_cell_or_none() {
        let places = Places::of::<Header>();
        assert!(each_octet_once(&places, pruvelaccio::RECORD));
        assert_eq!(places.flags.len(), 7 + 32 * 2 + 16 * 31);
    }

    /// Each damage gives its own refusal by the second program alone.
    #[test]
    fn damages_have_their_refusals() {
        let mut random = Random::new(3);
        for damage in crate::damage::all() {
            for _ in 0..20 {
                let (case, refusal) = damage.case(&mut random);
                let plain = reference::check(&case.record, case.count);
                assert_eq!(plain, Err(refusal), "{}: {case:?}", damage.name);
            }
        }
    }

    #[test]
    fn days_of_every_month() {
        let year = |year| (1..=12).map(|month| calendar::days_in(year, month)).collect::<Vec<_>>();
        assert_eq!(year(1), [31, 28, 31, 30, 31, 30, 31, 31, 30, 31, 30, 31]);
        let leap = (0..100).filter(|year| calendar::days_in(*year, 2) == 29);
        assert_eq!(leap.collect::<Vec<_>>(), (0..25).map(|i| 4 * i).collect::<Vec<_>>());
    }

    /// A day that only its month forbids is told from all other faults.
    #[test]
    fn late_days_are_found() {
        let mut random = Random::new(7);
        for damage in crate::damage::all() {
            let late = LATE_DAYS.iter().any(|(name, _)| damage.name.ends_with(name));
            let (case, refusal) = damage.case(&mut random);
            let found = calendar::of_record(&case, &Err::<(), Refusal>(refusal));
            assert_eq!(matches!(found, Some(Days::Late)), late, "{}: {case:?}", damage.name);
        }
    }

    /// Keys beside a legal one are legal: no release refuses them with 3.
    #[test]
    fn nudged_keys_are_legal() {
        let mut random = Random::new(8);
        for _ in 0..2000 {
            let pool = Pool::new(&mut random);
            let mut key = pool.key(&mut random);
            pool::nudge(&mut key, &pool, &mut random);
            assert_eq!(reference::release(&mut Board::new(), &key), Err(Refusal::new(26)));
        }
    }

    /// Days are counted call by call.
    #[test]
    fn late_days_are_demanded() {
        let mut tally = Tally::new();
        for _ in 0..LEAST {
            tally.note_days(Kind::Post, Some(Days::Late));
            tally.note_days(Kind::Release, Some(Days::LateRow));
            tally.note_days(Kind::Read, Some(Days::Leap));
            tally.note_days(Kind::Check, None);
        }
        let lacks = |words: &str| tally.lacking().iter().any(|line| line.starts_with(words));
        assert!(lacks("check a day") && lacks("read a day") && !lacks("post a day"));
        assert!(lacks("post such a day") && !lacks("release such a day"));
        assert!(lacks("check done with") && !lacks("read done with"));
        assert!(lacks("list_row such a day") && !lacks("list_row a day"));
    }

    /// A number that came up for the first block alone is still lacking.
    #[test]
    fn later_blocks_are_demanded() {
        let mut tally = Tally::new();
        for _ in 0..LEAST {
            assert!(tally.note(Kind::Check, &Err::<(), _>(Refusal::in_block(46, 1))).is_ok());
        }
        let lacks = |words: &str| tally.lacking().iter().any(|line| line.starts_with(words));
        assert!(!lacks("check 46:"));
        assert!(lacks("check 46, later: 0") && lacks("check 46, header: 0"));
        assert!(lacks("read 51:") && !lacks("check 51:"));
    }

    #[test]
    fn undamaged_records_are_valid() {
        let mut random = Random::new(4);
        for _ in 0..2000 {
            let case = crate::records::case(&mut random);
            assert!(reference::check(&case.record, case.count).is_ok(), "{case:?}");
            let case = crate::records::rich(&mut random);
            assert!(reference::check(&case.record, case.count).is_ok(), "{case:?}");
            let case = crate::records::several(&mut random);
            assert!(reference::check(&case.record, case.count).is_ok(), "{case:?}");
        }
    }
}
