//! Days and their months: what is taken, and where the rest is refused.

use super::*;

/// The last day of a month, found in another way than the library finds it.
pub fn last_day(year: u32, month: u32) -> u32 {
    let leap = (0..100).step_by(4).any(|y| y == year);
    match month {
        4 | 6 | 9 | 11 => 30,
        2 if leap => 29,
        2 => 28,
        1..=12 => 31,
        _ => panic!("month {month}"),
    }
}

fn on(year: u32, month: u32, day: u32) -> Dtg {
    Dtg { year, month, day, ..dtg() }
}

fn at_time(d: &Dtg) -> Stamp {
    Stamp { dtg: d.clone(), extension: None }
}

/// A record with a time in one of its groups, the octets of data that go with
/// it, and the place of the day's first bit in version 2.
struct Carrier {
    group: &'static str,
    h: Header,
    count: u64,
    place: usize,
}

fn carrier(group: &'static str, count: u64, place: usize, put: impl FnOnce(&mut Block)) -> Carrier {
    let mut h = plain_header();
    put(&mut h.blocks[0]);
    Carrier { group, h, count, place }
}

/// One record for each place where a time can stand. In all of them G5's
/// presence bit is bit 27, and with no group set G6's to G9's are 28 to 31. A
/// day stands 12 bits behind the presence bit in front: year 7 and month 4
/// between them. Before the time in G9 there are the recurrence bit, two
/// indicators and 24 bits of number as well; an entry before it has these 27
/// bits, 33 of time and 1 for no extension.
fn carriers(d: &Dtg) -> Vec<Carrier> {
    let mut all = vec![
        carrier("G5", 1, 39, |b| b.stamp = Some(at_time(d))),
        carrier("G6", 1, 40, |b| b.perishable = Some(d.clone())),
        carrier("G8", 0, 42, |b| b.response = Some(response(at_time(d), 1))),
    ];
    for before in 0..4 {
        let mut list = vec![reference(40); before];
        list.push(Reference { address: urn(41), stamp: at_time(d) });
        all.push(carrier("G9", 1, 70 + 61 * before, |b| b.references = Some(list)));
    }
    all
}

/// Reads and writes the time in each group and in both versions. The place is
/// the one of version 2; in version 1 there is one bit less in front.
fn assert_each(d: &Dtg, expected: impl Fn(usize) -> Option<Refusal>) {
    for c in carriers(d) {
        for (h, place) in [(c.h.clone(), c.place), (old(&c.h), c.place - 1)] {
            let what = format!("{} version {} {d:?}", c.group, h.version);
            let header = by_hand::header_octets(&h);
            let datagram = with_data(&header, &vec![0x5A; c.count as usize]);
            match expected(place) {
                None => {
                    assert_eq!(check(&h, c.count), Ok(header.len()), "{what}");
                    assert_eq!(read(&datagram), Ok((h, header.len())), "{what}");
                }
                Some(refusal) => {
                    assert_eq!(check(&h, c.count), Err(only(3)), "{what}");
                    assert_eq!(read(&datagram), Err(refusal), "{what}");
                }
            }
        }
    }
}

/// A board with one row, put together without any call.
fn board_on(d: &Dtg) -> Board {
    let recipient = Recipient { address: urn(3), machine: 0, acknowledge: 0, reply: 0 };
    let key = Key { address: urn(207), stamp: at_time(d) };
    let row = Row { key, asked: requests(true, false, false), recipients: vec![recipient] };
    Board { rows: vec![row] }
}

fn posting(d: &Dtg) -> Header {
    message(urn(207), vec![urn(3)], at_time(d), requests(true, false, false))
}

fn answering(d: &Dtg) -> Header {
    answer(urn(3), urn(207), at_time(d), 1)
}

fn key_of(d: &Dtg) -> Key {
    Key { address: urn(207), stamp: at_time(d) }
}

fn assert_on_board(d: &Dtg, taken: bool) {
    let empty = Board::new();
    let held = board_on(d);
    assert_eq!(well_formed(&held), taken, "{d:?}");

    let mut board = empty.clone();
    let (posted, after) = if taken { (Ok(()), &held) } else { (Err(only(3)), &empty) };
    assert_eq!(post(&mut board, &posting(d), 1, 1), posted);
    assert_eq!(board, *after);

    // Nothing is held: a key that could be is not found, any other is refused
    // for what it is.
    let missing = Err(only(if taken { 26 } else { 3 }));
    let mut board = empty.clone();
    assert_eq!(receipt(&mut board, &answering(d), 1, 0), missing);
    assert_eq!(release(&mut board, &key_of(d)), missing);
    assert_eq!(board, empty);

    // The row is held already.
    let found = if taken { Ok(()) } else { Err(only(30)) };
    let again = Err(only(if taken { 22 } else { 30 }));
    let mut board = held.clone();
    assert_eq!(post(&mut board, &posting(d), 1, 1), again);
    assert_eq!(board, held);
    assert_eq!(receipt(&mut board, &answering(d), 1, 0), found);
    assert_eq!(board.rows[0].recipients[0].machine, taken as u32);
    assert_eq!(listing(&board, 0).map(|_| ()), found);
    assert_eq!(release(&mut board, &key_of(d)), found);
    assert_eq!(board.rows.is_empty(), taken);
}

/// All of the above for one date that is wrong, if at all, in its day.
fn assert_day(year: u32, month: u32, day: u32, taken: bool) {
    let d = on(year, month, day);
    assert_each(&d, |place| if taken { None } else { Some(at(3, place)) });
    assert_on_board(&d, taken);
}

/// The months from January on, in a year without leap day.
const LENGTHS: [u32; 12] = [31, 28, 31, 30, 31, 30, 31, 31, 30, 31, 30, 31];

#[test]
fn the_last_day_of_each_month_and_the_one_behind_it() {
    // Day 32 needs a sixth bit. A record can hold it; put into five bits by
    // hand it is day 0, which is refused at the same place.
    for year in [1, 2, 3, 97, 98, 99] {
        for month in 1..=12 {
            let last = LENGTHS[month as usize - 1];
            assert_day(year, month, last, true);
            assert_day(year, month, last + 1, false);
        }
    }
    for year in [0, 4, 52, 96] {
        for month in 1..=12 {
            let last = LENGTHS[month as usize - 1] + (month == 2) as u32;
            assert_day(year, month, last, true);
            assert_day(year, month, last + 1, false);
        }
    }
}

#[test]
fn the_first_day_of_each_month_and_the_one_before_it() {
    for month in 1..=12 {
        assert_day(96, month, 1, true);
        assert_day(96, month, 0, false);
        assert_day(95, month, 1, true);
        assert_day(95, month, 0, false);
    }
}

#[test]
fn single_dates() {
    assert_day(0, 2, 28, true);
    assert_day(0, 2, 29, true);
    assert_day(0, 2, 30, false);
    assert_day(4, 2, 29, true);
    assert_day(1, 2, 29, false);
    assert_day(2, 2, 29, false);
    assert_day(3, 2, 29, false);
    // Even, but no multiple of four.
    assert_day(10, 2, 29, false);
    assert_day(50, 2, 29, false);
    assert_day(96, 2, 29, true);
    assert_day(96, 2, 30, false);
    assert_day(98, 2, 29, false);
    assert_day(99, 2, 28, true);
    assert_day(99, 2, 29, false);
    assert_day(99, 2, 31, false);
    assert_day(99, 12, 31, true);
    assert_day(0, 1, 1, true);
    assert_day(0, 6, 31, false);
}

#[test]
fn the_30th_and_the_31st_of_each_month() {
    for year in [0, 1, 96, 99] {
        for month in 1..=12 {
            assert_day(year, month, 30, month != 2);
            let long = [1, 3, 5, 7, 8, 10, 12].contains(&month);
            assert_day(year, month, 31, long);
        }
    }
}

#[test]
fn all_bits_of_year_month_and_day() {
    let mut taken = 0;
    for year in 0..128 {
        for month in 0..16 {
            for day in 0..32 {
                let mut h = plain_header();
                h.blocks[0].perishable = Some(on(year, month, day));
                let got = read(&with_data(&by_hand::header_octets(&h), &[0]));
                // G6's presence bit is bit 28; then come the three of them.
                let place = if year > 99 {
                    29
                } else if month == 0 || month > 12 {
                    36
                } else if day == 0 || day > last_day(year, month) {
                    40
                } else {
                    taken += 1;
                    assert_eq!(check(&h, 1), Ok(9));
                    assert_eq!(got, Ok((h, 9)));
                    continue;
                };
                assert_eq!(got, Err(at(3, place)), "{year} {month} {day}");
                assert_eq!(check(&h, 1), Err(only(3)));
            }
        }
    }
    // A hundred years with a leap day in every fourth.
    assert_eq!(taken, 100 * 365 + 25);
}

#[test]
fn year_and_month_go_before_the_day() {
    // Eleven bits lie between the first bits of year and day, four between
    // those of month and day. A year of 100 would have a leap day.
    for (year, month, day, back) in [
        (100, 2, 29, 11),
        (100, 2, 30, 11),
        (127, 6, 31, 11),
        (100, 0, 0, 11),
        (96, 0, 31, 4),
        (96, 0, 0, 4),
        (96, 13, 31, 4),
        (96, 15, 1, 4),
    ] {
        let d = on(year, month, day);
        assert_each(&d, |place| Some(at(3, place - back)));
        assert_on_board(&d, false);
    }
}

#[test]
fn the_day_goes_before_the_hour() {
    // A wrong hour is five bits on, and told only behind a right day.
    for (year, month, day, on_to) in [(96, 6, 31, 0), (95, 2, 29, 0), (96, 2, 29, 5)] {
        let mut d = on(year, month, day);
        d.hour = 24;
        assert_each(&d, |place| Some(at(3, place + on_to)));
        assert_on_board(&d, false);
    }
}

#[test]
fn a_day_that_is_cut_off_runs_out() {
    // G5's day is bits 39 to 43: five octets hold one bit of it, six hold all.
    let mut h = plain_header();
    h.blocks[0].stamp = Some(at_time(&on(96, 6, 31)));
    let header = by_hand::header_octets(&h);
    assert_eq!(read(&header[..5]), Err(at(1, 39)));
    assert_eq!(read(&header[..6]), Err(at(3, 39)));
    // What is missing behind a right day is told at the hour.
    h.blocks[0].stamp = Some(at_time(&on(96, 6, 30)));
    let header = by_hand::header_octets(&h);
    assert_eq!(read(&header[..5]), Err(at(1, 39)));
    assert_eq!(read(&header[..6]), Err(at(1, 44)));
}

#[test]
fn the_worked_headers_on_other_days() {
    // B's year is bits 81 to 87, in octet 10 behind G5's presence bit; month is
    // 88 to 91, the low half of octet 11; the day's low four bits are its high
    // half, the fifth is bit 96, the lowest of octet 12.
    for (changed, taken) in [
        ([0xC1, 0xE6, 0xE1], Ok((96, 6, 30))),
        ([0xC1, 0xF6, 0xE1], Err(at(3, 92))),
        ([0xC1, 0xF7, 0xE1], Ok((96, 7, 31))),
        ([0xC1, 0xF4, 0xE1], Err(at(3, 92))),
        ([0xC1, 0xD2, 0xE1], Ok((96, 2, 29))),
        ([0xC1, 0xE2, 0xE1], Err(at(3, 92))),
        ([0xBF, 0xC2, 0xE1], Ok((95, 2, 28))),
        ([0xBF, 0xD2, 0xE1], Err(at(3, 92))),
        ([0x01, 0xD2, 0xE1], Ok((0, 2, 29))),
        ([0xC9, 0xF6, 0xE1], Err(at(3, 81))),
        ([0xC1, 0xFD, 0xE1], Err(at(3, 88))),
    ] {
        let mut d = with_data(&B, &[0x01]);
        d[10..13].copy_from_slice(&changed);
        let expected = taken.map(|(y, m, d)| (posting(&on(y, m, d)), 16));
        assert_eq!(read(&d), expected, "{changed:02X?}");
    }
    // C's month is bits 91 to 94 and its day 95 to 99, from the highest bit of
    // octet 11 into octet 12.
    for (changed, taken) in [
        ([0x36, 0x0F], Ok((96, 6, 30))),
        ([0xB6, 0x0F], Err(at(3, 95))),
        ([0xBE, 0x0F], Ok((96, 7, 31))),
    ] {
        let mut d = C.to_vec();
        d[11..13].copy_from_slice(&changed);
        let expected = taken.map(|(y, m, d)| (answering(&on(y, m, d)), 16));
        assert_eq!(read(&d), expected, "{changed:02X?}");
    }
}

#[test]
fn a_later_block_is_looked_at_too() {
    // The header's own size and one block without groups stand in front: the
    // day of the second block's G6 is 16 + 44 + 20 bits behind its usual place,
    // both blocks telling their sizes.
    let mut h = plain_header();
    h.sized = true;
    h.blocks[0].message_size = Some(1);
    let mut second = h.blocks[0].clone();
    second.perishable = Some(on(96, 6, 31));
    h.blocks.push(second);
    let datagram = with_data(&by_hand::header_octets(&h), &[1, 2]);
    assert_eq!(read(&datagram), Err(at(3, 40 + 80)));
    assert_eq!(check(&h, 2), Err(only(3)));
    // Whichever block is asked for.
    let mut board = Board::new();
    for block in 0..4 {
        assert_eq!(post(&mut board, &h, block, 2), Err(only(3)));
        assert_eq!(receipt(&mut board, &h, block, 2), Err(only(3)));
    }
    assert_eq!(board, Board::new());
}

#[test]
fn nothing_is_written_for_such_a_day() {
    for c in carriers(&on(96, 6, 31)) {
        let mut out = vec![0xEE; 60];
        assert_eq!(write(&c.h, c.count, &mut out), Err(only(3)), "{}", c.group);
        assert_eq!(out, vec![0xEE; 60]);
        // Ahead of the sizes, the length of all, and the output's length.
        assert_eq!(write(&c.h, 1 - c.count, &mut out), Err(only(3)));
        assert_eq!(write(&c.h, u64::MAX, &mut []), Err(only(3)));
    }
}

#[test]
fn numbers_too_wide_for_a_date() {
    // The low bits of the first three would make the 30th of June 96.
    for (year, month, day) in [
        (96, 6, 30 + 32),
        (96, 6 + 16, 30),
        (96 + 128, 6, 30),
        (96, 6, u32::MAX),
        (96, u32::MAX, 30),
        (u32::MAX, 6, 30),
        (u32::MAX, u32::MAX, u32::MAX),
    ] {
        let d = on(year, month, day);
        for c in carriers(&d) {
            assert_eq!(check(&c.h, c.count), Err(only(3)), "{} {d:?}", c.group);
        }
        assert_on_board(&d, false);
    }
}

#[test]
fn the_day_keeps_its_turn_among_other_faults() {
    let bad = || at_time(&on(96, 6, 31));
    let refused = |change: &dyn Fn(&mut Block)| {
        let mut h = plain_header();
        change(&mut h.blocks[0]);
        check(&h, 1).unwrap_err()
    };
    // What stands to the left goes first, what stands to the right does not.
    let marked = |b: &mut Block| {
        b.marking = Some(vec![]);
        b.stamp = Some(bad());
    };
    assert_eq!(refused(&marked), only(4));
    let unreferenced = |b: &mut Block| {
        b.stamp = Some(bad());
        b.references = Some(vec![]);
    };
    assert_eq!(refused(&unreferenced), only(3));
    // The same between the entries of G9, and within one.
    let list = |first: Reference, second: Reference| {
        refused(&|b: &mut Block| b.references = Some(vec![first.clone(), second.clone()]))
    };
    let entry = |address: Address, stamp: Stamp| Reference { address, stamp };
    assert_eq!(list(entry(urn(1), bad()), entry(both(), stamp())), only(3));
    assert_eq!(list(entry(both(), bad()), entry(urn(1), stamp())), only(6));
    assert_eq!(list(entry(name(b""), stamp()), entry(urn(1), bad())), only(4));
    // All fields go before the rules: here (b).
    let perishing_answer = |b: &mut Block| {
        b.perishable = Some(bad().dtg);
        b.response = Some(response(stamp(), 1));
    };
    assert_eq!(refused(&perishing_answer), only(3));
}

#[test]
fn calls_beside_rows_that_are_held() {
    // The last of June and the first of July: no call takes one of them for a
    // 31st of June, and none of the calls touches them.
    let mut board = Board::new();
    for d in [on(96, 6, 30), on(96, 7, 1)] {
        assert_eq!(post(&mut board, &posting(&d), 1, 1), Ok(()));
    }
    let before = board.clone();
    let bad = on(96, 6, 31);
    assert_eq!(post(&mut board, &posting(&bad), 1, 1), Err(only(3)));
    assert_eq!(receipt(&mut board, &answering(&bad), 1, 0), Err(only(3)));
    assert_eq!(release(&mut board, &key_of(&bad)), Err(only(3)));
    // Ahead of the block number, and of the fault in size with it.
    assert_eq!(post(&mut board, &posting(&bad), 0, 0), Err(only(3)));
    assert_eq!(receipt(&mut board, &answering(&bad), 2, 1), Err(only(3)));
    // Also where the time is not the one that names the message.
    let mut h = posting(&on(96, 8, 31));
    h.blocks[0].perishable = Some(bad.clone());
    assert_eq!(post(&mut board, &h, 1, 1), Err(only(3)));
    let mut h = answering(&on(96, 6, 30));
    h.blocks[0].stamp = Some(at_time(&bad));
    assert_eq!(receipt(&mut board, &h, 1, 0), Err(only(3)));
    h.blocks[0].stamp = None;
    h.blocks[0].references = Some(vec![Reference { address: urn(1), stamp: at_time(&bad) }]);
    assert_eq!(receipt(&mut board, &h, 1, 0), Err(only(3)));
    assert_eq!(board, before);

    // In a key the address is looked at first.
    let key = |address: Address| Key { address, stamp: at_time(&bad) };
    assert_eq!(release(&mut board, &key(both())), Err(only(6)));
    assert_eq!(release(&mut board, &key(name(b""))), Err(only(4)));
    assert_eq!(board, before);
}

#[test]
fn a_board_that_holds_such_a_day() {
    // The keys rise; the wrong one stands in each place in turn.
    for wrong in 0..3 {
        let mut board = Board::new();
        for (i, month) in [5, 7, 8].into_iter().enumerate() {
            let day = if i == wrong { 32 } else { 31 };
            board.rows.extend(board_on(&on(96, month, day)).rows);
        }
        // And the same with a day that would fit its bits.
        let mut other = board.clone();
        other.rows[wrong].key.stamp.dtg = on(96, [4, 6, 9][wrong], 31);
        for bad in [board, other] {
            let mut board = bad.clone();
            let good = on(96, 1, 31);
            assert!(!well_formed(&board));
            assert_eq!(post(&mut board, &posting(&good), 1, 1), Err(only(30)));
            assert_eq!(receipt(&mut board, &answering(&good), 1, 0), Err(only(30)));
            // Not even the wrong row itself can be taken off.
            for row in &bad.rows {
                assert_eq!(release(&mut board, &row.key), Err(only(30)));
            }
            for row in 0..5 {
                assert_eq!(listing(&board, row), Err(only(30)));
                assert_eq!(list_row(&board, row, &mut []), Err(only(30)));
            }
            assert_eq!(board, bad);
        }
    }
}

/// A line of the program's input.
fn line(h: &Header, data: &[u8]) -> String {
    let datagram = with_data(&by_hand::header_octets(h), data);
    let digits: String = datagram.iter().map(|o| format!("{o:02x}")).collect();
    digits + "\n"
}

#[test]
fn the_program_skips_such_datagrams() {
    let run = |input: String| String::from_utf8(program(input.as_bytes())).unwrap();
    let (good, bad) = (on(96, 6, 30), on(96, 6, 31));
    assert_eq!(run(line(&posting(&bad), &[1])), "rows 0\n");
    let open = "rows 1\n207 96-06-30 16:27:55 - asked m\n  3 m=?\n";
    let input = line(&posting(&bad), &[1]) + &line(&posting(&good), &[1]);
    assert_eq!(run(input.clone() + &line(&answering(&bad), &[])), open);
    let settled = open.replace('?', "1");
    assert_eq!(run(input + &line(&answering(&good), &[])), settled);

    // A time that names nothing spoils its datagram all the same.
    let mut h = posting(&good);
    h.blocks[0].perishable = Some(bad.clone());
    assert_eq!(run(line(&h, &[1])), "rows 0\n");

    // The leap days among the last of February.
    let mut input = String::new();
    for year in [99, 4, 1, 0] {
        input += &line(&old(&posting(&on(year, 2, 29))), &[1]);
    }
    let expected = concat!(
        "rows 2\n",
        "207 00-02-29 16:27:55 - asked m\n  3 m=?\n",
        "207 04-02-29 16:27:55 - asked m\n  3 m=?\n",
    );
    assert_eq!(run(input), expected);
}
