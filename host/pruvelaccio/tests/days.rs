//! The days of a month: those that there are, taken wherever a time stands; and those that there are not, refused by
//! every call.

#[allow(dead_code)]
mod support;

use pruvelaccio::*;
use support::header_octets;

type Day = [u32; 3];

/// The last of each month of a year, and of February in others.
const LAST_DAYS: [Day; 18] = [
    [1, 1, 31],
    [1, 2, 28],
    [1, 3, 31],
    [1, 4, 30],
    [1, 5, 31],
    [1, 6, 30],
    [1, 7, 31],
    [1, 8, 31],
    [1, 9, 30],
    [1, 10, 31],
    [1, 11, 30],
    [1, 12, 31],
    [0, 2, 29],
    [4, 2, 29],
    [48, 2, 29],
    [96, 2, 29],
    [98, 2, 28],
    [99, 2, 28],
];

/// Days that only their month, or February's year, forbids.
const NO_DAYS: [Day; 13] = [
    [1, 2, 29],
    [2, 2, 29],
    [3, 2, 29],
    [50, 2, 29],
    [99, 2, 29],
    [0, 2, 30],
    [4, 2, 31],
    [97, 2, 30],
    [0, 4, 31],
    [96, 6, 31],
    [97, 6, 31],
    [4, 9, 31],
    [99, 11, 31],
];

const REFUSED: Refusal = Refusal { number: 3, place: 0, block: 0 };

fn stamp(day: Day) -> Stamp {
    Stamp::new(Dtg::new(day, [16, 27, 55]))
}

/// From URN 207 to URN 3, as document 01's B: the presence of G5 is bit 80.
fn sent(block: Block) -> Header {
    Header::new(&[block]).with_originator(Address::urn(207)).with_recipients(&[Address::urn(3)])
}

fn asking(stamp: Stamp) -> Header {
    let asked = Requests { machine: true, acknowledge: false, reply: false };
    sent(Block::new(2).with_origin(stamp).with_requests(asked))
}

/// A day in each group that has a time: the record, its octets of data, and the place of the day's bits. A time has 33
/// bits and the presence of its extension, a reference by URN 27 in front of its time; the day stands behind the 11
/// bits of year and month.
fn in_each_group(day: Day) -> [(Header, usize, usize); 5] {
    let (fine, stamp) = (stamp([96, 7, 3]), stamp(day));
    let perishing = Block::new(2).with_origin(fine).with_perish(stamp.dtg);
    let referred = |stamp| Reference::new(Address::urn(9), stamp);
    let one = Block::new(2).with_references(&[referred(stamp)]);
    let two = Block::new(2).with_references(&[referred(fine), referred(stamp)]);
    [
        (asking(stamp), 1, 81 + 11),
        (sent(perishing), 1, 81 + 34 + 1 + 11),
        (sent(Block::new(2).with_response(Response::new(stamp, 1))), 0, 84 + 11),
        (sent(one), 1, 85 + 27 + 11),
        (sent(two), 1, 85 + 27 + 34 + 27 + 11),
    ]
}

/// The octets are put together bit by bit, so that they may say a day that there is not.
fn datagram(header: &Header, count: usize) -> Vec<u8> {
    [header_octets(header), vec![0x5A; count]].concat()
}

fn told(datagram: &[u8]) -> Result<usize, Refusal> {
    read(datagram).map(|read| read.length)
}

#[test]
fn a_reading_tells_the_place_of_the_day() {
    for (header, count, place) in NO_DAYS.into_iter().flat_map(in_each_group) {
        let datagram = datagram(&header, count);
        assert_eq!(told(&datagram), Err(Refusal { number: 3, place, block: 0 }), "{header:?}");
        assert!(user_data(&datagram).is_empty());
    }
}

/// The year, the month and the day are judged in turn, and each before what stands behind it, even if that is cut off.
#[test]
fn the_day_comes_behind_the_year_and_the_month() {
    let refused = |number, place| Err(Refusal { number, place, block: 0 });
    let of = |day| datagram(&asking(stamp(day)), 1);
    assert_eq!(told(&of([100, 6, 31])), refused(3, 81));
    assert_eq!(told(&of([127, 0, 0])), refused(3, 81));
    assert_eq!(told(&of([96, 13, 31])), refused(3, 88));
    assert_eq!(told(&of([1, 0, 29])), refused(3, 88));
    assert_eq!(told(&of([96, 6, 0])), refused(3, 92));
    assert_eq!(told(&of([96, 6, 31])), refused(3, 92));
    assert_eq!(told(&of([96, 6, 31])[..13]), refused(3, 92));
    assert_eq!(told(&of([96, 6, 31])[..12]), refused(1, 92));
}

#[test]
fn a_record_with_no_such_day_is_refused() {
    for (header, count, _) in NO_DAYS.into_iter().flat_map(in_each_group) {
        let (mut out, mut table) = ([0xA5; 64], Table::empty());
        assert_eq!(check(&header, count), Err(REFUSED), "{header:?}");
        assert_eq!(write(&header, count, &mut out), Err(REFUSED));
        assert_eq!(table.post(&header, 1, count), Err(REFUSED));
        assert_eq!(table.receipt(&header, 1, count), Err(REFUSED));
        assert_eq!((out, TableOctets::from(&table)), ([0xA5; 64], TableOctets::zero()));
    }
}

/// Numbers that a day's five bits do not hold, with a month and a year that are fine and that are not.
#[test]
fn a_day_is_a_number_of_32_bits() {
    for day in [0, 30, 31, 32, 33, 28 + (1 << 5), 28 + (1 << 16), 28 + (1 << 31), u32::MAX] {
        for [year, month] in [[96, 2], [100, 2], [96, 18], [1 << 31, 2 + (1 << 31)]] {
            assert_eq!(check(&asking(stamp([year, month, day])), 1), Err(REFUSED));
        }
    }
}

#[test]
fn a_key_with_no_such_day_is_refused() {
    let mut table = Table::empty();
    assert_eq!(table.post(&asking(stamp([96, 6, 30])), 1, 1), Ok(()));
    for day in NO_DAYS {
        assert_eq!(table.release(&Key::new(Address::urn(207), stamp(day))), Err(REFUSED));
    }
    assert_eq!(table.count, 1);
}

/// As a host may have saved it before, or as octets from elsewhere say it.
#[test]
fn a_table_with_no_such_day_is_refused() {
    let refused = Err(Refusal { number: 30, ..REFUSED });
    let mut table = Table::empty();
    assert_eq!(table.post(&asking(stamp([96, 7, 3])), 1, 1), Ok(()));
    for day in NO_DAYS {
        table.rows[0].key.stamp = stamp(day);
        let before = TableOctets::from(&table);
        assert_eq!(table.post(&asking(stamp([96, 7, 4])), 1, 1), refused);
        assert_eq!(table.receipt(&in_each_group([96, 7, 3])[2].0, 1, 0), refused);
        assert_eq!(table.release(&Key::new(Address::urn(207), stamp(day))), refused);
        assert_eq!(table.list_row(1, &mut [0; 64]).map(|_| ()), refused);
        assert_eq!(TableOctets::from(&table), before);
    }
}

#[test]
fn the_last_day_of_a_month_is_written_and_read() {
    for (header, count, _) in LAST_DAYS.into_iter().flat_map(in_each_group) {
        let mut out = [0; 64];
        let length = write(&header, count, &mut out).expect("a day that there is");
        assert_eq!(out[..length], header_octets(&header));
        let read = read(&datagram(&header, count)).expect("the same day");
        assert_eq!(read.header.to_octets(), header.to_octets());
    }
}

#[test]
fn the_last_day_of_a_month_is_posted_answered_and_released() {
    for day in LAST_DAYS {
        let (mut table, mut row) = (Table::empty(), [0; 64]);
        let answer = sent(Block::new(2).with_response(Response::new(stamp(day), 1)))
            .with_originator(Address::urn(3))
            .with_recipients(&[Address::urn(207)]);
        assert_eq!(table.post(&asking(stamp(day)), 1, 1), Ok(()));
        assert_eq!(table.receipt(&answer, 1, 0), Ok(()));
        let [year, month, number] = day;
        let text = format!("207 {year:02}-{month:02}-{number:02} 16:27:55 - asked m\n  3 m=1\n");
        assert_eq!(table.list_row(1, &mut row), Ok(text.len()));
        assert_eq!(row[..text.len()], *text.as_bytes());
        assert_eq!(table.release(&Key::new(Address::urn(207), stamp(day))), Ok(()));
    }
}
