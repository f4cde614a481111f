//! The calls on octets: the same as on structs, and on octets that no struct may hold.

mod support;

use std::mem::offset_of;

use pruvelaccio::*;
use support::*;

/// Octets that nothing else here holds.
const PATTERN: u8 = 0xA5;

/// Every octet of a record that is a flag.
fn flags() -> Vec<usize> {
    let octets = RecordOctets::from(&Header::from(&RecordOctets::from([2; RECORD])));
    (0..RECORD).filter(|i| octets.octets()[*i] == 1).collect()
}

/// The octets with each flag that is 1 set to another octet.
fn with_flags(octets: &RecordOctets, octet: u8) -> RecordOctets {
    let mut changed = *octets;
    for offset in flags() {
        if changed.octets()[offset] == 1 {
            changed.octets_mut()[offset] = octet;
        }
    }
    changed
}

/// What is written into a room, and the octets there.
fn written(record: &RecordOctets, count: usize) -> (Result<usize, Refusal>, Vec<u8>) {
    let mut out = vec![PATTERN; 8192];
    (write_octets(record, count, &mut out), out)
}

#[test]
fn any_octet_but_0_is_a_set_flag() {
    for (header, count) in [(message(), MESSAGE_DATA), (receipts(), 0)] {
        let plain = RecordOctets::from(&header);
        let mut out = vec![PATTERN; 8192];
        let length = write(&header, count, &mut out).expect("a valid record");
        for octet in [1, 2, 3, 128, 255] {
            let record = with_flags(&plain, octet);
            let before = record;
            assert_eq!(check_octets(&record, count), Ok(length));
            assert_eq!(written(&record, count), (Ok(length), out.clone()));
            assert_eq!(record, before);
        }
    }
}

#[test]
fn any_octet_but_0_is_a_set_flag_for_the_table() {
    let (asked, answered) = (RecordOctets::from(&message()), RecordOctets::from(&receipts()));
    let mut expected = Table::empty();
    expected.post(&message(), 1, MESSAGE_DATA).expect("a message with requests");
    expected.receipt(&receipts(), 1, 0).expect("code 6");
    for octet in [1, 2, 255] {
        let mut table = Table::empty();
        let done = table.post_octets(&with_flags(&asked, octet), 1, MESSAGE_DATA);
        assert_eq!(done, Ok(()));
        assert_eq!(table.receipt_octets(&with_flags(&answered, octet), 1, 0), Ok(()));
        assert_eq!(TableOctets::from(&table), TableOctets::from(&expected));
    }
}

#[test]
fn a_refusal_is_that_of_the_header() {
    let mut header = message();
    header.blocks.count = u32::MAX;
    let record = RecordOctets::from(&header);
    let refusal = Refusal { number: 5, place: 0, block: 0 };
    let mut table = Table::empty();
    assert_eq!(check_octets(&record, MESSAGE_DATA), Err(refusal));
    assert_eq!(written(&record, MESSAGE_DATA), (Err(refusal), vec![PATTERN; 8192]));
    assert_eq!(table.post_octets(&record, 1, MESSAGE_DATA), Err(refusal));
    assert_eq!(table.receipt_octets(&record, 1, MESSAGE_DATA), Err(refusal));
    assert_eq!(table.to_octets(), Table::empty().to_octets());
}

#[test]
fn octets_between_the_cells_carry_no_meaning() {
    let plain = RecordOctets::from(&message());
    let mut record = plain;
    // the three octets behind the presence of the compression
    let flag = offset_of!(Header, front.compression.present);
    record.octets_mut()[flag + 1..flag + 4].fill(PATTERN);
    assert_eq!(written(&record, MESSAGE_DATA), written(&plain, MESSAGE_DATA));
}

#[test]
fn a_reading_determines_every_octet() {
    for (header, count) in [(message(), MESSAGE_DATA), (receipts(), 0)] {
        let mut datagram = header_octets(&header);
        let length = datagram.len();
        datagram.resize(length + count, PATTERN);
        let mut record = RecordOctets::from([PATTERN; RECORD]);
        assert_eq!(read_octets(&datagram, &mut record), Ok(length));
        assert_eq!(record, RecordOctets::from(&header));
        let mut filled = message();
        assert_eq!(read_into(&datagram, &mut filled), Ok(length));
        assert_eq!(filled.to_octets(), header.to_octets());
    }
}

#[test]
fn a_refused_reading_leaves_the_record() {
    let datagram = header_octets(&message());
    let mut octets = [PATTERN; RECORD];
    let mut header = receipts();
    // no data, and bits that end inside a field
    for length in [datagram.len(), datagram.len() - 1, 1, 0] {
        let refused = read(&datagram[..length]).map(|read| read.length);
        assert!(refused.is_err());
        let record = RecordOctets::lent_mut(&mut octets);
        assert_eq!(read_octets(&datagram[..length], record), refused);
        assert_eq!(read_into(&datagram[..length], &mut header), refused);
        assert_eq!(octets, [PATTERN; RECORD]);
        assert_eq!(header.to_octets(), receipts().to_octets());
    }
}

/// Each flag of a table or a key that is 1 set to another octet.
fn loosened<const N: usize>(octets: &[u8; N], flags: &[u8; N], octet: u8) -> [u8; N] {
    std::array::from_fn(|i| if flags[i] == 1 && octets[i] == 1 { octet } else { octets[i] })
}

fn loose_table(table: &TableOctets, octet: u8) -> TableOctets {
    let flags = TableOctets::from(&Table::from(&TableOctets::from([2; TABLE])));
    loosened(table.octets(), flags.octets(), octet).into()
}

fn loose_key(key: &KeyOctets, octet: u8) -> KeyOctets {
    let flags = KeyOctets::from(&Key::from(&KeyOctets::from([2; KEY])));
    loosened(key.octets(), flags.octets(), octet).into()
}

/// A row of each form that this file's records make, as a struct and as octets.
fn tables() -> (Table, TableOctets) {
    let (mut whole, mut octets) = (Table::empty(), TableOctets::empty());
    assert_eq!(whole.post(&message(), 1, MESSAGE_DATA), Ok(()));
    assert_eq!(octets.post(&message(), 1, MESSAGE_DATA), Ok(()));
    let mut other = message();
    other.front.originator.address = name("OSCAR");
    assert_eq!(whole.post(&other, 1, MESSAGE_DATA), Ok(()));
    assert_eq!(octets.post_octets(&RecordOctets::from(&other), 1, MESSAGE_DATA), Ok(()));
    (whole, octets)
}

/// The same calls leave the same table, whether it is a struct or octets.
#[test]
fn a_table_is_the_same_in_either_form() {
    let (mut whole, mut octets) = tables();
    assert_eq!(TableOctets::from(&whole), octets);
    assert_eq!(whole.receipt(&receipts(), 1, 0), Ok(()));
    assert_eq!(octets.receipt(&receipts(), 1, 0), Ok(()));
    assert_eq!(TableOctets::from(&whole), octets);
    let key = whole.rows[1].key;
    let (mut one, mut two) = ([PATTERN; 4096], [PATTERN; 4096]);
    assert_eq!(whole.list_row(2, &mut one), octets.list_row(2, &mut two));
    assert_eq!(one, two);
    assert_eq!(whole.release(&key), Ok(()));
    assert_eq!(octets.release_octets(&KeyOctets::from(&key)), Ok(()));
    assert_eq!(TableOctets::from(&whole), octets);
    whole.clear();
    octets.clear();
    assert_eq!(octets, TableOctets::zero());
    assert_eq!(TableOctets::from(&whole), octets);
}

/// Flags of a table and of a key: the same answers, and other rows keep their octets.
#[test]
fn any_octet_but_0_is_a_set_flag_of_a_table_and_of_a_key() {
    for octet in [1, 2, 3, 128, 255] {
        let (whole, octets) = tables();
        let mut loose = loose_table(&octets, octet);
        assert_eq!(
            loose.post(&message(), 1, MESSAGE_DATA),
            Err(Refusal { number: 22, place: 0, block: 0 })
        );
        assert_eq!(loose, loose_table(&octets, octet));
        assert_eq!(loose.receipt(&receipts(), 1, 0), Ok(()));
        let first = loose_key(&KeyOctets::from(&whole.rows[0].key), octet);
        assert_eq!(loose.release_octets(&first), Ok(()));
        let mut expected = octets;
        assert_eq!(expected.release(&whole.rows[0].key), Ok(()));
        assert_eq!(loose, loose_table(&expected, octet));
    }
}

#[test]
fn a_refusal_leaves_every_octet_of_a_table() {
    let record = RecordOctets::from(&message());
    let refusal = Err(Refusal { number: 30, place: 0, block: 0 });
    let mut table = TableOctets::from([PATTERN; TABLE]);
    assert_eq!(table.post(&message(), 1, MESSAGE_DATA), refusal);
    assert_eq!(table.post_octets(&record, 1, MESSAGE_DATA), refusal);
    assert_eq!(table.receipt(&receipts(), 1, 0), refusal);
    assert_eq!(table.receipt_octets(&record, 1, 0), refusal);
    assert_eq!(table.release(&Key::zero()), refusal);
    assert_eq!(table.release_octets(&KeyOctets::from([PATTERN; KEY])), refusal);
    let mut out = [PATTERN; 64];
    assert_eq!(table.list_row(0, &mut out), Err(Refusal { number: 30, place: 0, block: 0 }));
    assert_eq!((table, out), (TableOctets::from([PATTERN; TABLE]), [PATTERN; 64]));
}
