//! Structs from octets and back, bare and saved.

mod support;

use std::mem::{offset_of, size_of};

use pruvelaccio::*;

/// The octets that are flags: of octets that are all 2 a flag becomes 1, a number and a character stay, and what lies
/// between the cells becomes 0.
fn ones(octets: &[u8]) -> Vec<usize> {
    (0..octets.len()).filter(|i| octets[*i] == 1).collect()
}

fn flags_of_header() -> Vec<usize> {
    let header = Header::from(&RecordOctets::from([2; RECORD]));
    ones(RecordOctets::from(&header).octets())
}

fn flags_of_table() -> Vec<usize> {
    let table = Table::from(&TableOctets::from([2; TABLE]));
    ones(TableOctets::from(&table).octets())
}

fn flags_of_key() -> Vec<usize> {
    let key = Key::from(&KeyOctets::from([2; KEY]));
    ones(KeyOctets::from(&key).octets())
}

#[test]
fn every_flag_is_one() {
    // 7 of the header's own, 2 in each addressee, 31 in each block; 38 in each row
    assert_eq!(flags_of_header().len(), 7 + 32 * 2 + 16 * 31);
    assert_eq!(flags_of_table().len(), 32 * 38);
    assert_eq!(flags_of_key().len(), 3);
}

/// The last flag of each kind before the blocks, by its name.
fn flags_of_front() -> Vec<usize> {
    let addressee = 15 * size_of::<Address>();
    vec![
        offset_of!(Header, front.compression.present),
        offset_of!(Header, front.originator.present),
        offset_of!(Header, front.originator.address.urn.present),
        offset_of!(Header, front.originator.address.name.present),
        offset_of!(Header, front.recipients.present),
        offset_of!(Header, front.recipients.addresses.list)
            + addressee
            + offset_of!(Address, urn.present),
        offset_of!(Header, front.information.present),
        offset_of!(Header, front.information.addresses.list)
            + addressee
            + offset_of!(Address, name.present),
        offset_of!(Header, sized),
    ]
}

/// The same of a block, counted from its own first octet.
fn flags_of_block() -> Vec<usize> {
    let reference = offset_of!(Block, references.references.list) + 3 * size_of::<Reference>();
    vec![
        offset_of!(Block, format.version.present),
        offset_of!(Block, format.identity.present),
        offset_of!(Block, format.identity.identity.subtype.present),
        offset_of!(Block, format.file.present),
        offset_of!(Block, handling.size.present),
        offset_of!(Block, handling.marking.present),
        offset_of!(Block, times.origin.present),
        offset_of!(Block, times.origin.stamp.extension.present),
        offset_of!(Block, times.perish.present),
        offset_of!(Block, times.requests.present),
        offset_of!(Block, times.requests.requests.machine),
        offset_of!(Block, times.requests.requests.acknowledge),
        offset_of!(Block, times.requests.requests.reply),
        offset_of!(Block, response.present),
        offset_of!(Block, response.response.stamp.extension.present),
        offset_of!(Block, response.response.compliance.cantco.present),
        offset_of!(Block, response.response.compliance.cantpro.present),
        offset_of!(Block, response.response.amplification.present),
        offset_of!(Block, references.present),
        reference + offset_of!(Reference, address.urn.present),
        reference + offset_of!(Reference, address.name.present),
        reference + offset_of!(Reference, stamp.extension.present),
    ]
}

#[test]
fn each_kind_of_flag_of_a_header_is_set_unless_0() {
    let flags = flags_of_header();
    let block = offset_of!(Header, blocks.list) + 15 * size_of::<Block>();
    let last = flags_of_block().into_iter().map(|offset| block + offset);
    for offset in flags_of_front().into_iter().chain(last) {
        assert!(flags.contains(&offset), "offset {offset}");
    }
}

#[test]
fn every_octet_but_0_sets_a_flag_of_a_header() {
    let mut octets = [0; RECORD];
    for offset in flags_of_header() {
        for octet in 0..=255 {
            octets[offset] = octet;
            let header = Header::from(RecordOctets::lent(&octets));
            let loaded = RecordOctets::from(&header);
            assert_eq!(loaded.octets()[offset], u8::from(octet != 0), "offset {offset}");
        }
        octets[offset] = 0;
    }
}

#[test]
fn every_octet_but_0_sets_a_flag_of_a_table() {
    let mut octets = [0; TABLE];
    for offset in flags_of_table() {
        for octet in [0, 1, 2, 128, 255] {
            octets[offset] = octet;
            let loaded = TableOctets::from(&Table::from(TableOctets::lent(&octets)));
            assert_eq!(loaded.octets()[offset], u8::from(octet != 0), "offset {offset}");
        }
        octets[offset] = 0;
    }
}

#[test]
fn each_kind_of_flag_of_a_table_is_set_unless_0() {
    let flags = flags_of_table();
    let row = offset_of!(Table, rows) + 31 * size_of::<Row>();
    let recipient = row + offset_of!(Row, recipients) + 15 * size_of::<Recipient>();
    for offset in [
        row + offset_of!(Row, key.address.urn.present),
        row + offset_of!(Row, key.address.name.present),
        row + offset_of!(Row, key.stamp.extension.present),
        row + offset_of!(Row, asked.machine),
        row + offset_of!(Row, asked.acknowledge),
        row + offset_of!(Row, asked.reply),
        recipient + offset_of!(Recipient, address.urn.present),
        recipient + offset_of!(Recipient, address.name.present),
    ] {
        assert!(flags.contains(&offset), "offset {offset}");
    }
}

/// Octets between the cells are not looked at, and stand as 0 in a struct's octets: here the three behind the presence
/// of a URN.
#[test]
fn octets_between_the_cells_become_0() {
    let mut octets = KeyOctets::zero();
    octets.octets_mut()[1..4].fill(0xA5);
    assert_eq!(KeyOctets::from(&Key::from(&octets)), KeyOctets::zero());
}

// ---------------------------------------------------------------------------
// Saved octets

/// A table with a row.
fn posted() -> Table {
    let mut table = Table::empty();
    table.post(&support::message(), 1, support::MESSAGE_DATA).expect("a message with requests");
    table
}

#[test]
fn saved_octets_are_the_number_and_the_struct() {
    let (header, table) = (support::message(), posted());
    let (number, rest) = (LAYOUT.to_le_bytes(), RecordOctets::from(&header));
    assert_eq!(header.to_octets(), [&number[..], rest.octets()].concat());
    let rest = TableOctets::from(&table);
    assert_eq!(table.to_octets(), [&number[..], rest.octets()].concat());
}

#[test]
fn what_is_saved_is_loaded_again() {
    for header in [support::message(), support::receipts()] {
        let loaded = Header::from_octets(&header.to_octets()).expect("a saved header");
        assert_eq!(format!("{loaded:?}"), format!("{header:?}"));
    }
    let table = posted();
    let loaded = Table::from_octets(&table.to_octets()).expect("a saved table");
    assert_eq!(format!("{loaded:?}"), format!("{table:?}"));
}

#[test]
fn another_size_is_refused() {
    let saved = posted().to_octets();
    let expected = 4 + TABLE;
    for found in [0, 1, 3, 4, expected - 1] {
        let fault = Table::from_octets(&saved[..found]).expect_err("another size");
        assert_eq!(fault, LoadFault::WrongSize { expected, found });
    }
    let longer = [&saved[..], &[0]].concat();
    let fault = Table::from_octets(&longer).expect_err("an octet too many");
    assert_eq!(fault.to_string(), "50953 octets where there should be 50952");
    let fault = Header::from_octets(&saved).expect_err("a table");
    assert_eq!(fault, LoadFault::WrongSize { expected: 4 + RECORD, found: expected });
}

/// Whatever the size is: another layout has another one.
#[test]
fn another_layout_is_refused() {
    let mut saved = support::message().to_octets();
    for (at, found) in [(0, LAYOUT ^ 2), (1, LAYOUT | 2 << 8), (3, LAYOUT | 2 << 24)] {
        saved[at] ^= 2;
        for length in [4, 5, saved.len()] {
            let fault = Header::from_octets(&saved[..length]).expect_err("another layout");
            assert_eq!(fault, LoadFault::OtherLayout { expected: LAYOUT, found });
        }
        saved[at] ^= 2;
    }
    saved[0] = 7;
    let fault = Header::from_octets(&saved).expect_err("layout 7");
    assert_eq!(fault.to_string(), format!("saved with layout 7, where this is layout {LAYOUT}"));
}

#[test]
fn any_octets_behind_the_number_are_some_table() {
    let octets = [&LAYOUT.to_le_bytes()[..], &[0xA5; TABLE]].concat();
    let table = Table::from_octets(&octets).expect("any octets");
    assert!(table.rows[31].recipients[15].address.name.present && table.rows[0].asked.machine);
    assert_eq!(table.count, 0xA5A5_A5A5);
    assert_eq!(table.list_row(0, &mut []), Err(Refusal { number: 30, place: 0, block: 0 }));
}

#[test]
fn zero_is_zero_octets_and_the_empty_table() {
    assert_eq!(RecordOctets::from(&Header::zero()), RecordOctets::zero());
    assert_eq!(KeyOctets::from(&Key::zero()), KeyOctets::zero());
    assert_eq!(TableOctets::from(&Table::zero()), TableOctets::zero());
    assert_eq!(TableOctets::from(&Table::empty()), TableOctets::zero());
    assert_eq!(TableOctets::empty(), TableOctets::zero());
}
