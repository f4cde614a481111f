//! What the constructors compose is what is filled in by hand, and the library's check judges it.

mod support;

use pruvelaccio::*;
use support::{message, receipts, MESSAGE_DATA};

fn text(words: &str) -> Text {
    Text::new(words).expect("a short text")
}

fn name(words: &str) -> Address {
    Address::name(words).expect("a short name")
}

fn stamp(date: [u32; 3], time: [u32; 3]) -> Stamp {
    Stamp::new(Dtg::new(date, time))
}

fn references() -> [Reference; 4] {
    [
        Reference::new(Address::urn(0x21), stamp([21, 1, 2], [3, 4, 5]).with_extension(0x801)),
        Reference::new(name("SECOND"), stamp([22, 2, 3], [4, 5, 6])),
        Reference::new(Address::urn(0x23), stamp([23, 3, 4], [5, 6, 7])),
        Reference::new(name("FOURTH"), stamp([24, 4, 5], [6, 7, 8]).with_extension(0x804)),
    ]
}

fn composed_message() -> Header {
    let first = Block::new(2)
        .with_version(9)
        .with_identity(Identity::new(5, 77).with_subtype(33))
        .with_file(text("ORDERS.TXT"))
        .with_size(3)
        .with_codes(Codes { operation: 3, retransmit: 1, precedence: 5, classification: 2 })
        .with_marking(text("RELEASE TO ALL"))
        .with_origin(stamp([12, 11, 10], [9, 8, 7]).with_extension(0x123))
        .with_perish(Dtg::new([13, 10, 9], [8, 7, 6]))
        .with_requests(Requests { machine: true, acknowledge: false, reply: true })
        .with_references(&references());
    Header::new(&[first, Block::new(8).with_size(4)])
        .with_compression(1)
        .with_originator(Address::urn(0x0A_0B_0C))
        .with_recipients(&[name("KILO"), Address::urn(0x11)])
        .with_information(&[name(&"N".repeat(64))])
        .with_header_size()
}

fn composed_receipts() -> Header {
    let answered = stamp([12, 11, 10], [9, 8, 7]);
    let (one, two) = (answered.with_extension(0x123), answered.with_extension(0x124));
    let cannot = Response::new(one, 6).with_cantco(5).with_amplification(text("AS ORDERED"));
    let may_not = Response::new(two, 2).with_cantpro(44).with_amplification(text("AS ORDERED"));
    let block = |response| Block::new(3).with_size(0).with_response(response);
    Header::new(&[block(cannot), block(may_not)])
        .with_originator(name("KILO"))
        .with_recipients(&[Address::urn(0x0A_0B_0C)])
        .with_header_size()
}

#[test]
fn composed_records_are_those_filled_in_by_hand() {
    assert_eq!(RecordOctets::from(&composed_message()), RecordOctets::from(&message()));
    assert_eq!(RecordOctets::from(&composed_receipts()), RecordOctets::from(&receipts()));
}

/// The same record in version 1, which has no message standard version.
fn in_version_1(mut header: Header) -> Header {
    header.blocks.list[0].format.version = Header::zero().blocks.list[0].format.version;
    header.with_version(1)
}

/// The octets are put together bit by bit in the order of Table I.
#[test]
fn composed_records_are_written() {
    for (header, count) in [(composed_message(), MESSAGE_DATA), (composed_receipts(), 0)] {
        for header in [in_version_1(header), header] {
            let mut out = [0; 8192];
            let length = write(&header, count, &mut out).expect("a valid record");
            assert_eq!(out[..length], support::header_octets(&header));
        }
    }
}

/// What version 1 lacks is refused in words; both versions are posted and answered alike.
#[test]
fn versions_1_and_2() {
    let refused = |header: &Header| check(header, MESSAGE_DATA).expect_err("not valid");
    let standard = refused(&composed_message().with_version(1));
    assert_eq!(standard.number, 3);
    assert!(standard.to_string().contains("a record of version 1 has a standard version"));
    for version in [0, 3, 15, 17, 18] {
        assert_eq!(refused(&in_version_1(composed_message()).with_version(version)).number, 2);
    }
    let mut table = Table::empty();
    table.post(&in_version_1(composed_message()), 1, MESSAGE_DATA).expect("version 1");
    let again = table.post(&composed_message(), 1, MESSAGE_DATA).expect_err("the same key");
    assert_eq!(again.number, 22);
    assert_eq!(table.receipt(&composed_receipts().with_version(1), 1, 0), Ok(()));
}

/// Document 01's A, B and C, and the same in version 1.
#[test]
fn composed_records_are_document_01s() {
    let asked = Requests { machine: true, acknowledge: false, reply: false };
    let moment = stamp([96, 7, 3], [16, 27, 55]);
    let to = |from, to, block| {
        Header::new(&[block])
            .with_originator(Address::urn(from))
            .with_recipients(&[Address::urn(to)])
    };
    let b = [0xE2, 0x67, 0, 0, 0x1D, 0, 0, 0, 0x01, 0, 0xC1, 0x37, 0xE0, 0x76, 0x33, 0];
    let c = [0xE2, 0x01, 0, 0, 0x7D, 0x06, 0, 0, 0x01, 0, 0x08, 0xBE, 0x01, 0xB7, 0x5B, 0];
    // in version 1 every bit behind the UMF stands one place lower
    let old_b = [0xE1, 0x67, 0, 0, 0x1D, 0, 0, 0, 0x01, 0x80, 0xE0, 0x1B, 0x70, 0xBB, 0x19, 0];
    let old_c = [0xE1, 0x01, 0, 0, 0x7D, 0x06, 0, 0, 0x01, 0, 0x04, 0xDF, 0x80, 0xDB, 0x2D, 0];
    let asking = Block::new(2).with_origin(moment).with_requests(asked);
    let answering = Block::new(2).with_response(Response::new(moment, 1));
    for (header, count, octets) in [
        (Header::new(&[Block::new(2)]), 1, &[0x02, 0x08, 0, 0, 0][..]),
        (to(207, 3, asking), 1, &b),
        (to(3, 207, answering), 0, &c),
        (Header::new(&[Block::new(2)]).with_version(1), 1, &[0x01, 0x08, 0, 0]),
        (to(207, 3, asking).with_version(1), 1, &old_b),
        (to(3, 207, answering).with_version(1), 0, &old_c),
    ] {
        let mut out = [0; 8192];
        let length = write(&header, count, &mut out).expect("a valid record");
        assert_eq!(&out[..length], octets);
    }
}

#[test]
fn a_key_names_what_was_posted() {
    let mut table = Table::empty();
    table.post(&composed_message(), 1, MESSAGE_DATA).expect("a message with requests");
    let moment = stamp([12, 11, 10], [9, 8, 7]).with_extension(0x123);
    assert_eq!(table.release(&Key::new(Address::urn(0x0A_0B_0C), moment)), Ok(()));
    assert_eq!(table.count, 0);
}

/// What does not fit its array is held by its count, and the library refuses it with 5; other faults are its to find
/// too.
#[test]
fn validity_is_the_librarys_to_judge() {
    let refused = |header: &Header| check(header, 1).expect_err("not valid").number;
    let bare = || Header::new(&[Block::new(2)]);
    let many = |count| (0..count).map(Address::urn).collect::<Vec<_>>();
    assert_eq!(check(&bare(), 1), Ok(5));
    assert_eq!(refused(&Header::new(&[])), 5);
    assert_eq!(refused(&Header::new(&[Block::new(2); 17])), 5);
    assert!(check(&bare().with_recipients(&many(16)), 1).is_ok());
    assert_eq!(refused(&bare().with_recipients(&many(17))), 5);
    assert_eq!(refused(&bare().with_information(&many(17))), 5);
    assert_eq!(refused(&bare().with_recipients(&[])), 5);
    let five = [references()[0]; 5];
    assert_eq!(refused(&Header::new(&[Block::new(2).with_references(&five)])), 5);
    assert_eq!(refused(&bare().with_originator(Address::urn(1 << 24))), 3);
    assert_eq!(refused(&bare().with_originator(name(""))), 4);
    let marking = Block::new(2).with_marking(text(&"M".repeat(33)));
    assert_eq!(refused(&Header::new(&[marking])), 4);
}

#[test]
fn what_is_no_text_is_told_in_words() {
    let fault = |words: &str| Text::new(words).expect_err("no text");
    assert!(Text::new(&"N".repeat(64)).is_ok() && Text::new("\0~").is_ok());
    assert_eq!(fault(&"N".repeat(65)), TextFault::TooLong { characters: 65 });
    assert_eq!(fault("A\u{7f}"), TextFault::Character { at: 1, character: '\u{7f}' });
    assert_eq!(fault("É").to_string(), "the character 'É' at 0 is none of 0 to 126");
    let long = Address::name(&"É".repeat(65)).expect_err("too long");
    assert_eq!(long.to_string(), "65 characters where a text has at most 64");
}
