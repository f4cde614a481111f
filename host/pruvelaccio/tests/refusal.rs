//! A refusal in words: the rule that is broken or the size that is wrong, and the message block that it is about.

use pruvelaccio::*;

fn words(number: u32, block: u32) -> String {
    Refusal { number, place: 0, block }.to_string()
}

#[test]
fn a_rule_is_told_with_the_block_that_breaks_it() {
    for (number, said) in [
        (41, "rule (a): block 2 has requests (G7), and there is no originator (G1)"),
        (42, "rule (b): block 2 has a response (G8) beside a perishability time (G6) or requests (G7)"),
        (43, "rule (c): block 2 has a message identification (G4) in UMF 1"),
        (44, "rule (d): block 2 has a message identification (G4) in UMF 4"),
        (45, "rule (e): block 2 has a response (G8) in a compressed message"),
        (46, "rule (f): block 2 has no message size"),
        (47, "rule (g): block 2 has a CANTCO reason beside another R/C than 6"),
        (48, "rule (h): block 2 has a CANTPRO reason beside another R/C than 2"),
        (49, "rule (i): block 2 has a request that is set, and no originator's time (G5)"),
    ] {
        assert_eq!(words(number, 2), format!("refusal {number} at place 0: {said}"));
    }
    assert_eq!(words(46, 3), "refusal 46 at place 0: rule (f): block 3 has no message size");
    assert_eq!(words(46, 0), "refusal 46 at place 0: rule (f): the header has no size");
}

#[test]
fn a_size_is_told_with_its_block_where_it_has_one() {
    for (number, block, said) in [
        (51, 0, "the header size is not the header's octets"),
        (52, 0, "the message sizes do not sum to the data octets"),
        (53, 16, "block 16 has no data octets and needs some, or a response (G8) in UMF 4"),
        (54, 1, "block 1 has data octets and may have none"),
    ] {
        assert_eq!(words(number, block), format!("refusal {number} at place 0: {said}"));
    }
}

#[test]
fn other_refusals_are_told_with_their_place() {
    let short = Refusal { number: 1, place: 7, block: 0 };
    assert_eq!(short.to_string(), "refusal 1 at place 7: the bits end inside a field");
    assert_eq!(words(22, 0), "refusal 22 at place 0: the table holds the key already");
    for number in [8, 10, 40, 50, 55] {
        assert_eq!(words(number, 0), format!("refusal {number} at place 0: unknown"));
    }
}

fn moment() -> Stamp {
    Stamp::new(Dtg::new([96, 7, 3], [16, 27, 55]))
}

/// A message of one octet.
fn plain() -> Block {
    Block::new(2).with_size(1)
}

fn asking(block: Block) -> Block {
    block.with_requests(Requests { machine: true, acknowledge: false, reply: false })
}

fn answering(response: Response) -> Block {
    Block::new(2).with_size(0).with_response(response)
}

/// From URN 207 to URN 3, a plain message in front of a block.
fn behind_a_message(block: Block) -> Header {
    Header::new(&[plain(), block])
        .with_originator(Address::urn(207))
        .with_recipients(&[Address::urn(3)])
        .with_header_size()
}

/// Records that break one rule each; the last one breaks two, the earlier of them in its second block.
fn broken_rules() -> Vec<(Header, u32, u32)> {
    let identity = Identity::new(5, 77);
    let receipt = Response::new(moment(), 1);
    let named = |umf: u32| Block::new(umf).with_size(1).with_identity(identity);
    let two = behind_a_message(plain());
    let nameless = Header::new(&[plain(), asking(plain()).with_origin(moment())]);
    let unsized_header = Header::new(&[Block::new(2), Block::new(2)]);
    let earlier_behind_later = Header::new(&[asking(plain()), named(1)])
        .with_originator(Address::urn(207))
        .with_header_size();
    vec![
        (nameless.with_header_size(), 41, 2),
        (behind_a_message(answering(receipt).with_perish(moment().dtg)), 42, 2),
        (behind_a_message(named(1)), 43, 2),
        (behind_a_message(named(4)), 44, 2),
        (behind_a_message(answering(receipt)).with_compression(0), 45, 2),
        (behind_a_message(Block::new(2)), 46, 2),
        (Header { sized: false, ..two }, 46, 0),
        (behind_a_message(answering(receipt.with_cantco(5))), 47, 2),
        (behind_a_message(answering(receipt.with_cantpro(44))), 48, 2),
        (behind_a_message(asking(plain())), 49, 2),
        (unsized_header, 46, 0),
        (earlier_behind_later, 43, 2),
    ]
}

/// Records with a wrong size; the number in front is the octets of data.
fn wrong_sizes() -> Vec<(usize, Header, u32, u32)> {
    let receipt = Response::new(moment(), 1);
    let forwarded = |size| Block::new(4).with_size(size).with_response(receipt);
    let answer = Header::new(&[Block::new(2).with_response(receipt)]);
    let both = Header::new(&[answering(receipt).with_size(1), Block::new(2).with_size(0)]);
    vec![
        (0, behind_a_message(plain()), 52, 0),
        (3, behind_a_message(plain()), 52, 0),
        (0, Header::new(&[Block::new(2)]), 53, 1),
        (1, behind_a_message(Block::new(2).with_size(0)), 53, 2),
        (1, behind_a_message(forwarded(0)), 53, 2),
        (2, behind_a_message(forwarded(1)), 53, 2),
        (2, behind_a_message(answering(receipt).with_size(1)), 54, 2),
        (1, answer, 54, 1),
        (1, both.with_header_size(), 53, 2),
    ]
}

/// Every call that is lent a record tells the same number and block, and leaves all as it was.
fn refused(header: &Header, count: usize, number: u32, block: u32) {
    let refusal = Refusal { number, place: 0, block };
    let (mut out, mut table) = ([0xA5; 64], Table::empty());
    assert_eq!(check(header, count), Err(refusal));
    assert_eq!(write(header, count, &mut out), Err(refusal));
    assert_eq!(table.post(header, 1, count), Err(refusal));
    assert_eq!(table.receipt(header, 2, count), Err(refusal));
    assert_eq!((out, table.count), ([0xA5; 64], 0));
}

#[test]
fn the_calls_tell_the_rule_and_the_block() {
    for (header, number, block) in broken_rules() {
        refused(&header, 2, number, block);
    }
}

#[test]
fn the_calls_tell_the_size_and_the_block() {
    for (count, header, number, block) in wrong_sizes() {
        refused(&header, count, number, block);
    }
}

/// UMF 2, no addresses, and a header size in bits 9 to 24: the header has 7 octets. A header of 5 octets has none.
#[test]
fn a_reading_tells_them_too() {
    let told = |octets: &[u8]| read(octets).map(|read| read.length);
    let refusal = |number, block| Err(Refusal { number, place: 0, block });
    assert_eq!(told(&[0x02, 0x0F, 0, 0x08, 0, 0, 0, 1]), Ok(7));
    assert_eq!(told(&[0x02, 0x0D, 0, 0x08, 0, 0, 0, 1]), refusal(51, 0));
    assert_eq!(told(&[0x02, 0x0D, 0, 0x08, 0, 0, 0]), refusal(51, 0));
    assert_eq!(told(&[0x02, 0x0F, 0, 0x08, 0, 0, 0]), refusal(53, 1));
    assert_eq!(told(&[0x02, 0x08, 0, 0, 0]), refusal(53, 1));
    assert_eq!(told(&[0x02, 0x08, 0, 0x20, 0, 1]), refusal(41, 1));
}
