//! Which rule or size is told, and in which block (Ticket 2 of document 02).

use super::by_hand::{header_octets, header_telling};
use super::*;

/// A header of so many blocks with one octet of data each.
fn several(count: usize) -> Header {
    let mut h = plain_header();
    h.originator = Some(urn(207));
    h.recipients = Some(vec![urn(3)]);
    h.sized = true;
    let mut b = plain_block();
    b.message_size = Some(1);
    h.blocks = vec![b; count];
    h
}

fn identity() -> Option<Identity> {
    Some(Identity { fad: 1, number: 1, subtype: None })
}

/// Turns a block, counted from 1, into an answer without data.
fn make_answer(h: &mut Header, block: usize) -> &mut Response {
    let b = &mut h.blocks[block - 1];
    b.message_size = Some(0);
    b.response = Some(response(stamp(), 1));
    b.response.as_mut().unwrap()
}

/// Breaks one rule, by its letter, in one block counted from 1. Nothing else is
/// spoilt, so that the record would be in order if the rule were not there.
fn break_rule(h: &mut Header, rule: char, block: usize) {
    match rule {
        'a' => {
            h.originator = None;
            h.blocks[block - 1].requests = Some(requests(false, false, false));
        }
        'b' => {
            make_answer(h, block);
            h.blocks[block - 1].perishable = Some(dtg());
        }
        'c' => {
            h.blocks[block - 1].umf = 1;
            h.blocks[block - 1].identity = identity();
        }
        'd' => {
            h.blocks[block - 1].umf = 4;
            h.blocks[block - 1].identity = identity();
        }
        'e' => {
            h.compression = Some(0);
            make_answer(h, block);
        }
        'f' => h.blocks[block - 1].message_size = None,
        'g' => make_answer(h, block).cantco = Some(0),
        'h' => make_answer(h, block).cantpro = Some(0),
        'i' => h.blocks[block - 1].requests = Some(requests(false, true, false)),
        _ => unreachable!(),
    }
}

const RULES: [(char, u32); 9] = [
    ('a', 41),
    ('b', 42),
    ('c', 43),
    ('d', 44),
    ('e', 45),
    ('f', 46),
    ('g', 47),
    ('h', 48),
    ('i', 49),
];

/// The octets of data that the sizes ask for; one for a block without a size.
fn data_of(h: &Header) -> usize {
    let mut count = 0;
    for b in &h.blocks {
        count += b.message_size.unwrap_or(1) as usize;
    }
    count
}

/// The refusal of a record by the writer's checks. All other calls that judge a
/// record, and the reader for its octets, must give the same one.
fn refusal_with(h: &Header, count: usize) -> Refusal {
    let refusal = check(h, count as u64).unwrap_err();
    let mut out = vec![0xEE; 2000];
    assert_eq!(write(h, count as u64, &mut out), Err(refusal));
    assert_eq!(write(h, count as u64, &mut []), Err(refusal));
    assert_eq!(out, vec![0xEE; 2000]);

    let d = with_data(&header_octets(h), &vec![0xAA; count]);
    assert_eq!(read(&d), Err(refusal));
    assert_eq!(user_data(&d), &[] as &[u8]);

    // The block that a call is for does not matter, nor whether there is one.
    let mut board = Board::new();
    let posted = message(urn(207), vec![urn(3)], stamp(), requests(true, false, false));
    assert_eq!(post(&mut board, &posted, 1, 1), Ok(()));
    let before = board.clone();
    for block in [0, 1, 2, 3, 17, u32::MAX] {
        assert_eq!(post(&mut board, h, block, count as u64), Err(refusal));
        assert_eq!(receipt(&mut board, h, block, count as u64), Err(refusal));
    }
    assert_eq!(board, before);
    refusal
}

/// The same with the data that the sizes ask for.
fn refusal(h: &Header) -> Refusal {
    refusal_with(h, data_of(h))
}

#[test]
fn each_rule_in_each_block() {
    for version in [1, 2] {
        for (rule, number) in RULES {
            for block in 1..=3 {
                let mut h = several(3);
                h.version = version;
                assert!(check(&h, 3).is_ok());
                break_rule(&mut h, rule, block);
                assert_eq!(refusal(&h), in_block(number, block as u32), "rule {rule}");
            }
            // The last of as many as there can be.
            let mut h = several(16);
            h.version = version;
            break_rule(&mut h, rule, 16);
            assert_eq!(refusal(&h), in_block(number, 16), "rule {rule}");
        }
    }
}

#[test]
fn both_halves_of_rule_b() {
    for block in 1..=3 {
        let mut h = several(3);
        make_answer(&mut h, block);
        assert!(check(&h, 2).is_ok());
        h.blocks[block - 1].requests = Some(requests(false, false, false));
        assert_eq!(refusal(&h), in_block(42, block as u32));
        h.blocks[block - 1].requests = None;
        h.blocks[block - 1].perishable = Some(dtg());
        assert_eq!(refusal(&h), in_block(42, block as u32));
    }
    // One half in each of two blocks: the first block counts, not the half.
    let mut h = several(3);
    make_answer(&mut h, 2);
    make_answer(&mut h, 3);
    h.blocks[1].requests = Some(requests(false, false, false));
    h.blocks[2].perishable = Some(dtg());
    assert_eq!(refusal(&h), in_block(42, 2));
}

#[test]
fn the_first_block_that_breaks_a_rule_is_told() {
    for (rule, number) in RULES {
        let mut h = several(4);
        for block in [4, 2, 3] {
            break_rule(&mut h, rule, block);
        }
        assert_eq!(refusal(&h), in_block(number, 2), "rule {rule}");
        break_rule(&mut h, rule, 1);
        assert_eq!(refusal(&h), in_block(number, 1), "rule {rule}");
    }
}

#[test]
fn an_earlier_rule_in_a_later_block_goes_first() {
    for (i, (first, number)) in RULES.iter().enumerate() {
        for (second, _) in &RULES[i + 1..] {
            let mut h = several(3);
            break_rule(&mut h, *first, 3);
            break_rule(&mut h, *second, 1);
            // Two rules look at the header too, so that what breaks the later
            // one in block 1 breaks them there as well: G7 without originator,
            // and an answer beside compression.
            let expected = match (*first, *second) {
                ('a', 'i') => in_block(41, 1),
                ('e', 'g') | ('e', 'h') => in_block(45, 1),
                _ => in_block(*number, 3),
            };
            assert_eq!(refusal(&h), expected, "rules {first} and {second}");

            // The other way round there is nothing to choose.
            let mut h = several(3);
            break_rule(&mut h, *first, 1);
            break_rule(&mut h, *second, 3);
            assert_eq!(refusal(&h), in_block(*number, 1), "rules {first} and {second}");
        }
    }
}

#[test]
fn several_rules_in_one_block() {
    // (b) to (e) and (g), (h) at once, taken away one by one.
    let mut h = several(2);
    break_rule(&mut h, 'e', 2);
    h.blocks[1].requests = Some(requests(true, true, true));
    h.blocks[1].umf = 1;
    h.blocks[1].identity = identity();
    let r = h.blocks[1].response.as_mut().unwrap();
    r.code = 4;
    r.cantco = Some(1);
    r.cantpro = Some(1);
    h.originator = None;
    assert_eq!(refusal(&h), in_block(41, 2));
    h.originator = Some(urn(207));
    assert_eq!(refusal(&h), in_block(42, 2));
    h.blocks[1].requests = None;
    assert_eq!(refusal(&h), in_block(43, 2));
    h.blocks[1].umf = 4;
    assert_eq!(refusal(&h), in_block(44, 2));
    h.blocks[1].identity = None;
    assert_eq!(refusal(&h), in_block(45, 2));
    h.compression = None;
    assert_eq!(refusal(&h), in_block(47, 2));
    h.blocks[1].response.as_mut().unwrap().cantco = None;
    assert_eq!(refusal(&h), in_block(48, 2));
    // What is left is an answer to be forwarded, which only the sizes refuse.
    h.blocks[1].response.as_mut().unwrap().cantpro = None;
    assert_eq!(refusal(&h), in_block(53, 2));
    h.blocks[1].umf = 2;
    assert!(check(&h, 1).is_ok());
}

#[test]
fn rule_f_with_and_without_the_header_size() {
    // Without: no block is to blame, whether sizes are missing too or not.
    let mut h = several(3);
    h.sized = false;
    assert_eq!(refusal(&h), only(46));
    for block in [3, 2, 1] {
        break_rule(&mut h, 'f', block);
        assert_eq!(refusal(&h), only(46));
    }
    // With: the first block that lacks its size.
    h.sized = true;
    assert_eq!(refusal(&h), in_block(46, 1));
    h.blocks[0].message_size = Some(1);
    assert_eq!(refusal(&h), in_block(46, 2));
    h.blocks[1].message_size = Some(1);
    assert_eq!(refusal(&h), in_block(46, 3));
    h.blocks[2].message_size = Some(1);
    assert!(check(&h, 3).is_ok());
}

#[test]
fn rule_f_does_not_ask_a_single_block() {
    for sized in [false, true] {
        for size in [None, Some(1)] {
            let mut h = several(1);
            h.sized = sized;
            h.blocks[0].message_size = size;
            assert!(check(&h, 1).is_ok());
            assert!(read(&with_data(&header_octets(&h), &[0])).is_ok());
        }
    }
}

#[test]
fn rule_f_stands_between_its_neighbours_also_without_a_block() {
    let mut h = several(3);
    h.sized = false;
    break_rule(&mut h, 'g', 1);
    assert_eq!(refusal(&h), only(46));
    break_rule(&mut h, 'e', 3);
    assert_eq!(refusal(&h), in_block(45, 1));
    let mut h = several(3);
    h.sized = false;
    break_rule(&mut h, 'e', 3);
    assert_eq!(refusal(&h), in_block(45, 3));
}

#[test]
fn sixteen_blocks_and_the_last_without_a_size() {
    let mut h = several(16);
    assert!(check(&h, 16).is_ok());
    h.blocks[15].message_size = None;
    for count in [0, 15, 16, 17] {
        assert_eq!(refusal_with(&h, count), in_block(46, 16));
    }
    // The same bit by bit: 8 + 1 + 16 bits, fifteen blocks of 24 + 20, one of
    // 24. That is 709 bits, 89 octets.
    let mut m = Hand::new();
    m.start().n(1, 1).n(89, 16);
    for _ in 0..15 {
        m.n(1, 1).n(2, 4).n(0, 3).n(1, 1).n(1, 20).n(0, 15);
    }
    m.last_block();
    assert_eq!(m.octets().len(), 89);
    assert_eq!(read(&with_data(&m.octets(), &[7; 16])), Err(in_block(46, 16)));
}

#[test]
fn sizes_come_after_every_rule() {
    for (rule, number) in RULES {
        let mut h = several(3);
        break_rule(&mut h, rule, 3);
        // An empty body in the first block, a sum that is wrong, and a header
        // size that is.
        h.blocks[0].message_size = Some(0);
        assert_eq!(refusal_with(&h, 77), in_block(number, 3), "rule {rule}");
        let d = with_data(&header_telling(&h, 1), &[0; 77]);
        assert_eq!(read(&d), Err(in_block(number, 3)), "rule {rule}");
    }
}

#[test]
fn the_header_size_comes_before_the_sum() {
    let h = several(3);
    let octets = header_octets(&h).len() as u32;
    for told in [0, octets - 1, octets + 1, 65_535] {
        let wrong = header_telling(&h, told);
        // Beside a right sum, then beside wrong ones.
        for count in [3, 0, 2, 4] {
            let d = with_data(&wrong, &vec![0; count]);
            assert_eq!(read(&d), Err(only(51)));
            assert_eq!(user_data(&d), &[] as &[u8]);
        }
    }
    for count in [0, 2, 4] {
        assert_eq!(refusal_with(&h, count), only(52));
    }

    // Before a body that is missing, one that must not be, and both at once.
    let mut h = several(2);
    h.blocks[1].message_size = Some(0);
    assert_eq!(read(&with_data(&header_telling(&h, 0), &[0])), Err(only(51)));
    make_answer(&mut h, 1);
    h.blocks[0].message_size = Some(1);
    assert_eq!(read(&with_data(&header_telling(&h, 0), &[0])), Err(only(51)));
    h.blocks[1].message_size = Some(1);
    assert_eq!(read(&with_data(&header_telling(&h, 0), &[0, 0])), Err(only(51)));
    assert_eq!(refusal(&h), in_block(54, 1));

    // A single block's header size is judged too, with or without its own.
    for size in [None, Some(1)] {
        let mut h = several(1);
        h.blocks[0].message_size = size;
        assert_eq!(read(&with_data(&header_telling(&h, 5), &[0])), Err(only(51)));
        assert_eq!(read(&header_telling(&h, 5)), Err(only(51)));
    }
}

#[test]
fn fill_comes_before_the_header_size() {
    // 8 + 1 + 16 + 24 bits, hence seven octets, of which seven bits are fill.
    let mut m = Hand::new();
    m.start().n(1, 1).n(8, 16).last_block();
    assert_eq!(m.place(), 49);
    assert_eq!(read(&m.datagram()), Err(only(51)));
    m.n(0, 6).n(1, 1);
    assert_eq!(read(&m.datagram()), Err(at(9, 55)));
}

#[test]
fn the_sum_comes_before_a_missing_body() {
    // Sizes 0 and 1 want one octet.
    let mut h = several(2);
    h.blocks[0].message_size = Some(0);
    assert_eq!(refusal_with(&h, 0), only(52));
    assert_eq!(refusal_with(&h, 1), in_block(53, 1));
    assert_eq!(refusal_with(&h, 2), only(52));
    // So does a single block that tells a size.
    let mut h = several(1);
    h.blocks[0].message_size = Some(0);
    assert_eq!(refusal_with(&h, 1), only(52));
    assert_eq!(refusal_with(&h, 0), in_block(53, 1));
    // Before a body too many as well.
    let mut h = several(2);
    make_answer(&mut h, 2);
    h.blocks[1].message_size = Some(5);
    assert_eq!(refusal_with(&h, 1), only(52));
    assert_eq!(refusal_with(&h, 6), in_block(54, 2));
    // Without a size there is no sum to be wrong.
    let mut h = several(1);
    h.blocks[0].message_size = None;
    assert_eq!(refusal_with(&h, 0), in_block(53, 1));
    make_answer(&mut h, 1);
    h.blocks[0].message_size = None;
    assert_eq!(refusal_with(&h, 300), in_block(54, 1));
}

#[test]
fn a_missing_body_and_one_too_many_in_each_block() {
    for count in [1, 2, 3, 16] {
        for block in 1..=count {
            let mut h = several(count);
            h.blocks[block - 1].message_size = Some(0);
            assert_eq!(refusal(&h), in_block(53, block as u32));
            make_answer(&mut h, block);
            assert!(check(&h, count as u64 - 1).is_ok());
            h.blocks[block - 1].message_size = Some(2);
            assert_eq!(refusal(&h), in_block(54, block as u32));
        }
    }
    // The first of several counts.
    let mut h = several(4);
    h.blocks[3].message_size = Some(0);
    h.blocks[1].message_size = Some(0);
    assert_eq!(refusal(&h), in_block(53, 2));
    let mut h = several(4);
    for block in [4, 2] {
        make_answer(&mut h, block);
        h.blocks[block - 1].message_size = Some(1);
    }
    assert_eq!(refusal(&h), in_block(54, 2));
}

#[test]
fn a_missing_body_goes_before_one_too_many_in_an_earlier_block() {
    let mut h = several(3);
    make_answer(&mut h, 1);
    h.blocks[0].message_size = Some(1);
    assert_eq!(refusal(&h), in_block(54, 1));
    h.blocks[2].message_size = Some(0);
    assert_eq!(refusal(&h), in_block(53, 3));
    h.blocks[1].message_size = Some(0);
    assert_eq!(refusal(&h), in_block(53, 2));

    // Bit by bit with two blocks. The first is an answer and tells one octet,
    // 24 + 20 + 40 bits; the 40 are DTG 33, extension 1, code 3, two reasons 1
    // each, amplification 1. The second tells no octet, 24 + 20 bits. With the
    // 25 in front that is 153 bits, 20 octets.
    let mut m = Hand::new();
    m.start().n(1, 1).n(20, 16);
    m.n(1, 1).n(2, 4).n(0, 3).n(1, 1).n(1, 20).n(0, 8).n(0, 4);
    m.n(1, 1).dtg().n(0, 1).n(1, 3).n(0, 3).n(0, 2);
    m.n(0, 1).n(2, 4).n(0, 3).n(1, 1).n(0, 20).n(0, 15);
    assert_eq!(m.place(), 153);
    assert_eq!(read(&m.datagram()), Err(in_block(53, 2)));
}

#[test]
fn a_forwarded_answer_lacks_its_body_at_any_size() {
    let forwarded = |size: Option<u32>| {
        let mut h = several(1);
        make_answer(&mut h, 1);
        h.blocks[0].umf = 4;
        h.blocks[0].message_size = size;
        h
    };
    assert_eq!(refusal_with(&forwarded(Some(0)), 0), in_block(53, 1));
    assert_eq!(refusal_with(&forwarded(Some(1)), 1), in_block(53, 1));
    for count in [0, 1, 2, 300] {
        assert_eq!(refusal_with(&forwarded(None), count), in_block(53, 1));
    }
    let mut unsized_header = forwarded(None);
    unsized_header.sized = false;
    assert_eq!(refusal_with(&unsized_header, 0), in_block(53, 1));
    // Only once the sizes before it are right.
    assert_eq!(refusal_with(&forwarded(Some(0)), 1), only(52));
    assert_eq!(refusal_with(&forwarded(Some(1)), 0), only(52));
    for size in [None, Some(0), Some(1)] {
        for count in [0, 1] {
            let d = with_data(&header_telling(&forwarded(size), 0), &vec![0; count]);
            assert_eq!(read(&d), Err(only(51)));
        }
    }
    // Either half alone is in order.
    let mut h = forwarded(Some(0));
    h.blocks[0].umf = 2;
    assert!(check(&h, 0).is_ok());
    let mut h = forwarded(Some(1));
    h.blocks[0].response = None;
    assert!(check(&h, 1).is_ok());
}

#[test]
fn a_forwarded_answer_among_other_blocks() {
    for size in [0, 1] {
        let mut h = several(4);
        make_answer(&mut h, 3);
        h.blocks[2].umf = 4;
        h.blocks[2].message_size = Some(size);
        assert_eq!(refusal(&h), in_block(53, 3));
        // Ahead of a body too many in an earlier block.
        make_answer(&mut h, 1);
        h.blocks[0].message_size = Some(1);
        assert_eq!(refusal(&h), in_block(53, 3));
        // In turn with other missing bodies, later and earlier.
        h.blocks[3].message_size = Some(0);
        assert_eq!(refusal(&h), in_block(53, 3));
        h.blocks[1].message_size = Some(0);
        assert_eq!(refusal(&h), in_block(53, 2));
    }
}

#[test]
fn the_worked_headers_with_the_wrong_data() {
    // A without data.
    assert_eq!(read(&A), Err(Refusal { number: 53, place: 0, block: 1 }));
    assert_eq!(refusal_with(&plain_header(), 0), in_block(53, 1));
    assert_eq!(read(&A1), Err(in_block(53, 1)));
    // B without, C with.
    let b = message(urn(207), vec![urn(3)], stamp(), requests(true, false, false));
    let c = answer(urn(3), urn(207), stamp(), 1);
    assert_eq!(refusal_with(&b, 0), in_block(53, 1));
    assert_eq!(refusal_with(&c, 1), in_block(54, 1));
    // B without its originator or its stamp.
    let mut h = b.clone();
    h.originator = None;
    assert_eq!(refusal_with(&h, 1), in_block(41, 1));
    let mut h = b.clone();
    h.blocks[0].stamp = None;
    assert_eq!(refusal_with(&h, 1), in_block(49, 1));
}

#[test]
fn board_calls_tell_the_block_at_fault_and_not_the_one_asked_for() {
    let mut board = Board::new();
    let mut h = several(3);
    for b in &mut h.blocks {
        b.stamp = Some(stamp());
        b.requests = Some(requests(true, false, false));
    }
    h.blocks[1].stamp = None;
    assert_eq!(post(&mut board, &h, 1, 3), Err(in_block(49, 2)));
    assert_eq!(post(&mut board, &h, 3, 3), Err(in_block(49, 2)));
    assert_eq!(receipt(&mut board, &h, 3, 3), Err(in_block(49, 2)));
    // Before 29.
    assert_eq!(post(&mut board, &h, 4, 3), Err(in_block(49, 2)));
    h.blocks[1].stamp = Some(extended(1));
    assert_eq!(post(&mut board, &h, 4, 3), Err(only(29)));
    assert_eq!(post(&mut board, &h, 1, 2), Err(only(52)));
    h.blocks[2].message_size = Some(0);
    assert_eq!(post(&mut board, &h, 1, 2), Err(in_block(53, 3)));
    assert_eq!(board, Board::new());
    h.blocks[2].message_size = Some(1);
    assert_eq!(post(&mut board, &h, 1, 3), Ok(()));

    // A receipt in block 1, the fault in block 2.
    let mut h = several(2);
    h.originator = Some(urn(3));
    h.recipients = Some(vec![urn(207)]);
    make_answer(&mut h, 1);
    make_answer(&mut h, 2).cantco = Some(1);
    assert_eq!(receipt(&mut board, &h, 1, 0), Err(in_block(47, 2)));
    h.blocks[1].response.as_mut().unwrap().cantco = None;
    h.blocks[1].message_size = Some(1);
    assert_eq!(receipt(&mut board, &h, 1, 1), Err(in_block(54, 2)));
    h.blocks[1].message_size = Some(0);
    assert_eq!(receipt(&mut board, &h, 1, 0), Ok(()));
    assert_eq!(board.rows[0].recipients[0].machine, 1);
}

#[test]
fn a_board_that_is_not_well_formed_goes_before_the_rules() {
    let posted = message(urn(207), vec![urn(3)], stamp(), requests(true, false, false));
    let mut board = Board::new();
    assert_eq!(post(&mut board, &posted, 1, 1), Ok(()));
    board.rows[0].recipients.clear();
    let mut h = several(2);
    break_rule(&mut h, 'c', 2);
    assert_eq!(post(&mut board, &h, 1, 2), Err(only(30)));
    assert_eq!(receipt(&mut board, &h, 1, 2), Err(only(30)));
}

#[test]
fn faults_of_a_field_tell_no_block() {
    // Although the field stands in the third block.
    let mut h = several(3);
    h.blocks[2].umf = 9;
    assert_eq!(check(&h, 3), Err(only(3)));
    let mut h = several(3);
    h.blocks[2].file_name = Some(vec![]);
    assert_eq!(check(&h, 3), Err(only(4)));
    let mut h = several(3);
    h.blocks[2].references = Some(vec![]);
    assert_eq!(check(&h, 3), Err(only(5)));
    let mut h = several(3);
    h.blocks[2].references = Some(vec![Reference { address: both(), stamp: stamp() }]);
    assert_eq!(check(&h, 3), Err(only(6)));
    // Before the rules, even in an earlier block.
    break_rule(&mut h, 'c', 1);
    assert_eq!(check(&h, 3), Err(only(6)));

    // While reading: 8 + 1 + 16 bits, then a block of 44; the second block's UMF
    // stands behind its recurrence bit.
    let mut m = Hand::new();
    m.start().n(1, 1).n(15, 16);
    m.n(1, 1).n(2, 4).n(0, 3).n(1, 1).n(1, 20).n(0, 15);
    m.n(0, 1).n(9, 4);
    assert_eq!(read(&m.octets()), Err(at(3, 70)));
    assert_eq!(read(&m.octets()[..9]), Err(at(1, 70)));
}
