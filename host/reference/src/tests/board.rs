use super::*;

fn asking(machine: bool, acknowledge: bool, reply: bool) -> Header {
    message(urn(207), vec![urn(3)], stamp(), requests(machine, acknowledge, reply))
}

fn key() -> Key {
    Key { address: urn(207), stamp: stamp() }
}

fn recipient(address: Address, machine: u32, acknowledge: u32, reply: u32) -> Recipient {
    Recipient { address, machine, acknowledge, reply }
}

fn one_row(asked: Requests, recipients: Vec<Recipient>) -> Board {
    Board { rows: vec![Row { key: key(), asked, recipients }] }
}

/// Thirty-two rows, originators 100 to 131.
fn full_board() -> Board {
    let mut board = Board::new();
    for i in 0..32 {
        let h = message(urn(100 + i), vec![urn(3)], stamp(), requests(true, false, false));
        assert_eq!(post(&mut board, &h, 1, 1), Ok(()));
    }
    assert!(well_formed(&board));
    board
}

#[test]
fn worked_b_and_c() {
    let b = read(&with_data(&B, &[0x01])).unwrap().0;
    let c = read(&C).unwrap().0;

    let mut board = Board::new();
    assert_eq!(receipt(&mut board, &c, 1, 0), Err(only(26)));
    assert_eq!(board, Board::new());

    assert_eq!(post(&mut board, &b, 1, 1), Ok(()));
    let open = one_row(requests(true, false, false), vec![recipient(urn(3), 0, 0, 0)]);
    assert_eq!(board, open);
    assert_eq!(post(&mut board, &b, 1, 1), Err(only(22)));
    assert_eq!(board, open);

    assert_eq!(receipt(&mut board, &c, 1, 0), Ok(()));
    let settled = one_row(requests(true, false, false), vec![recipient(urn(3), 1, 0, 0)]);
    assert_eq!(board, settled);
    assert_eq!(receipt(&mut board, &c, 1, 0), Err(only(28)));
    assert_eq!(board, settled);

    assert_eq!(release(&mut board, &key()), Ok(()));
    assert_eq!(board, Board::new());
    assert_eq!(release(&mut board, &key()), Err(only(26)));
}

#[test]
fn the_board_does_not_ask_for_the_version() {
    let b = read(&with_data(&B, &[0x01])).unwrap().0;
    let c = read(&C).unwrap().0;
    let b1 = read(&with_data(&B1, &[0x01])).unwrap().0;
    let c1 = read(&C1).unwrap().0;
    let settled = one_row(requests(true, false, false), vec![recipient(urn(3), 1, 0, 0)]);
    for (posting, answering) in [(&b1, &c1), (&b1, &c), (&b, &c1)] {
        let mut board = Board::new();
        assert_eq!(receipt(&mut board, answering, 1, 0), Err(only(26)));
        assert_eq!(post(&mut board, posting, 1, 1), Ok(()));
        // One message, in whichever version it comes again.
        assert_eq!(post(&mut board, &b, 1, 1), Err(only(22)));
        assert_eq!(post(&mut board, &b1, 1, 1), Err(only(22)));
        assert_eq!(receipt(&mut board, answering, 1, 0), Ok(()));
        assert_eq!(board, settled);
        assert_eq!(receipt(&mut board, &c, 1, 0), Err(only(28)));
        assert_eq!(receipt(&mut board, &c1, 1, 0), Err(only(28)));
    }
}

#[test]
fn refusals_of_a_posting() {
    let mut board = Board::new();
    // The record's own refusals, then 29, then what the board finds.
    let mut h = asking(true, false, false);
    h.version = 3;
    assert_eq!(post(&mut board, &h, 0, 1), Err(only(2)));
    h.version = 1;
    h.blocks[0].standard_version = Some(0);
    assert_eq!(post(&mut board, &h, 0, 1), Err(only(3)));
    let h = asking(true, false, false);
    assert_eq!(post(&mut board, &h, 0, 0), Err(in_block(53, 1)));
    assert_eq!(post(&mut board, &h, 0, u64::MAX), Err(only(12)));
    assert_eq!(post(&mut board, &h, 0, 1), Err(only(29)));
    assert_eq!(post(&mut board, &h, 2, 1), Err(only(29)));
    assert_eq!(post(&mut board, &h, u32::MAX, 1), Err(only(29)));

    assert_eq!(post(&mut board, &asking(false, false, false), 1, 1), Err(only(20)));
    assert_eq!(post(&mut board, &plain_header(), 1, 1), Err(only(20)));
    // A receipt asks nothing.
    assert_eq!(post(&mut board, &answer(urn(3), urn(207), stamp(), 1), 1, 0), Err(only(20)));
    // Nothing asked and no recipient: 20 first.
    let mut h = asking(false, false, false);
    h.recipients = None;
    assert_eq!(post(&mut board, &h, 1, 1), Err(only(20)));

    let mut h = asking(true, false, false);
    h.recipients = None;
    assert_eq!(post(&mut board, &h, 1, 1), Err(only(21)));
    // Information addressees owe nothing.
    h.information = Some(vec![urn(3)]);
    assert_eq!(post(&mut board, &h, 1, 1), Err(only(21)));
    assert_eq!(board, Board::new());
}

#[test]
fn thirty_two_and_thirty_three_rows() {
    let mut board = full_board();
    let before = board.clone();
    let new = message(urn(99), vec![urn(3)], stamp(), requests(true, false, false));
    assert_eq!(post(&mut board, &new, 1, 1), Err(only(23)));
    assert_eq!(board, before);
    // On a full board a held key is still told as held.
    let held = message(urn(100), vec![urn(3)], stamp(), requests(false, true, false));
    assert_eq!(post(&mut board, &held, 1, 1), Err(only(22)));
    assert_eq!(board, before);
    // And 21 comes before both.
    let mut nobody = new.clone();
    nobody.recipients = None;
    assert_eq!(post(&mut board, &nobody, 1, 1), Err(only(21)));
    // Room that is freed can be used.
    let k = Key { address: urn(115), stamp: stamp() };
    assert_eq!(release(&mut board, &k), Ok(()));
    assert_eq!(board.rows.len(), 31);
    assert_eq!(post(&mut board, &new, 1, 1), Ok(()));
    assert_eq!(board.rows.len(), 32);
    assert_eq!(board.rows[0].key.address, urn(99));
    assert!(well_formed(&board));
}

#[test]
fn rows_and_recipients_are_kept_in_order() {
    let mut board = Board::new();
    let to = vec![name(b"B"), urn(9), name(b"AB"), urn(2), name(b"A"), urn(9), name(b"B")];
    let post_key = |board: &mut Board, from: Address, s: Stamp| {
        let h = message(from, to.clone(), s, requests(true, false, true));
        assert_eq!(post(board, &h, 1, 1), Ok(()));
        assert!(well_formed(board));
    };
    let later = Stamp { dtg: Dtg { second: 56, ..dtg() }, extension: None };
    let earlier = Stamp { dtg: Dtg { year: 95, ..dtg() }, extension: Some(4095) };
    post_key(&mut board, name(b"Z"), stamp());
    post_key(&mut board, urn(7), extended(10));
    post_key(&mut board, urn(7), extended(9));
    post_key(&mut board, urn(7), extended(0));
    post_key(&mut board, urn(7), later.clone());
    post_key(&mut board, urn(7), stamp());
    post_key(&mut board, urn(7), earlier.clone());
    post_key(&mut board, name(b"Y"), later.clone());
    post_key(&mut board, name(b"YY"), earlier.clone());
    post_key(&mut board, urn(0xFF_FFFF), stamp());
    let keys: Vec<(Address, Stamp)> = board
        .rows
        .iter()
        .map(|r| (r.key.address.clone(), r.key.stamp.clone()))
        .collect();
    assert_eq!(
        keys,
        vec![
            (urn(7), earlier.clone()),
            (urn(7), stamp()),
            (urn(7), extended(0)),
            (urn(7), extended(9)),
            (urn(7), extended(10)),
            (urn(7), later.clone()),
            (urn(0xFF_FFFF), stamp()),
            (name(b"Y"), later),
            (name(b"YY"), earlier),
            (name(b"Z"), stamp()),
        ]
    );
    for row in &board.rows {
        let addresses: Vec<Address> = row.recipients.iter().map(|r| r.address.clone()).collect();
        assert_eq!(addresses, vec![urn(2), urn(9), name(b"A"), name(b"AB"), name(b"B")]);
    }
}

#[test]
fn no_extension_is_not_extension_0() {
    let mut board = Board::new();
    let asks = requests(true, false, false);
    assert_eq!(post(&mut board, &message(urn(207), vec![urn(3)], stamp(), asks.clone()), 1, 1), Ok(()));
    assert_eq!(receipt(&mut board, &answer(urn(3), urn(207), extended(0), 1), 1, 0), Err(only(26)));
    assert_eq!(post(&mut board, &message(urn(207), vec![urn(3)], extended(0), asks), 1, 1), Ok(()));
    assert_eq!(receipt(&mut board, &answer(urn(3), urn(207), extended(0), 1), 1, 0), Ok(()));
    assert_eq!(board.rows[0].recipients[0].machine, 0);
    assert_eq!(board.rows[1].recipients[0].machine, 1);
}

#[test]
fn refusals_of_a_receipt() {
    let mut board = Board::new();
    assert_eq!(post(&mut board, &asking(true, false, false), 1, 1), Ok(()));
    let before = board.clone();

    let good = answer(urn(3), urn(207), stamp(), 1);
    let mut h = old(&good);
    h.blocks[0].standard_version = Some(0);
    assert_eq!(receipt(&mut board, &h, 0, 1), Err(only(3)));
    h.version = 0;
    assert_eq!(receipt(&mut board, &h, 0, 1), Err(only(2)));
    assert_eq!(receipt(&mut board, &good, 0, 1), Err(in_block(54, 1)));
    assert_eq!(receipt(&mut board, &good, 0, 0), Err(only(29)));
    assert_eq!(receipt(&mut board, &good, 2, 0), Err(only(29)));
    assert_eq!(receipt(&mut board, &asking(true, false, false), 1, 1), Err(only(24)));

    // 24 before 25
    assert_eq!(receipt(&mut board, &plain_header(), 1, 1), Err(only(24)));
    let mut h = good.clone();
    h.originator = None;
    assert_eq!(receipt(&mut board, &h, 1, 0), Err(only(25)));
    let mut h = good.clone();
    h.recipients = None;
    assert_eq!(receipt(&mut board, &h, 1, 0), Err(only(25)));
    // Entries count, even if they are the same address twice.
    let mut h = good.clone();
    h.recipients = Some(vec![urn(207), urn(207)]);
    assert_eq!(receipt(&mut board, &h, 1, 0), Err(only(25)));
    // An information addressee is no matter.
    let mut h = good.clone();
    h.recipients = None;
    h.information = Some(vec![urn(207)]);
    assert_eq!(receipt(&mut board, &h, 1, 0), Err(only(25)));

    // A wrong asker with the right time, and the other way round.
    assert_eq!(receipt(&mut board, &answer(urn(3), urn(208), stamp(), 1), 1, 0), Err(only(26)));
    assert_eq!(receipt(&mut board, &answer(urn(3), name(b"207"), stamp(), 1), 1, 0), Err(only(26)));
    let mut other = good.clone();
    other.blocks[0].response.as_mut().unwrap().stamp.dtg.second = 54;
    assert_eq!(receipt(&mut board, &other, 1, 0), Err(only(26)));

    assert_eq!(receipt(&mut board, &answer(urn(4), urn(207), stamp(), 1), 1, 0), Err(only(27)));
    assert_eq!(receipt(&mut board, &answer(name(b"3"), urn(207), stamp(), 1), 1, 0), Err(only(27)));
    // The asker himself is not a recipient.
    assert_eq!(receipt(&mut board, &answer(urn(207), urn(207), stamp(), 1), 1, 0), Err(only(27)));

    for code in [3, 4, 5, 6] {
        assert_eq!(receipt(&mut board, &answer(urn(3), urn(207), stamp(), code), 1, 0), Err(only(28)));
    }
    assert_eq!(board, before);

    // Information addressees and one entry in G2 still make a receipt.
    let mut h = good.clone();
    h.information = Some(vec![urn(5)]);
    assert_eq!(receipt(&mut board, &h, 1, 0), Ok(()));
}

#[test]
fn each_code_settles_its_request_once() {
    // (code, cells afterwards with all three asked)
    for (code, cells) in [
        (1, (1, 0, 0)),
        (2, (2, 2, 2)),
        (3, (0, 3, 0)),
        (4, (0, 0, 4)),
        (5, (0, 0, 5)),
        (6, (0, 0, 6)),
    ] {
        let mut board = Board::new();
        assert_eq!(post(&mut board, &asking(true, true, true), 1, 1), Ok(()));
        let h = answer(urn(3), urn(207), stamp(), code);
        assert_eq!(receipt(&mut board, &h, 1, 0), Ok(()));
        let r = &board.rows[0].recipients[0];
        assert_eq!((r.machine, r.acknowledge, r.reply), cells);
        assert!(well_formed(&board));
        assert_eq!(receipt(&mut board, &h, 1, 0), Err(only(28)));
    }
}

#[test]
fn a_code_once_written_stays() {
    let mut board = Board::new();
    assert_eq!(post(&mut board, &asking(false, true, true), 1, 1), Ok(()));
    let say = |board: &mut Board, code| receipt(board, &answer(urn(3), urn(207), stamp(), code), 1, 0);
    // Will comply, then have complied.
    assert_eq!(say(&mut board, 4), Ok(()));
    assert_eq!(say(&mut board, 5), Err(only(28)));
    assert_eq!(say(&mut board, 6), Err(only(28)));
    assert_eq!(board.rows[0].recipients[0].reply, 4);
    // Cannot process takes what is left.
    assert_eq!(say(&mut board, 1), Err(only(28)));
    assert_eq!(say(&mut board, 2), Ok(()));
    let r = board.rows[0].recipients[0].clone();
    assert_eq!((r.machine, r.acknowledge, r.reply), (0, 2, 4));
    assert!(well_formed(&board));
    for code in 1..=6 {
        assert_eq!(say(&mut board, code), Err(only(28)));
    }
    assert_eq!(board.rows[0].recipients[0], r);
}

#[test]
fn a_receipt_settles_its_own_answerer_only() {
    let mut board = Board::new();
    let h = message(urn(207), vec![urn(5), urn(3)], stamp(), requests(true, false, false));
    assert_eq!(post(&mut board, &h, 1, 1), Ok(()));
    assert_eq!(receipt(&mut board, &answer(urn(5), urn(207), stamp(), 2), 1, 0), Ok(()));
    assert_eq!(
        board.rows[0].recipients,
        vec![recipient(urn(3), 0, 0, 0), recipient(urn(5), 2, 0, 0)]
    );
}

#[test]
fn a_later_block_can_be_posted() {
    let mut h = asking(true, false, false);
    h.sized = true;
    h.blocks[0].message_size = Some(1);
    let mut second = h.blocks[0].clone();
    second.stamp = Some(extended(3));
    second.requests = Some(requests(false, false, true));
    h.blocks.push(second);
    let mut board = Board::new();
    assert_eq!(post(&mut board, &h, 2, 2), Ok(()));
    assert_eq!(board.rows[0].key.stamp, extended(3));
    assert_eq!(board.rows[0].asked, requests(false, false, true));
    assert_eq!(post(&mut board, &h, 3, 2), Err(only(29)));
}

#[test]
fn release_with_an_illegal_key() {
    let mut board = Board::new();
    let k = |address: Address, stamp: Stamp| Key { address, stamp };
    let wide = Address { urn: Some(1 << 24), name: Some(vec![]) };
    assert_eq!(release(&mut board, &k(wide, stamp())), Err(only(3)));
    let both_empty = Address { urn: Some(1), name: Some(vec![]) };
    assert_eq!(release(&mut board, &k(both_empty, stamp())), Err(only(6)));
    assert_eq!(release(&mut board, &k(neither(), stamp())), Err(only(6)));
    assert_eq!(release(&mut board, &k(name(b""), extended(4096))), Err(only(4)));
    assert_eq!(release(&mut board, &k(name(&[65; 65]), stamp())), Err(only(4)));
    assert_eq!(release(&mut board, &k(urn(1), extended(4096))), Err(only(3)));
    let bad = Stamp { dtg: Dtg { minute: 60, ..dtg() }, extension: None };
    assert_eq!(release(&mut board, &k(urn(1), bad)), Err(only(3)));
    let mut bad = stamp();
    (bad.dtg.month, bad.dtg.day) = (6, 31);
    assert_eq!(release(&mut board, &k(urn(1), bad)), Err(only(3)));
    assert_eq!(release(&mut board, &k(urn(1), extended(4095))), Err(only(26)));
}

#[test]
fn boards_that_are_not_well_formed() {
    let m = || requests(true, false, false);
    let all = || requests(true, true, true);
    let good = one_row(m(), vec![recipient(urn(3), 0, 0, 0)]);
    assert!(well_formed(&Board::new()));
    assert!(well_formed(&good));

    let mut bad: Vec<Board> = Vec::new();
    // Too many rows.
    let mut b = full_board();
    let mut extra = b.rows[31].clone();
    extra.key.address = urn(132);
    b.rows.push(extra);
    bad.push(b);
    // Keys out of order, or twice.
    let mut b = full_board();
    b.rows.swap(3, 4);
    bad.push(b);
    let mut b = full_board();
    b.rows[4] = b.rows[3].clone();
    bad.push(b);
    // Illegal keys.
    for address in [both(), neither(), urn(1 << 24), name(b""), name(&[127]), name(&[65; 65])] {
        let mut b = good.clone();
        b.rows[0].key.address = address.clone();
        bad.push(b);
        let mut b = good.clone();
        b.rows[0].recipients[0].address = address;
        bad.push(b);
    }
    let mut b = good.clone();
    b.rows[0].key.stamp = extended(4096);
    bad.push(b);
    let mut b = good.clone();
    b.rows[0].key.stamp.dtg.month = 0;
    bad.push(b);
    let mut b = good.clone();
    b.rows[0].key.stamp.dtg.month = 6;
    b.rows[0].key.stamp.dtg.day = 31;
    bad.push(b);
    // Nothing asked.
    bad.push(one_row(requests(false, false, false), vec![recipient(urn(3), 0, 0, 0)]));
    // None, too many, unordered or doubled recipients.
    bad.push(one_row(m(), vec![]));
    bad.push(one_row(m(), (0..17).map(|i| recipient(urn(i), 0, 0, 0)).collect()));
    bad.push(one_row(m(), vec![recipient(urn(4), 0, 0, 0), recipient(urn(3), 0, 0, 0)]));
    bad.push(one_row(m(), vec![recipient(urn(3), 0, 0, 0), recipient(urn(3), 0, 0, 0)]));
    bad.push(one_row(m(), vec![recipient(name(b"A"), 0, 0, 0), recipient(urn(3), 0, 0, 0)]));
    // A code where nothing was asked.
    bad.push(one_row(m(), vec![recipient(urn(3), 1, 3, 0)]));
    bad.push(one_row(m(), vec![recipient(urn(3), 2, 2, 0)]));
    bad.push(one_row(m(), vec![recipient(urn(3), 1, 0, 4)]));
    bad.push(one_row(requests(false, true, false), vec![recipient(urn(3), 1, 0, 0)]));
    // A code that doesn't fit.
    for code in [3, 4, 5, 6, 7, u32::MAX] {
        bad.push(one_row(all(), vec![recipient(urn(3), code, 0, 0)]));
    }
    for code in [1, 4, 5, 6, 7] {
        bad.push(one_row(all(), vec![recipient(urn(3), 0, code, 0)]));
    }
    for code in [1, 3, 7] {
        bad.push(one_row(all(), vec![recipient(urn(3), 0, 0, code)]));
    }
    // A 2 beside something open.
    bad.push(one_row(all(), vec![recipient(urn(3), 2, 2, 0)]));
    bad.push(one_row(all(), vec![recipient(urn(3), 0, 2, 4)]));
    bad.push(one_row(all(), vec![recipient(urn(3), 1, 0, 2)]));

    for (i, b) in bad.iter().enumerate() {
        assert!(!well_formed(b), "board {i}");
        let mut board = b.clone();
        // Ahead of everything else, a bad record and a bad key included.
        let mut h = asking(true, false, false);
        h.version = 9;
        assert_eq!(post(&mut board, &h, 0, 0), Err(only(30)));
        assert_eq!(receipt(&mut board, &h, 0, 0), Err(only(30)));
        assert_eq!(release(&mut board, &Key { address: both(), stamp: stamp() }), Err(only(30)));
        assert_eq!(listing(&board, 0), Err(only(30)));
        assert_eq!(listing(&board, 77), Err(only(30)));
        assert_eq!(list_row(&board, 0, &mut []), Err(only(30)));
        assert_eq!(board, *b);
    }

    // Beside them, boards that are in order.
    assert!(well_formed(&one_row(all(), vec![recipient(urn(3), 2, 2, 4)])));
    assert!(well_formed(&one_row(all(), vec![recipient(urn(3), 1, 2, 2)])));
    assert!(well_formed(&one_row(m(), vec![recipient(urn(3), 2, 0, 0)])));
    assert!(well_formed(&one_row(all(), vec![recipient(urn(3), 2, 2, 2), recipient(urn(4), 0, 0, 0)])));
    assert!(well_formed(&one_row(m(), (0..16).map(|i| recipient(urn(i), 0, 0, 0)).collect())));
}
