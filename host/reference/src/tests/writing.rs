use super::*;

/// The single-field faults of a record with one block and one octet of data.
fn refused(change: fn(&mut Header)) -> Refusal {
    let mut h = plain_header();
    change(&mut h);
    check(&h, 1).unwrap_err()
}

fn accepted(change: fn(&mut Header)) -> bool {
    let mut h = plain_header();
    change(&mut h);
    check(&h, 1).is_ok()
}

#[test]
fn the_worked_headers_are_written_as_they_stand() {
    let b = message(urn(207), vec![urn(3)], stamp(), requests(true, false, false));
    let c = answer(urn(3), urn(207), stamp(), 1);
    for (h, count, octets) in [
        (plain_header(), 1, &A[..]),
        (b.clone(), 1, &B[..]),
        (c.clone(), 0, &C[..]),
        (old(&plain_header()), 1, &A1[..]),
        (old(&b), 1, &B1[..]),
        (old(&c), 0, &C1[..]),
    ] {
        assert_eq!(check(&h, count), Ok(octets.len()));
        let mut out = vec![0xEE; octets.len() + 3];
        assert_eq!(write(&h, count, &mut out), Ok(octets.len()));
        assert_eq!(&out[..octets.len()], octets);
        // What lies behind the header is left as it was.
        assert_eq!(&out[octets.len()..], &[0xEE; 3]);
        let mut exact = vec![0xEE; octets.len()];
        assert_eq!(write(&h, count, &mut exact), Ok(octets.len()));
        assert_eq!(exact, octets);
    }
}

#[test]
fn too_short_an_output_comes_last_and_changes_nothing() {
    let h = plain_header();
    for length in 0..5 {
        let mut out = vec![0xEE; length];
        assert_eq!(write(&h, 1, &mut out), Err(only(11)));
        assert_eq!(out, vec![0xEE; length]);
        // Any other fault is told first.
        assert_eq!(write(&h, 0, &mut out), Err(in_block(53, 1)));
        assert_eq!(write(&h, 65_503, &mut out), Err(only(12)));
        assert_eq!(out, vec![0xEE; length]);
    }
    let mut out = vec![0xEE; 9];
    assert_eq!(write(&h, 0, &mut out), Err(in_block(53, 1)));
    assert_eq!(out, vec![0xEE; 9]);
}

#[test]
fn version_and_codes() {
    assert!(accepted(|h| h.version = 1));
    assert_eq!(refused(|h| h.version = 0), only(2));
    assert_eq!(refused(|h| h.version = 3), only(2));
    assert_eq!(refused(|h| h.version = 15), only(2));
    // Too wide, though the low four bits would be 1 and 2.
    assert_eq!(refused(|h| h.version = 17), only(2));
    assert_eq!(refused(|h| h.version = 18), only(2));
    assert_eq!(refused(|h| h.version = u32::MAX), only(2));
    assert!(accepted(|h| h.compression = Some(0)));
    assert!(accepted(|h| h.compression = Some(1)));
    assert_eq!(refused(|h| h.compression = Some(2)), only(3));
    assert_eq!(refused(|h| h.compression = Some(u32::MAX)), only(3));
    assert!(accepted(|h| h.blocks[0].umf = 8));
    assert_eq!(refused(|h| h.blocks[0].umf = 9), only(3));
    assert_eq!(refused(|h| h.blocks[0].umf = 18), only(3));
}

#[test]
fn numbers_as_wide_as_their_field_and_one_more() {
    assert!(accepted(|h| h.originator = Some(urn(0xFF_FFFF))));
    assert_eq!(refused(|h| h.originator = Some(urn(0x100_0000))), only(3));
    assert!(accepted(|h| h.blocks[0].standard_version = Some(15)));
    assert_eq!(refused(|h| h.blocks[0].standard_version = Some(16)), only(3));
    assert!(accepted(|h| h.blocks[0].identity = Some(Identity { fad: 15, number: 127, subtype: Some(127) })));
    assert_eq!(refused(|h| h.blocks[0].identity = Some(Identity { fad: 16, number: 1, subtype: None })), only(3));
    assert_eq!(refused(|h| h.blocks[0].identity = Some(Identity { fad: 1, number: 128, subtype: None })), only(3));
    assert_eq!(refused(|h| h.blocks[0].identity = Some(Identity { fad: 1, number: 1, subtype: Some(128) })), only(3));
    // The largest message size is wide enough for the field, so it is only
    // found wrong later.
    assert_eq!(refused(|h| h.blocks[0].message_size = Some(0xF_FFFF)), only(52));
    assert_eq!(refused(|h| h.blocks[0].message_size = Some(0x10_0000)), only(3));
    assert!(accepted(|h| h.blocks[0].operation = 3));
    assert_eq!(refused(|h| h.blocks[0].operation = 4), only(3));
    assert!(accepted(|h| h.blocks[0].retransmit = 1));
    assert_eq!(refused(|h| h.blocks[0].retransmit = 2), only(3));
    assert!(accepted(|h| h.blocks[0].precedence = 7));
    assert_eq!(refused(|h| h.blocks[0].precedence = 8), only(3));
    assert!(accepted(|h| h.blocks[0].classification = 3));
    assert_eq!(refused(|h| h.blocks[0].classification = 4), only(3));
    assert!(accepted(|h| h.blocks[0].stamp = Some(extended(4095))));
    assert_eq!(refused(|h| h.blocks[0].stamp = Some(extended(4096))), only(3));
}

#[test]
fn response_fields() {
    let with = |change: fn(&mut Response)| {
        let mut h = answer(urn(3), urn(207), stamp(), 1);
        change(h.blocks[0].response.as_mut().unwrap());
        check(&h, 0)
    };
    for code in 1..=6 {
        assert!(check(&answer(urn(3), urn(207), stamp(), code), 0).is_ok());
    }
    assert_eq!(with(|r| r.code = 0), Err(only(3)));
    assert_eq!(with(|r| r.code = 7), Err(only(3)));
    assert_eq!(with(|r| r.code = 9), Err(only(3)));
    assert_eq!(with(|r| r.stamp.extension = Some(4096)), Err(only(3)));
    assert_eq!(with(|r| r.stamp.dtg.hour = 24), Err(only(3)));
    assert!(with(|r| { r.code = 6; r.cantco = Some(7) }).is_ok());
    assert_eq!(with(|r| { r.code = 6; r.cantco = Some(8) }), Err(only(3)));
    assert_eq!(with(|r| { r.code = 5; r.cantco = Some(7) }), Err(in_block(47, 1)));
    assert!(with(|r| { r.code = 2; r.cantpro = Some(63) }).is_ok());
    assert_eq!(with(|r| { r.code = 2; r.cantpro = Some(64) }), Err(only(3)));
    assert_eq!(with(|r| { r.code = 6; r.cantpro = Some(63) }), Err(in_block(48, 1)));
    assert!(with(|r| r.amplification = Some(vec![b'z'; 50])).is_ok());
    assert_eq!(with(|r| r.amplification = Some(vec![b'z'; 51])), Err(only(4)));
    assert_eq!(with(|r| r.amplification = Some(vec![])), Err(only(4)));
}

#[test]
fn dates() {
    let with = |change: fn(&mut Dtg)| {
        let mut h = plain_header();
        let mut d = dtg();
        change(&mut d);
        h.blocks[0].perishable = Some(d);
        check(&h, 1)
    };
    assert!(with(|d| d.year = 0).is_ok());
    assert!(with(|d| d.year = 99).is_ok());
    assert_eq!(with(|d| d.year = 100), Err(only(3)));
    assert_eq!(with(|d| d.month = 0), Err(only(3)));
    assert_eq!(with(|d| d.month = 13), Err(only(3)));
    assert_eq!(with(|d| d.day = 0), Err(only(3)));
    // July, as the helper has it, goes up to 31; other months do not.
    assert!(with(|d| d.day = 31).is_ok());
    assert_eq!(with(|d| d.day = 32), Err(only(3)));
    assert_eq!(with(|d| (d.month, d.day) = (2, 31)), Err(only(3)));
    assert_eq!(with(|d| (d.month, d.day) = (6, 31)), Err(only(3)));
    assert!(with(|d| d.hour = 23).is_ok());
    assert_eq!(with(|d| d.hour = 24), Err(only(3)));
    assert!(with(|d| d.minute = 59).is_ok());
    assert_eq!(with(|d| d.minute = 60), Err(only(3)));
    // Must not become minute 11, its low six bits.
    assert_eq!(with(|d| d.minute = 75), Err(only(3)));
    assert!(with(|d| d.second = 59).is_ok());
    assert_eq!(with(|d| d.second = 60), Err(only(3)));
}

#[test]
fn texts() {
    assert!(accepted(|h| h.originator = Some(name(&[0]))));
    assert!(accepted(|h| h.originator = Some(name(&[126; 63]))));
    assert!(accepted(|h| h.originator = Some(name(&[126; 64]))));
    assert_eq!(refused(|h| h.originator = Some(name(&[126; 65]))), only(4));
    assert_eq!(refused(|h| h.originator = Some(name(b""))), only(4));
    assert_eq!(refused(|h| h.originator = Some(name(&[127]))), only(4));
    assert_eq!(refused(|h| h.originator = Some(name(&[65, 66, 128]))), only(4));
    assert_eq!(refused(|h| h.originator = Some(name(&[255; 64]))), only(4));
    assert!(accepted(|h| h.blocks[0].file_name = Some(vec![1; 64])));
    assert_eq!(refused(|h| h.blocks[0].file_name = Some(vec![1; 65])), only(4));
    assert_eq!(refused(|h| h.blocks[0].file_name = Some(vec![])), only(4));
    assert!(accepted(|h| h.blocks[0].marking = Some(vec![1; 32])));
    assert_eq!(refused(|h| h.blocks[0].marking = Some(vec![1; 33])), only(4));
    assert_eq!(refused(|h| h.blocks[0].marking = Some(vec![])), only(4));
}

#[test]
fn a_full_text_has_no_marker() {
    let octets = |length: usize| {
        let mut h = plain_header();
        h.originator = Some(name(&vec![65; length]));
        check(&h, 1).unwrap()
    };
    // 33 + 2 + 7 * 64 bits both times: the marker is as long as a character.
    assert_eq!(octets(64), (33 + 2 + 448 + 7) / 8);
    assert_eq!(octets(63), octets(64));
    assert_eq!(octets(62), (33 + 2 + 441 + 7) / 8);
}

#[test]
fn addresses() {
    assert_eq!(refused(|h| h.originator = Some(both())), only(6));
    assert_eq!(refused(|h| h.originator = Some(neither())), only(6));
    // Number, then form, then name.
    let wide = |name: Option<Vec<u8>>| Address { urn: Some(1 << 24), name };
    let mut h = plain_header();
    h.originator = Some(wide(Some(vec![])));
    assert_eq!(check(&h, 1), Err(only(3)));
    h.originator = Some(Address { urn: Some(1), name: Some(vec![]) });
    assert_eq!(check(&h, 1), Err(only(6)));
    h.originator = Some(wide(None));
    assert_eq!(check(&h, 1), Err(only(3)));
}

#[test]
fn counts() {
    let list = |n: usize| -> Vec<Address> { (0..n).map(|i| urn(i as u32)).collect() };
    for recipients in 0..=18 {
        for information in 0..=18 {
            let mut h = plain_header();
            if recipients > 0 {
                h.recipients = Some(list(recipients));
            }
            if information > 0 {
                h.information = Some(list(information));
            }
            assert_eq!(check(&h, 1).is_ok(), recipients + information <= 16);
            if recipients + information > 16 {
                assert_eq!(check(&h, 1), Err(only(5)));
            }
        }
    }
    assert_eq!(refused(|h| h.recipients = Some(vec![])), only(5));
    assert_eq!(refused(|h| h.information = Some(vec![])), only(5));
    assert_eq!(refused(|h| h.blocks = vec![]), only(5));
    assert_eq!(refused(|h| h.blocks[0].references = Some(vec![])), only(5));
    assert!(accepted(|h| h.blocks[0].references = Some(vec![reference(1); 4])));
    assert_eq!(refused(|h| h.blocks[0].references = Some(vec![reference(1); 5])), only(5));

    let many = |n: usize| {
        let mut h = plain_header();
        h.sized = true;
        let mut b = plain_block();
        b.message_size = Some(1);
        h.blocks = vec![b; n];
        check(&h, n as u64)
    };
    assert!(many(1).is_ok());
    assert!(many(16).is_ok());
    assert_eq!(many(17), Err(only(5)));
}

#[test]
fn a_count_is_judged_before_the_entries() {
    assert_eq!(refused(|h| h.recipients = Some(vec![both(); 17])), only(5));
    assert_eq!(refused(|h| h.recipients = Some(vec![both(); 16])), only(6));
    // The sum is judged at G3, hence after G2's entries and before G3's.
    assert_eq!(
        refused(|h| {
            h.recipients = Some(vec![name(b""); 16]);
            h.information = Some(vec![both(); 1]);
        }),
        only(4)
    );
    assert_eq!(
        refused(|h| {
            h.recipients = Some(vec![urn(1); 16]);
            h.information = Some(vec![both(); 1]);
        }),
        only(5)
    );
    // So is the number of blocks.
    assert_eq!(
        refused(|h| {
            h.blocks = vec![plain_block(); 17];
            h.blocks[0].umf = 9;
        }),
        only(5)
    );
    // And of references, while what stands left of them goes first.
    assert_eq!(
        refused(|h| {
            let bad = Reference { address: both(), stamp: stamp() };
            h.blocks[0].references = Some(vec![bad; 5]);
        }),
        only(5)
    );
    assert_eq!(
        refused(|h| {
            h.blocks[0].references = Some(vec![]);
            h.blocks[0].marking = Some(vec![]);
        }),
        only(4)
    );
    assert_eq!(
        refused(|h| {
            let bad = Reference { address: urn(1), stamp: extended(4096) };
            h.blocks[0].references = Some(vec![bad; 4]);
        }),
        only(3)
    );
}

#[test]
fn fields_are_judged_from_the_left() {
    assert_eq!(
        refused(|h| {
            h.version = 3;
            h.compression = Some(2);
        }),
        only(2)
    );
    assert_eq!(
        refused(|h| {
            h.compression = Some(2);
            h.originator = Some(both());
        }),
        only(3)
    );
    assert_eq!(
        refused(|h| {
            h.originator = Some(both());
            h.recipients = Some(vec![]);
        }),
        only(6)
    );
    assert_eq!(
        refused(|h| {
            h.information = Some(vec![name(b"")]);
            h.blocks = vec![];
        }),
        only(4)
    );
    // Block by block: the first block's last field before the second's first.
    assert_eq!(
        refused(|h| {
            h.blocks = vec![plain_block(), plain_block()];
            h.blocks[0].references = Some(vec![]);
            h.blocks[1].umf = 9;
        }),
        only(5)
    );
    // And all fields before any rule.
    assert_eq!(
        refused(|h| {
            h.blocks = vec![plain_block(), plain_block()];
            h.blocks[1].classification = 4;
        }),
        only(3)
    );
}

#[test]
fn every_rule_while_writing() {
    let asks = |machine, acknowledge, reply| {
        message(urn(1), vec![urn(2)], stamp(), requests(machine, acknowledge, reply))
    };
    let receipt = || answer(urn(3), urn(207), stamp(), 1);
    let identity = || Some(Identity { fad: 1, number: 1, subtype: None });

    // (a), also when nothing is asked in the group
    let mut h = asks(true, false, false);
    h.originator = None;
    assert_eq!(check(&h, 1), Err(in_block(41, 1)));
    let mut h = asks(false, false, false);
    assert!(check(&h, 1).is_ok());
    h.originator = None;
    assert_eq!(check(&h, 1), Err(in_block(41, 1)));
    // (b)
    let mut h = receipt();
    h.blocks[0].perishable = Some(dtg());
    assert_eq!(check(&h, 0), Err(in_block(42, 1)));
    let mut h = receipt();
    h.blocks[0].requests = Some(requests(false, false, false));
    assert_eq!(check(&h, 0), Err(in_block(42, 1)));
    // G5 may stand beside G8.
    let mut h = receipt();
    h.blocks[0].stamp = Some(stamp());
    assert!(check(&h, 0).is_ok());
    // (c), (d); the standard's other formats are not narrowed
    for umf in 0..=8 {
        let mut h = plain_header();
        h.blocks[0].umf = umf;
        assert!(check(&h, 1).is_ok());
        h.blocks[0].identity = identity();
        let expected = match umf {
            1 => Err(in_block(43, 1)),
            4 => Err(in_block(44, 1)),
            _ => Ok(()),
        };
        assert_eq!(check(&h, 1).map(|_| ()), expected);
    }
    // (e)
    let mut h = receipt();
    h.compression = Some(0);
    assert_eq!(check(&h, 0), Err(in_block(45, 1)));
    // (f)
    let mut h = plain_header();
    let mut b = plain_block();
    b.message_size = Some(1);
    h.sized = true;
    h.blocks = vec![b.clone(), b.clone()];
    assert!(check(&h, 2).is_ok());
    h.sized = false;
    assert_eq!(check(&h, 2), Err(only(46)));
    h.sized = true;
    h.blocks[1].message_size = None;
    assert_eq!(check(&h, 2), Err(in_block(46, 2)));
    h.blocks[1].message_size = Some(1);
    h.blocks[0].message_size = None;
    assert_eq!(check(&h, 2), Err(in_block(46, 1)));
    // (g)
    let mut h = receipt();
    h.blocks[0].response.as_mut().unwrap().cantco = Some(0);
    for code in 1..=6 {
        h.blocks[0].response.as_mut().unwrap().code = code;
        let expected = if code == 6 { Ok(()) } else { Err(in_block(47, 1)) };
        assert_eq!(check(&h, 0).map(|_| ()), expected);
    }
    // (h)
    let mut h = receipt();
    h.blocks[0].response.as_mut().unwrap().cantpro = Some(0);
    for code in 1..=6 {
        h.blocks[0].response.as_mut().unwrap().code = code;
        let expected = if code == 2 { Ok(()) } else { Err(in_block(48, 1)) };
        assert_eq!(check(&h, 0).map(|_| ()), expected);
    }
    // (i)
    for n in 0..8 {
        let mut h = asks(n & 1 != 0, n & 2 != 0, n & 4 != 0);
        assert!(check(&h, 1).is_ok());
        h.blocks[0].stamp = None;
        let expected = if n == 0 { Ok(()) } else { Err(in_block(49, 1)) };
        assert_eq!(check(&h, 1).map(|_| ()), expected);
    }
    // A rule in a later block counts as well.
    let mut h = plain_header();
    h.sized = true;
    h.blocks = vec![b.clone(), b.clone()];
    h.blocks[1].umf = 1;
    h.blocks[1].identity = identity();
    assert_eq!(check(&h, 2), Err(in_block(43, 2)));
}

#[test]
fn sizes_while_writing() {
    assert_eq!(check(&plain_header(), 0), Err(in_block(53, 1)));
    assert_eq!(check(&plain_header(), 1), Ok(5));
    let r = answer(urn(3), urn(207), stamp(), 1);
    assert_eq!(check(&r, 0), Ok(16));
    assert_eq!(check(&r, 1), Err(in_block(54, 1)));
    assert_eq!(check(&r, u64::MAX), Err(in_block(54, 1)));

    // Several blocks, one of them a receipt.
    let mut h = plain_header();
    h.sized = true;
    let mut first = plain_block();
    first.message_size = Some(3);
    let mut second = plain_block();
    second.message_size = Some(0);
    second.response = Some(response(stamp(), 3));
    h.blocks = vec![first, second];
    assert!(check(&h, 3).is_ok());
    assert_eq!(check(&h, 2), Err(only(52)));
    assert_eq!(check(&h, 4), Err(only(52)));
    assert_eq!(check(&h, u64::MAX), Err(only(52)));
    h.blocks[0].message_size = Some(0);
    h.blocks[1].message_size = Some(3);
    assert_eq!(check(&h, 3), Err(in_block(53, 1)));

    // Forwarded and receipt: at any size, once that agrees with the data.
    for size in [None, Some(0), Some(1)] {
        for count in [0, 1] {
            let mut h = answer(urn(3), urn(207), stamp(), 1);
            h.blocks[0].umf = 4;
            h.blocks[0].message_size = size;
            let agrees = size.is_none() || size == Some(count as u32);
            let expected = if agrees { in_block(53, 1) } else { only(52) };
            assert_eq!(check(&h, count), Err(expected));
        }
    }
}

#[test]
fn header_and_data_together() {
    let h = plain_header();
    assert_eq!(check(&h, 65_502), Ok(5));
    assert_eq!(check(&h, 65_503), Err(only(12)));
    assert_eq!(check(&h, u64::MAX), Err(only(12)));
    assert_eq!(check(&h, u64::MAX - 4), Err(only(12)));
    // The sizes stand before 12.
    let mut sized = plain_header();
    sized.blocks[0].message_size = Some(0xF_FFFF);
    assert_eq!(check(&sized, 0xF_FFFF), Err(only(12)));
    assert_eq!(check(&sized, 0x10_0000), Err(only(52)));
    assert_eq!(check(&sized, u64::MAX), Err(only(52)));
}

#[test]
fn the_header_size_is_the_headers_own() {
    let mut h = plain_header();
    h.sized = true;
    let mut out = [0u8; 7];
    assert_eq!(write(&h, 1, &mut out), Ok(7));
    let mut m = Hand::new();
    m.start().n(1, 1).n(7, 16).last_block();
    assert_eq!(out.to_vec(), m.octets());
}

#[test]
fn the_longest_header_fits_its_size_field() {
    let long = name(&[65; 64]);
    let mut h = plain_header();
    h.compression = Some(1);
    h.originator = Some(long.clone());
    h.recipients = Some(vec![long.clone(); 8]);
    h.information = Some(vec![long.clone(); 8]);
    h.sized = true;
    let mut b = plain_block();
    b.standard_version = Some(1);
    b.identity = Some(Identity { fad: 1, number: 1, subtype: Some(1) });
    b.file_name = Some(vec![65; 64]);
    b.message_size = Some(1);
    b.marking = Some(vec![65; 32]);
    b.stamp = Some(extended(1));
    b.perishable = Some(dtg());
    b.requests = Some(requests(true, true, true));
    b.references = Some(vec![Reference { address: long.clone(), stamp: extended(1) }; 4]);
    h.blocks = vec![b; 16];
    let octets = check(&h, 16).unwrap();
    assert!(octets < 10_000);
    let mut out = vec![0; octets];
    assert_eq!(write(&h, 16, &mut out), Ok(octets));
    out.extend_from_slice(&[9; 16]);
    assert_eq!(read(&out), Ok((h, octets)));
}
