//! Version 1. Its octets here are put together bit by bit from the order of the
//! fields; the comments tell the bits, so that they can be followed on paper.

use super::*;

fn octets_of(h: &Header, count: u64) -> Vec<u8> {
    let mut out = vec![0xEE; check(h, count).unwrap()];
    write(h, count, &mut out).unwrap();
    out
}

/// Read, written and read back: the header stands in front of the data.
fn both_ways(header: &[u8], data: &[u8], expected: &Header) {
    let d = with_data(header, data);
    assert_eq!(read(&d), Ok((expected.clone(), header.len())));
    assert_eq!(user_data(&d), data);
    let written = octets_of(expected, data.len() as u64);
    assert_eq!(written, header);
    assert_eq!(read(&with_data(&written, data)), Ok((expected.clone(), header.len())));
}

#[test]
fn a_is_one_bit_shorter() {
    both_ways(&A1, &[0x5C], &old(&plain_header()));
    // There is no fill: ones right behind are data.
    both_ways(&A1, &[0xFF, 0xFF], &old(&plain_header()));
    // Two records that differ in nothing else are still not the same.
    assert_ne!(read(&with_data(&A1, &[0])).unwrap().0, read(&with_data(&A, &[0])).unwrap().0);

    assert_eq!(read(&A1), Err(in_block(53, 1)));
    assert_eq!(user_data(&A1), &[] as &[u8]);
    // The presence bit of the security group is the last of the 32.
    assert_eq!(read(&[0x01, 0x08, 0x00, 0x80, 0x5C]), Err(at(7, 31)));

    let h = old(&plain_header());
    assert_eq!(check(&h, 0), Err(in_block(53, 1)));
    assert_eq!(check(&h, 65_503), Ok(4));
    assert_eq!(check(&h, 65_504), Err(only(12)));
    let mut out = [0xEE; 3];
    assert_eq!(write(&h, 1, &mut out), Err(only(11)));
    assert_eq!(out, [0xEE; 3]);
}

#[test]
fn b_and_c() {
    let b = message(urn(207), vec![urn(3)], stamp(), requests(true, false, false));
    both_ways(&B1, &[0x01], &old(&b));
    both_ways(&C1, &[], &old(&answer(urn(3), urn(207), stamp(), 1)));
    assert_eq!(read(&B1), Err(in_block(53, 1)));
    assert_eq!(read(&with_data(&C1, &[0])), Err(in_block(54, 1)));
    // One bit of fill more than their like in version 2.
    let mut d = with_data(&B1, &[0x01]);
    d[15] = 0x04;
    assert_eq!(read(&d), Err(at(9, 122)));
    let mut d = C1;
    d[15] = 0x20;
    assert_eq!(read(&d), Err(at(9, 125)));
}

#[test]
fn running_out() {
    for whole in [&A1[..], &B1[..], &C1[..]] {
        for cut in 0..whole.len() {
            assert_eq!(read(&whole[..cut]).unwrap_err().number, 1, "{cut} octets");
        }
    }
    assert_eq!(read(&A1[..1]), Err(at(1, 8)));
    assert_eq!(read(&A1[..2]), Err(at(1, 16)));
    // The classification is bits 23 and 24, so three octets cut it in two.
    assert_eq!(read(&A1[..3]), Err(at(1, 23)));
}

/// The standard's own example, version 1.
const EXAMPLE: [u8; 22] = [
    0xE1, 0x67, 0x00, 0x80, 0x55, 0x67, 0x92, 0x1A, 0xFC, 0x77, 0x00, 0x00, 0x00, 0xA4, 0x04, 0x10,
    0x21, 0xF8, 0x06, 0xDC, 0x6E, 0x06,
];

#[test]
fn the_standards_example_has_an_address_of_both_forms() {
    // Version 0 to 3, compression 4, G1 5, number indicator 6, number 7 to 30:
    // bit 31, the top of octet 80, says that a name follows.
    assert_eq!(read(&EXAMPLE), Err(at(6, 31)));
    // Also with the ten octets of its message.
    let d = with_data(&EXAMPLE, &[0; 10]);
    assert_eq!(read(&d), Err(at(6, 31)));
    assert_eq!(user_data(&d), &[] as &[u8]);
    // The address stands left of all that the versions differ in.
    let mut d = EXAMPLE;
    d[0] = 0xE2;
    assert_eq!(read(&d), Err(at(6, 31)));
}

#[test]
fn the_standards_example_without_the_name() {
    // Name indicator 31 zero and the 42 bits of the name left out. As B up to
    // G3 60 and header size 61, then recurrence 62; UMF 63 to 66, 2 sets 64
    // (01); G4 67 set (08); FAD 68 to 71, 2 sets 69 (20); number 72 to 78, 1
    // sets 72 (01); subtype 79, file name 80, message size 81; operation 82 and
    // 83, 1 sets 82 (04); retransmit 84; precedence 85 to 87, 2 sets 86 (40);
    // classification 88, marking 90; G5 91 set (08); year 92 to 98, 96 sets 97
    // and 98 (06); month 99 to 102, 7 sets 99 to 101 (38); day 103 to 107, 3
    // sets 103 (80) and 104 (01); hour 108 to 112, 16 sets 112 (01); minute 113
    // to 118, 27 sets 113, 114, 116, 117 (36); second 119 to 124, 55 sets 119
    // (80), 120, 121, 123, 124 (1B); extension 125, G6 126; G7 127 set (80);
    // machine 128 set (01); requests 129 and 130, G8 to G10 131 to 133; fill.
    let header = [
        0xE1, 0x67, 0x00, 0x00, 0x1D, 0x00, 0x00, 0x00, 0x29, 0x01, 0x44, 0x08, 0xBE, 0x01, 0xB7,
        0x9B, 0x01,
    ];
    let mut h = old(&message(urn(207), vec![urn(3)], stamp(), requests(true, false, false)));
    h.blocks[0].identity = Some(Identity { fad: 2, number: 1, subtype: None });
    h.blocks[0].operation = 1;
    h.blocks[0].precedence = 2;
    both_ways(&header, &[0xAB; 10], &h);
}

#[test]
fn other_versions() {
    for version in [0u8, 3, 4, 8, 9, 14, 15] {
        for whole in [with_data(&A, &[0]), with_data(&A1, &[0]), with_data(&B1, &[0]), C1.to_vec()] {
            let mut d = whole;
            d[0] = d[0] / 16 * 16 + version;
            assert_eq!(read(&d), Err(at(2, 0)), "version {version}");
            assert_eq!(user_data(&d), &[] as &[u8]);
        }
        // One octet is enough to see it.
        assert_eq!(read(&[version]), Err(at(2, 0)));
        let mut h = plain_header();
        h.version = u32::from(version);
        assert_eq!(check(&h, 1), Err(only(2)));
        let mut out = [0xEE; 8];
        assert_eq!(write(&h, 1, &mut out), Err(only(2)));
        assert_eq!(out, [0xEE; 8]);
        // Ahead of a standard version, too large a one included.
        h.blocks[0].standard_version = Some(16);
        assert_eq!(check(&h, 1), Err(only(2)));
    }
}

#[test]
fn the_header_size_is_that_of_the_version() {
    // Version 0 to 3 (01); header size indicator 8 set (01) and its number 9 to
    // 24, 6 sets 10 and 11 (0C); recurrence 25; UMF 26 to 29, 2 sets 27 (08);
    // the other 18 bits are zero. 48 bits: six octets, where version 2 has
    // seven.
    let header = [0x01, 0x0D, 0x00, 0x08, 0x00, 0x00];
    let mut h = old(&plain_header());
    h.sized = true;
    both_ways(&header, &[0x5C], &h);
    for told in [0, 5, 6, 7, 65_535] {
        let mut m = Hand::new();
        m.start_1().n(1, 1).n(told, 16).last_block_1();
        let got = read(&m.datagram());
        if told == 6 {
            assert_eq!(got, Ok((h.clone(), 6)));
        } else {
            assert_eq!(got, Err(only(51)));
        }
    }
}

/// Blocks with a size of 1 each: 8 + 1 + 16 bits, then 23 + 20 for each block.
fn many_blocks(count: usize) -> (Hand, Vec<usize>) {
    let mut m = Hand::new();
    let mut places = Vec::new();
    let octets = (25 + 43 * count + 7) / 8;
    m.start_1().n(1, 1).n(octets as u32, 16);
    for i in 0..count {
        places.push(m.place());
        m.n((i + 1 < count) as u32, 1).n(2, 4).n(0, 2).n(1, 1).n(1, 20).n(0, 15);
    }
    (m, places)
}

#[test]
fn every_block_lacks_the_bit() {
    let mut b = plain_block();
    b.message_size = Some(1);
    for count in 1..=16 {
        let (m, _) = many_blocks(count);
        let mut h = old(&plain_header());
        h.sized = true;
        h.blocks = vec![b.clone(); count];
        both_ways(&m.octets(), &vec![7; count], &h);
    }
    // Two blocks are 111 bits, 14 octets; in version 2 they are 113 and 15.
    let (m, _) = many_blocks(2);
    let mut d = with_data(&m.octets(), &[7, 7]);
    assert_eq!(d.len(), 16);
    d[13] |= 0x80;
    assert_eq!(read(&d), Err(at(9, 111)));
    let (m, places) = many_blocks(17);
    assert_eq!(read(&m.datagram()), Err(at(5, places[15])));
}

#[test]
fn places_are_one_bit_to_the_left_behind_umf() {
    for value in 9..16 {
        let mut m = Hand::new();
        m.start_1().n(0, 1).n(0, 1).n(value, 4).n(0, 18);
        assert_eq!(read(&m.datagram()), Err(at(3, 10)));
    }
    // G4 14, file name 15, message size 16, eight bits from 17, marking 25,
    // G5 26: its year begins at 27.
    let mut m = Hand::new();
    m.start_1().n(0, 1).n(0, 1).n(2, 4).n(0, 3).n(0, 8).n(0, 1).n(1, 1).n(127, 7);
    assert_eq!(read(&m.octets()), Err(at(3, 27)));
    assert_eq!(read(&m.octets()[..4]), Err(at(1, 27)));
    // The file name begins at 16, right behind its indicator 15.
    let mut m = Hand::new();
    m.start_1().n(0, 1).n(0, 1).n(2, 4).n(0, 1).n(1, 1).n(127, 7).n(0, 40);
    assert_eq!(read(&m.datagram()), Err(at(4, 16)));
    // Four references and five; their presence bit is 30.
    for count in [4, 5] {
        let mut m = Hand::new();
        m.start_1().n(0, 1).n(0, 1).n(2, 4).n(0, 3).n(0, 8).n(0, 5).n(1, 1);
        assert_eq!(m.place(), 31);
        for i in 0..count {
            m.n((i + 1 < count) as u32, 1).urn(40 + i).dtg().n(0, 1);
        }
        m.n(0, 1);
        match read(&m.datagram()) {
            Ok((h, _)) => assert_eq!(h.blocks[0].references, Some((40..44).map(reference).collect())),
            // Each entry takes 1 + 26 + 33 + 1 bits.
            Err(refusal) => assert_eq!((count, refusal), (5, at(5, 31 + 3 * 61))),
        }
    }
}

#[test]
fn fill_rules_sizes_in_this_order() {
    // G7 28 without G1 (41); its three bits, G8 to G10: 35 bits, fill 35 to 39.
    let mut m = Hand::new();
    m.start_1().n(0, 1).n(0, 1).n(2, 4).n(0, 3).n(0, 8).n(0, 3).n(1, 1).n(0, 3).n(0, 3);
    assert_eq!(m.place(), 35);
    let clean = m.octets();
    for place in 35..40 {
        let mut d = clean.clone();
        d[4] |= 1 << (place - 32);
        assert_eq!(read(&d), Err(at(9, place)));
    }
    assert_eq!(read(&clean), Err(in_block(41, 1)));
    assert_eq!(read(&A1), Err(in_block(53, 1)));
    // The rules of records do not ask for the version either.
    let mut h = old(&plain_header());
    h.blocks[0].requests = Some(requests(false, false, false));
    assert_eq!(check(&h, 1), Err(in_block(41, 1)));
    h.originator = Some(urn(3));
    assert!(check(&h, 1).is_ok());
    let mut h = old(&answer(urn(3), urn(207), stamp(), 1));
    h.blocks[0].umf = 4;
    assert_eq!(check(&h, 0), Err(in_block(53, 1)));
}

/// A header with every group that can be sent, in two blocks because G8 stands
/// beside neither G6 nor G7. One octet of data must follow. Below, an octet's
/// number and value in hexadecimal, then its fields and the bits that are set;
/// octets left out are zero:
///
/// ```text
/// 00 E1 version 0; G1 5, number indicator 6; number 7-30, 207: 7
/// 01 67 8 9 10 13 14
/// 03 00 name indicator 31
/// 04 1D G2 32, recurrence 33, number indicator 34; number 35-58, 3: 35 36
/// 07 90 name indicator 59; G3 60, recurrence 61, indicators 62 and 63
/// 08 C8 H 64-70, 72: 67 70; Q 71-77, 81: 71
/// 09 E8 75 77; marker 78-84: 78 79
/// 0A 7F 80-84; header size indicator 85; size 86-101, 57: 86
/// 0B 0E 89 90 91
/// 0C 40 recurrence 102; UMF 103-106, 2
/// 0D 79 104; G4 107; FAD 108-111, 7: 108 109 110
/// 0E E5 number 112-118, 101: 112 114 117 118; subtype indicator 119
/// 0F E3 subtype 120-126, 99: 120 121 125 126; file name indicator 127
/// 10 C6 F 128-134, 70: 129 130 134; marker 135-141: 135
/// 11 FF 136-141; message size indicator 142; size 143-162, 1: 143
/// 14 B8 operation 163 164; retransmit 165; precedence 166-168, 6: 167
/// 15 5D 168; classification 169-170, 2: 170; marking 171; U 172-178, 85: 172 174
/// 16 FD 176 178; marker 179-185: 179-183
/// 17 07 184 185; G5 186; year 187-193, 96
/// 18 DF 192 193; month 194-197, 7: 194 195 196; day 198-202, 3: 198 199
/// 19 80 hour 203-207, 16: 207
/// 1A DB minute 208-213, 27: 208 209 211 212; second 214-219, 55: 214 215
/// 1B BD 216 218 219; extension indicator 220; extension 221-232, 5: 221 223
/// 1D 86 G6 233; year 234-240, 97: 234 239
/// 1E 23 240; month 241-244, 1: 241; day 245-249, 1: 245; 250-266 zero
/// 21 58 G7 267; machine 268, acknowledge 269 not, reply 270; G8 271 not
/// 22 4D G9 272, recurrence 273, number indicator 274; number 275-298, 9: 275 278
/// 26 BE name indicator 299; year 300-306: 305 306; month 307-310: 307 308 309; day 311-315: 311
/// 27 01 312; hour 316-320
/// 28 B7 320; minute 321-326: 321 322 324 325; second 327-332: 327
/// 29 1B 328 329 331 332; extension indicator 333, G10 334; recurrence 335
/// 2A 48 UMF 336-339, 8: 339; G4 340, file name 341; message size 342; size 343-362, 0
/// 2E 80 363-370 zero; marking 371, G5 to G7 372-374; G8 375
/// 2F E0 year 376-382: 381 382; month 383-386: 383
/// 30 1B 384 385; day 387-391: 387 388
/// 31 70 hour 392-396: 396; minute 397-402: 397 398
/// 32 BB 400 401; second 403-408: 403 404 405 407
/// 33 03 408; extension indicator 409; extension 410-421, 0
/// 34 80 R/C 422-424, 2: 423
/// 35 0C CANTCO 425; CANTPRO 426; reason 427-432, 33: 427
/// 36 63 432; amplification 433; X 434-440, 88: 437 438
/// 37 FF 440; marker 441-447
/// 38 00 G9 448, G10 449; fill 450-455
/// ```
const ALL_GROUPS: [u8; 57] = [
    0xE1, 0x67, 0x00, 0x00, 0x1D, 0x00, 0x00, 0x90, 0xC8, 0xE8, 0x7F, 0x0E, 0x40, 0x79, 0xE5, 0xE3,
    0xC6, 0xFF, 0x00, 0x00, 0xB8, 0x5D, 0xFD, 0x07, 0xDF, 0x80, 0xDB, 0xBD, 0x00, 0x86, 0x23, 0x00,
    0x00, 0x58, 0x4D, 0x00, 0x00, 0x00, 0xBE, 0x01, 0xB7, 0x1B, 0x48, 0x00, 0x00, 0x00, 0x80, 0xE0,
    0x1B, 0x70, 0xBB, 0x03, 0x80, 0x0C, 0x63, 0xFF, 0x00,
];

/// The record of those octets.
fn all_groups() -> Header {
    let mut h = old(&plain_header());
    h.originator = Some(urn(207));
    h.recipients = Some(vec![urn(3)]);
    h.information = Some(vec![name(b"HQ")]);
    h.sized = true;
    let mut first = plain_block();
    first.identity = Some(Identity { fad: 7, number: 101, subtype: Some(99) });
    first.file_name = Some(b"F".to_vec());
    first.message_size = Some(1);
    first.operation = 3;
    first.retransmit = 1;
    first.precedence = 6;
    first.classification = 2;
    first.marking = Some(b"U".to_vec());
    first.stamp = Some(extended(5));
    first.perishable = Some(Dtg { year: 97, month: 1, day: 1, hour: 0, minute: 0, second: 0 });
    first.requests = Some(requests(true, false, true));
    first.references = Some(vec![reference(9)]);
    let mut second = plain_block();
    second.umf = 8;
    second.message_size = Some(0);
    let mut r = response(extended(0), 2);
    r.cantpro = Some(33);
    r.amplification = Some(b"X".to_vec());
    second.response = Some(r);
    h.blocks = vec![first, second];
    h
}

#[test]
fn a_header_with_all_groups() {
    both_ways(&ALL_GROUPS, &[0x5C], &all_groups());
    for cut in 0..ALL_GROUPS.len() {
        assert_eq!(read(&ALL_GROUPS[..cut]).unwrap_err().number, 1, "{cut} octets");
    }
    for place in 450..456 {
        let mut d = with_data(&ALL_GROUPS, &[0x5C]);
        d[56] = 1 << (place - 448);
        assert_eq!(read(&d), Err(at(9, place)));
    }
    // The same record in version 2 has 452 bits, and no fewer octets for it.
    let mut h = all_groups();
    h.version = 2;
    assert_eq!(check(&h, 1), Ok(57));
    h.blocks[0].standard_version = Some(0);
    // 456 bits now, and 460 with a second one.
    assert_eq!(check(&h, 1), Ok(57));
    h.blocks[1].standard_version = Some(0);
    assert_eq!(check(&h, 1), Ok(58));
}

#[test]
fn a_standard_version_is_one_field_too_many() {
    for value in [0, 1, 15, 16, u32::MAX] {
        let mut h = old(&plain_header());
        h.blocks[0].standard_version = Some(value);
        assert_eq!(check(&h, 1), Err(only(3)));
        let mut out = [0xEE; 9];
        assert_eq!(write(&h, 1, &mut out), Err(only(3)));
        assert_eq!(out, [0xEE; 9]);
        h.version = 2;
        assert_eq!(check(&h, 1).is_ok(), value < 16);
    }
    // In the last block only.
    for count in 2..=16 {
        let mut h = old(&plain_header());
        h.sized = true;
        let mut b = plain_block();
        b.message_size = Some(1);
        h.blocks = vec![b; count];
        assert!(check(&h, count as u64).is_ok());
        h.blocks[count - 1].standard_version = Some(0);
        assert_eq!(check(&h, count as u64), Err(only(3)));
    }
}

/// Refusal of a version 1 record of two blocks; `extra` tells the block that
/// has a standard version.
fn refused(extra: usize, change: fn(&mut Header)) -> Refusal {
    let mut h = old(&plain_header());
    h.blocks.push(plain_block());
    h.blocks[extra].standard_version = Some(0);
    change(&mut h);
    check(&h, 2).unwrap_err()
}

#[test]
fn the_field_too_many_is_judged_right_behind_umf() {
    // What stands left of it goes first. UMF's own fault has the same number.
    assert_eq!(refused(0, |h| h.version = 3), only(2));
    assert_eq!(refused(0, |h| h.originator = Some(both())), only(6));
    assert_eq!(refused(0, |h| h.recipients = Some(vec![])), only(5));
    assert_eq!(refused(0, |h| h.information = Some(vec![name(b"")])), only(4));
    assert_eq!(refused(0, |h| h.blocks = vec![h.blocks[0].clone(); 17]), only(5));
    assert_eq!(refused(0, |h| h.blocks[0].umf = 9), only(3));
    assert_eq!(refused(1, |h| h.blocks[0].file_name = Some(vec![])), only(4));
    assert_eq!(refused(1, |h| h.blocks[0].references = Some(vec![])), only(5));
    // What stands right of it does not come to be judged, G4 (3 as well), the
    // texts and lists behind it, and the next block.
    let wide = Identity { fad: 16, number: 128, subtype: Some(128) };
    let mut h = old(&plain_header());
    h.blocks[0].standard_version = Some(0);
    h.blocks[0].identity = Some(wide);
    assert_eq!(check(&h, 1), Err(only(3)));
    assert_eq!(refused(0, |h| h.blocks[0].file_name = Some(vec![])), only(3));
    assert_eq!(refused(0, |h| h.blocks[0].references = Some(vec![])), only(3));
    assert_eq!(refused(0, |h| h.blocks[1].marking = Some(vec![])), only(3));
    assert_eq!(refused(1, |h| h.blocks[1].marking = Some(vec![])), only(3));
    // These lack the header size (46) and are one octet short (52) once it is
    // gone.
    assert_eq!(refused(0, |_| ()), only(3));
    assert_eq!(refused(0, |h| h.blocks[0].standard_version = None), only(46));
    assert_eq!(refused(0, |h| {
        h.blocks.truncate(1);
        h.blocks[0].message_size = Some(1);
    }), only(3));
    assert_eq!(refused(0, |h| {
        h.blocks.truncate(1);
        h.blocks[0].message_size = Some(1);
        h.blocks[0].standard_version = None;
    }), only(52));
}

/// The bits of one pair of headers, which differ in their first octet and in
/// their length only. Both: UMF 2 (08 of octet 1), bit 14 set (40).
///
/// Version 1: 14 is G4; FAD 15 to 18, 5 sets 15 (80) and 17 (02); number 19 to
/// 25, 87 sets 19, 20, 21, 23 (B8) and 25 (02); subtype 26, file name 27,
/// message size 28; operation 29 and 30, 3 (60); retransmit 31; precedence 32
/// to 34, 4 sets 34 (04); classification 35 and 36, 3 (18); marking 37, G5 to
/// G10 38 to 43; fill 44 to 47.
const CROSSED_1: [u8; 6] = [0x01, 0xC8, 0xBA, 0x62, 0x1C, 0x00];
/// Version 2: 14 is the indicator of the standard version; that is 15 to 18,
/// 5 again; G4 19 set (08); FAD 20 to 23, 11 sets 20, 21, 23 (B0); number 24 to
/// 30, 98 sets 25, 29, 30 (62); subtype 31, file name 32, message size 33;
/// operation 34 and 35, 3 (0C); retransmit 36 set (10); precedence 37,
/// classification 40, marking 42, G5 to G10 43 to 48; fill 49 to 55.
const CROSSED_2: [u8; 7] = [0x02, 0xC8, 0xBA, 0x62, 0x1C, 0x00, 0x00];

#[test]
fn the_version_alone_tells_the_layout() {
    let mut first = old(&plain_header());
    first.blocks[0].identity = Some(Identity { fad: 5, number: 87, subtype: None });
    first.blocks[0].operation = 3;
    first.blocks[0].precedence = 4;
    first.blocks[0].classification = 3;
    let mut second = plain_header();
    second.blocks[0].standard_version = Some(5);
    second.blocks[0].identity = Some(Identity { fad: 11, number: 98, subtype: None });
    second.blocks[0].operation = 3;
    second.blocks[0].retransmit = 1;
    both_ways(&CROSSED_1, &[0x00, 0x5C], &first);
    both_ways(&CROSSED_2, &[0x5C], &second);

    // Version 1 turned into 2: what was its first octet of data ends the header.
    let mut d = with_data(&CROSSED_1, &[0x00, 0x5C]);
    d[0] = 0x02;
    assert_eq!(read(&d), Ok((second, 7)));
    assert_eq!(user_data(&d), &[0x5C]);
    // And the other way round.
    let mut d = with_data(&CROSSED_2, &[0x5C]);
    d[0] = 0x01;
    assert_eq!(read(&d), Ok((first, 6)));
    assert_eq!(user_data(&d), &[0x00, 0x5C]);
}

#[test]
fn a_changed_version_may_also_spoil_a_header() {
    // A of version 1 ends with bit 31. Version 2 wants bit 32 as well, which is
    // the data's, and seven bits of fill.
    for (data, expected) in [
        (&[0x00][..], Err(in_block(53, 1))),
        (&[0x01][..], Err(at(7, 32))),
        (&[0xAA][..], Err(at(9, 33))),
        (&[0x00, 0x5C][..], Ok((plain_header(), 5))),
        (&[][..], Err(at(1, 32))),
    ] {
        let mut d = with_data(&A1, data);
        d[0] = 0x02;
        assert_eq!(read(&d), expected);
    }
    // A of version 2 leaves its last octet to the data, if there is more or not.
    for data in [&[][..], &[0x5C][..]] {
        let mut d = with_data(&A, data);
        d[0] = 0x01;
        assert_eq!(read(&d), Ok((old(&plain_header()), 4)));
        assert_eq!(user_data(&d), &d[4..]);
    }
    // B: bit 80, its G5, becomes G6, whose date is the same bits 81 to 113. Then
    // G7 114 and G8 115 are zero; 116, its G7, becomes G9; 117 asks for another
    // entry, and 118 and 119 name neither form.
    let mut d = with_data(&B, &[0x01]);
    d[0] = 0xE1;
    assert_eq!(read(&d), Err(at(6, 119)));
    // C: bit 83, its G8, becomes G9; the entry's recurrence bit 84 and its
    // indicators 85 and 86, the year's low bits, are zero.
    let mut d = C;
    d[0] = 0xE1;
    assert_eq!(read(&d), Err(at(6, 86)));
}
