use super::*;

#[test]
fn bits_are_counted_from_the_low_end_of_each_octet() {
    let octets = [0b0000_0001, 0b1000_0000];
    let ones: Vec<usize> = (0..16).filter(|k| bit_at(&octets, *k)).collect();
    assert_eq!(ones, [0, 15]);
}

#[test]
fn worked_a() {
    let datagram = with_data(&A, &[0x5C]);
    assert_eq!(read(&datagram), Ok((plain_header(), 5)));
    assert_eq!(user_data(&datagram), &[0x5C]);

    assert_eq!(read(&A), Err(in_block(53, 1)));
    assert_eq!(user_data(&A), &[] as &[u8]);

    let mut filled = datagram.clone();
    filled[4] = 0x02;
    assert_eq!(read(&filled), Err(at(9, 33)));
    let mut secured = datagram.clone();
    secured[4] = 0x01;
    assert_eq!(read(&secured), Err(at(7, 32)));

    assert_eq!(read(&[]), Err(at(1, 0)));
    let mut other = datagram.clone();
    other[0] = 0x03;
    assert_eq!(read(&other), Err(at(2, 0)));
    assert_eq!(read(&[0x03]), Err(at(2, 0)));
    assert_eq!(user_data(&other), &[] as &[u8]);
}

#[test]
fn worked_b() {
    let datagram = with_data(&B, &[0x01]);
    let h = message(urn(207), vec![urn(3)], stamp(), requests(true, false, false));
    assert_eq!(read(&datagram), Ok((h, 16)));
    assert_eq!(user_data(&datagram), &[0x01]);
    assert_eq!(read(&B), Err(in_block(53, 1)));
}

#[test]
fn worked_c() {
    assert_eq!(read(&C), Ok((answer(urn(3), urn(207), stamp(), 1), 16)));
    assert_eq!(user_data(&C), &[] as &[u8]);
    assert_eq!(read(&with_data(&C, &[0])), Err(in_block(54, 1)));
}

#[test]
fn each_fill_bit() {
    for place in 33..40 {
        let mut d = with_data(&A, &[0]);
        d[4] = 1 << (place - 32);
        assert_eq!(read(&d), Err(at(9, place)));
        // The first of several counts.
        d[4] |= 0x80;
        assert_eq!(read(&d), Err(at(9, place)));
    }
}

#[test]
fn a_header_without_fill() {
    // The smallest header of version 2 is 33 bits; these parts bring it to 96,
    // so that the last field ends with the twelfth octet.
    let mut m = Hand::new();
    m.n(2, 4).n(0, 1);
    m.n(1, 1).n(0, 1).n(1, 1).chars(b"ABC").n(127, 7); // G1: 30 more
    m.n(0, 1).n(0, 1).n(0, 1);
    m.n(0, 1).n(2, 4).n(1, 1).n(9, 4); // standard version: 4 more
    m.n(1, 1).n(1, 4).n(2, 7).n(0, 1); // G4 without subtype: 12 more
    m.n(1, 1).chars(b"F").n(127, 7); // file name: 14 more
    m.n(0, 1).n(0, 8).n(0, 1).n(0, 1).n(0, 1);
    m.n(1, 1).n(0, 3); // G7 that asks nothing: 3 more
    m.n(0, 1).n(0, 1).n(0, 1);
    assert_eq!(m.place(), 96);
    // Ones right behind are data, not fill.
    let d = with_data(&m.octets(), &[0xFF]);
    let (h, octets) = read(&d).unwrap();
    assert_eq!(octets, 12);
    assert_eq!(h.blocks[0].requests, Some(requests(false, false, false)));
    assert_eq!(user_data(&d), &[0xFF]);
}

#[test]
fn names_of_63_and_64_characters() {
    for length in [1, 2, 63, 64] {
        let text: Vec<u8> = (0..length).map(|i| (i % 127) as u8).collect();
        let mut m = Hand::new();
        m.n(2, 4).n(0, 1).n(1, 1).n(0, 1).n(1, 1).chars(&text);
        if length < 64 {
            m.n(127, 7);
        }
        m.n(0, 1).n(0, 1).n(0, 1).last_block();
        let (h, _) = read(&m.datagram()).unwrap();
        assert_eq!(h.originator, Some(name(&text)), "{length} characters");
    }
    // Seven ones after the 64th character are no marker but the next fields:
    // G2 present, another entry to follow, a number, and the first four bits of
    // it. The rest of the number and the indicator for a name are then zeros
    // and UMF's single one; the next entry has neither form.
    let mut m = Hand::new();
    m.n(2, 4).n(0, 1).n(1, 1).n(0, 1).n(1, 1).chars(&[65; 64]);
    let after = m.place();
    m.n(127, 7).n(0, 1).n(0, 1).n(0, 1).last_block();
    assert_eq!(read(&m.datagram()), Err(at(6, after + 30)));
}

/// A text, closed by hand where it is shorter than its maximum.
fn close(m: &mut Hand, text: &[u8], maximum: usize) {
    m.chars(text);
    if text.len() < maximum {
        m.n(127, 7);
    }
}

#[test]
fn other_texts_end_at_their_own_maximum() {
    for length in [1, 63, 64] {
        let text = vec![b'q'; length];
        let mut m = Hand::new();
        m.start().n(0, 1).n(0, 1).n(2, 4).n(0, 1).n(0, 1).n(1, 1);
        close(&mut m, &text, 64);
        m.n(0, 1).n(0, 8).n(0, 1).n(0, 6);
        let (h, _) = read(&m.datagram()).unwrap();
        assert_eq!(h.blocks[0].file_name, Some(text));
    }
    for length in [1, 31, 32] {
        let text = vec![b'q'; length];
        let mut m = Hand::new();
        m.start().n(0, 1).n(0, 1).n(2, 4).n(0, 1).n(0, 1).n(0, 1).n(0, 1).n(0, 8).n(1, 1);
        close(&mut m, &text, 32);
        m.n(0, 6);
        let (h, _) = read(&m.datagram()).unwrap();
        assert_eq!(h.blocks[0].marking, Some(text));
    }
    for length in [1, 49, 50] {
        let text = vec![b'q'; length];
        let mut m = Hand::new();
        m.start().n(0, 1).n(0, 1).n(2, 4).n(0, 1).n(0, 1).n(0, 1).n(0, 1).n(0, 8).n(0, 4);
        m.n(1, 1).dtg().n(0, 1).n(6, 3).n(1, 1).n(5, 3).n(0, 1).n(1, 1);
        close(&mut m, &text, 50);
        m.n(0, 1).n(0, 1);
        let (h, _) = read(&m.octets()).unwrap();
        let r = h.blocks[0].response.clone().unwrap();
        assert_eq!(r.amplification, Some(text));
        assert_eq!(r.cantco, Some(5));
    }
}

#[test]
fn empty_and_cut_texts() {
    let mut m = Hand::new();
    m.n(2, 4).n(0, 1).n(1, 1).n(0, 1).n(1, 1);
    let first = m.place();
    assert_eq!(first, 8);
    // Empty: at the text, which begins with its marker.
    m.n(127, 7).n(0, 40);
    assert_eq!(read(&m.datagram()), Err(at(4, 8)));

    // Cut: at the character that doesn't fit. Two octets hold 8 bits of text.
    let mut m = Hand::new();
    m.n(2, 4).n(0, 1).n(1, 1).n(0, 1).n(1, 1).chars(b"AB");
    assert_eq!(read(&m.octets()[..2]), Err(at(1, 15)));
    assert_eq!(read(&m.octets()[..1]), Err(at(1, 8)));
    // A marker that is cut off is a character that doesn't fit, too.
    let mut m = Hand::new();
    m.n(2, 4).n(0, 1).n(1, 1).n(0, 1).n(1, 1).n(127, 7);
    assert_eq!(read(&m.octets()[..1]), Err(at(1, 8)));
}

#[test]
fn both_or_neither_form() {
    // Neither, in G1: indicators at 6 and 7.
    let mut m = Hand::new();
    m.n(2, 4).n(0, 1).n(1, 1).n(0, 1).n(0, 1).n(0, 60);
    assert_eq!(read(&m.datagram()), Err(at(6, 7)));
    // Both: the second indicator stands after the number.
    let mut m = Hand::new();
    m.n(2, 4).n(0, 1).n(1, 1).n(1, 1).n(5, 24).n(1, 1);
    assert_eq!(read(&m.octets()), Err(at(6, 31)));
    // Running out comes before the form is judged.
    let mut m = Hand::new();
    m.n(2, 4).n(0, 1).n(1, 1).n(1, 1).n(5, 24);
    assert_eq!(read(&m.octets()[..3]), Err(at(1, 7)));
}

#[test]
fn codes_and_their_places() {
    for value in 0..16 {
        let mut m = Hand::new();
        m.n(value, 4).n(0, 4).n(0, 1).last_block();
        let got = read(&m.datagram());
        if value == 1 || value == 2 {
            // In version 1 the last of these bits begins the data.
            assert_eq!(got.unwrap().0.version, value);
        } else {
            assert_eq!(got, Err(at(2, 0)));
        }
    }
    for value in 0..4 {
        let mut m = Hand::new();
        m.n(2, 4).n(1, 1).n(value, 2).n(0, 3).n(0, 1).last_block();
        let got = read(&m.datagram());
        if value < 2 {
            assert_eq!(got.unwrap().0.compression, Some(value));
        } else {
            assert_eq!(got, Err(at(3, 5)));
        }
    }
    for value in 0..16 {
        let mut m = Hand::new();
        m.start().n(0, 1).n(0, 1).n(value, 4).n(0, 19);
        let got = read(&m.datagram());
        if value <= 8 {
            assert_eq!(got.unwrap().0.blocks[0].umf, value);
        } else {
            assert_eq!(got, Err(at(3, 10)));
        }
    }
    for value in 0..8 {
        let mut m = Hand::new();
        m.start().n(0, 1).n(0, 1).n(2, 4).n(0, 3).n(0, 1).n(0, 8).n(0, 4);
        m.n(1, 1).dtg().n(0, 1);
        let place = m.place();
        m.n(value, 3).n(0, 3).n(0, 2);
        let got = read(&m.octets());
        if value >= 1 && value <= 6 {
            assert_eq!(got.unwrap().0.blocks[0].response, Some(response(stamp(), value)));
        } else {
            assert_eq!(got, Err(at(3, place)));
        }
    }
}

#[test]
fn every_value_of_each_part_of_a_dtg() {
    // Width and legal range of each part, in order.
    let parts = [
        (7usize, 0u32, 99u32),
        (4, 1, 12),
        (5, 1, 31),
        (5, 0, 23),
        (6, 0, 59),
        (6, 0, 59),
    ];
    let usual = [96, 7, 3, 16, 27, 55];
    for which in 0..6 {
        for value in 0..(1u32 << parts[which].0) {
            let mut m = Hand::new();
            // G6 stands 28 bits in, right after G5's presence bit.
            m.start().n(0, 1).n(0, 1).n(2, 4).n(0, 3).n(0, 1).n(0, 8).n(0, 1).n(0, 1).n(1, 1);
            let mut place = 0;
            for (i, part) in parts.iter().enumerate() {
                if i == which {
                    place = m.place();
                    m.n(value, part.0);
                } else {
                    m.n(usual[i], part.0);
                }
            }
            m.n(0, 4);
            let got = read(&m.datagram());
            if value >= parts[which].1 && value <= parts[which].2 {
                let d = got.unwrap().0.blocks[0].perishable.clone().unwrap();
                let read_back = [d.year, d.month, d.day, d.hour, d.minute, d.second];
                assert_eq!(read_back[which], value);
            } else {
                assert_eq!(got, Err(at(3, place)), "part {which} value {value}");
            }
        }
    }
}

/// Version to G3 with so many recipients and information addressees; the
/// places of all recurrence bits, G3's presence bit in front of its own.
fn addressed(recipients: usize, information: usize) -> (Hand, Vec<usize>, usize) {
    let mut m = Hand::new();
    let mut places = Vec::new();
    m.n(2, 4).n(0, 1).n(0, 1);
    m.n((recipients > 0) as u32, 1);
    for i in 0..recipients {
        places.push(m.place());
        m.n((i + 1 < recipients) as u32, 1).urn(i as u32);
    }
    let presence = m.place();
    m.n((information > 0) as u32, 1);
    for i in 0..information {
        places.push(m.place());
        m.n((i + 1 < information) as u32, 1).urn(i as u32);
    }
    m.n(0, 1).last_block();
    (m, places, presence)
}

#[test]
fn sixteen_and_seventeen_addressees() {
    for recipients in 0..=17 {
        for information in 0..=17 {
            let (m, places, presence) = addressed(recipients, information);
            let got = read(&m.datagram());
            let together = recipients + information;
            if together <= 16 {
                let h = got.unwrap().0;
                assert_eq!(h.recipients.map_or(0, |l| l.len()), recipients);
                assert_eq!(h.information.map_or(0, |l| l.len()), information);
            } else if recipients == 16 {
                assert_eq!(got, Err(at(5, presence)));
            } else {
                // The bit in front of the sixteenth asks for the seventeenth.
                assert_eq!(got, Err(at(5, places[15])));
            }
        }
    }
}

#[test]
fn the_seventeenth_is_refused_before_the_sixteenth_is_read() {
    // The sixteenth entry would be neither form, but its recurrence bit stands
    // to the left of it.
    let (m, places, _) = addressed(17, 0);
    let mut d = m.datagram();
    let k = places[15] + 1;
    d[k / 8] &= !(1 << (k % 8));
    assert_eq!(read(&d), Err(at(5, places[15])));
}

fn many_blocks(count: usize) -> (Vec<u8>, Vec<usize>) {
    let mut m = Hand::new();
    let mut places = Vec::new();
    // 8 + 1 + 16 bits, then 24 + 20 for each block.
    let octets = (25 + 44 * count + 7) / 8;
    m.start().n(1, 1).n(octets as u32, 16);
    for i in 0..count {
        places.push(m.place());
        m.n((i + 1 < count) as u32, 1).n(2, 4).n(0, 3).n(1, 1).n(1, 20).n(0, 15);
    }
    assert_eq!(m.octets().len(), octets);
    (with_data(&m.octets(), &vec![7; count]), places)
}

#[test]
fn sixteen_and_seventeen_blocks() {
    for count in 1..=16 {
        let (d, _) = many_blocks(count);
        let (h, octets) = read(&d).unwrap();
        assert_eq!(h.blocks.len(), count);
        assert!(h.sized);
        assert_eq!(d.len() - octets, count);
        assert_eq!(user_data(&d), &vec![7; count][..]);
    }
    let (d, places) = many_blocks(17);
    assert_eq!(read(&d), Err(at(5, places[15])));
}

#[test]
fn four_and_five_references() {
    for count in 1..=5 {
        let mut m = Hand::new();
        let mut places = Vec::new();
        m.start().n(0, 1).n(0, 1).n(2, 4).n(0, 3).n(0, 1).n(0, 8).n(0, 5).n(1, 1);
        for i in 0..count {
            places.push(m.place());
            m.n((i + 1 < count) as u32, 1).urn(40 + i as u32).dtg().n(0, 1);
        }
        m.n(0, 1);
        let got = read(&m.datagram());
        if count <= 4 {
            let list: Vec<Reference> = (0..count).map(|i| reference(40 + i as u32)).collect();
            assert_eq!(got.unwrap().0.blocks[0].references, Some(list));
        } else {
            assert_eq!(got, Err(at(5, places[3])));
        }
    }
}

#[test]
fn running_out_anywhere_in_a_header_is_1() {
    for whole in [&A[..], &B[..], &C[..]] {
        for cut in 0..whole.len() {
            let refusal = read(&whole[..cut]).unwrap_err();
            assert_eq!(refusal, at(1, refusal.place), "{cut} octets");
            assert!(refusal.place <= cut * 8);
        }
    }
    // Inside a number the place is the number's first bit: B's G1 number is
    // bits 7 to 30.
    assert_eq!(read(&B[..1]), Err(at(1, 7)));
    assert_eq!(read(&B[..2]), Err(at(1, 7)));
    assert_eq!(read(&B[..3]), Err(at(1, 7)));
    // A's fields: bit 8 is the first that one octet lacks.
    assert_eq!(read(&A[..1]), Err(at(1, 8)));
    assert_eq!(read(&A[..2]), Err(at(1, 16)));
    assert_eq!(read(&A[..3]), Err(at(1, 24)));
    assert_eq!(read(&A[..4]), Err(at(1, 32)));
}

#[test]
fn running_out_comes_before_the_fields_other_faults() {
    // A year whose first bits are there and could only become illegal.
    let mut m = Hand::new();
    m.start().n(0, 1).n(0, 1).n(2, 4).n(0, 3).n(0, 1).n(0, 8).n(0, 1).n(1, 1);
    assert_eq!(m.place(), 28);
    m.n(127, 7);
    let d = m.octets();
    assert_eq!(read(&d[..4]), Err(at(1, 28)));
    assert_eq!(read(&d), Err(at(3, 28)));
    // Version with nothing there at all.
    assert_eq!(read(&[]), Err(at(1, 0)));
}

/// The fields of a smallest block can be made faulty in several ways at once;
/// the order of the checks decides.
#[test]
fn fill_then_rules_then_sizes() {
    // G7 without G1 (41), a fill bit (9), no data (53).
    let mut m = Hand::new();
    m.start().n(0, 1).n(0, 1).n(2, 4).n(0, 3).n(0, 1).n(0, 8).n(0, 1).n(0, 1).n(0, 1);
    m.n(1, 1).n(0, 3).n(0, 1).n(0, 1).n(0, 1);
    assert_eq!(m.place(), 36);
    let clean = m.octets();
    let mut filled = clean.clone();
    filled[4] |= 0x80;
    assert_eq!(read(&filled), Err(at(9, 39)));
    assert_eq!(read(&clean), Err(in_block(41, 1)));
    assert_eq!(read(&A), Err(in_block(53, 1)));
}

#[test]
fn every_rule_while_reading() {
    // Records that break one rule each, put into octets by hand: the writer
    // refuses to. Beside the octets, whether data follows and what is told.
    let mut broken: Vec<(&str, Hand, bool, Refusal)> = Vec::new();

    let upto_g4 = |umf: u32| {
        let mut m = Hand::new();
        m.start().n(0, 1).n(0, 1).n(umf, 4).n(0, 1);
        m
    };

    let mut m = upto_g4(2);
    m.n(0, 2).n(0, 1).n(0, 8).n(0, 3).n(1, 1).n(0, 3).n(0, 3);
    broken.push(("a", m, true, in_block(41, 1)));

    let mut m = upto_g4(2);
    m.n(0, 2).n(0, 1).n(0, 8).n(0, 2).n(1, 1).dtg().n(0, 1);
    m.n(1, 1).dtg().n(0, 1).n(1, 3).n(0, 3).n(0, 2);
    broken.push(("b with G6", m, false, in_block(42, 1)));

    let mut m = Hand::new();
    m.n(2, 4).n(0, 1).n(1, 1).urn(3).n(0, 3).n(0, 1).n(2, 4).n(0, 1);
    m.n(0, 2).n(0, 1).n(0, 8).n(0, 3).n(1, 1).n(0, 3);
    m.n(1, 1).dtg().n(0, 1).n(1, 3).n(0, 3).n(0, 2);
    broken.push(("b with G7", m, false, in_block(42, 1)));

    for (rule, umf, number) in [("c", 1, 43), ("d", 4, 44)] {
        let mut m = upto_g4(umf);
        m.n(1, 1).n(1, 4).n(1, 7).n(0, 1).n(0, 1).n(0, 1).n(0, 8).n(0, 7);
        broken.push((rule, m, true, in_block(number, 1)));
    }

    let mut m = Hand::new();
    m.n(2, 4).n(1, 1).n(0, 2).n(0, 3).n(0, 1).n(0, 1).n(2, 4).n(0, 1);
    m.n(0, 2).n(0, 1).n(0, 8).n(0, 4).n(1, 1).dtg().n(0, 1).n(1, 3).n(0, 3).n(0, 2);
    broken.push(("e", m, false, in_block(45, 1)));

    // Two blocks of 24 + 20 bits without a header size.
    let mut m = Hand::new();
    m.start().n(0, 1);
    m.n(1, 1).n(2, 4).n(0, 3).n(1, 1).n(1, 20).n(0, 15);
    m.n(0, 1).n(2, 4).n(0, 3).n(1, 1).n(0, 20).n(0, 15);
    broken.push(("f, header size", m, true, only(46)));

    // Two blocks, the last one without size: 25 + 44 + 24 bits, 12 octets.
    let mut m = Hand::new();
    m.start().n(1, 1).n(12, 16);
    m.n(1, 1).n(2, 4).n(0, 3).n(1, 1).n(1, 20).n(0, 15);
    m.last_block();
    broken.push(("f, last message size", m, true, in_block(46, 2)));

    for (rule, code, cantco, cantpro, number) in
        [("g", 1, 1, 0, 47), ("h", 6, 0, 1, 48), ("h too", 1, 0, 1, 48)]
    {
        let mut m = upto_g4(2);
        m.n(0, 2).n(0, 1).n(0, 8).n(0, 4).n(1, 1).dtg().n(0, 1).n(code, 3);
        m.n(cantco, 1);
        if cantco == 1 {
            m.n(0, 3);
        }
        m.n(cantpro, 1);
        if cantpro == 1 {
            m.n(0, 6);
        }
        m.n(0, 1).n(0, 2);
        broken.push((rule, m, false, in_block(number, 1)));
    }

    for bit in 0..3 {
        let mut m = Hand::new();
        m.n(2, 4).n(0, 1).n(1, 1).urn(3).n(0, 3).n(0, 1).n(2, 4).n(0, 1);
        m.n(0, 2).n(0, 1).n(0, 8).n(0, 3).n(1, 1).n(1 << bit, 3).n(0, 3);
        broken.push(("i", m, true, in_block(49, 1)));
    }

    for (rule, m, data, refusal) in broken {
        let d = if data { m.datagram() } else { m.octets() };
        assert_eq!(read(&d), Err(refusal), "rule {rule}");
        assert_eq!(user_data(&d), &[] as &[u8]);
    }
}

#[test]
fn sizes_while_reading() {
    // Header size: 8 + 1 + 16 + 24 = 49 bits, 7 octets.
    for told in [0, 6, 7, 8, 65535] {
        let mut m = Hand::new();
        m.start().n(1, 1).n(told, 16).last_block();
        let got = read(&m.datagram());
        if told == 7 {
            assert!(got.unwrap().0.sized);
        } else {
            assert_eq!(got, Err(only(51)));
        }
    }
    // Message size of a single block.
    for (told, count) in [(0, 0), (0, 1), (1, 0), (1, 1), (1, 2), (2, 1), (300, 300)] {
        let mut m = Hand::new();
        m.start().n(0, 1).n(0, 1).n(2, 4).n(0, 3).n(1, 1).n(told, 20).n(0, 15);
        let d = with_data(&m.octets(), &vec![0xFF; count]);
        let got = read(&d);
        if told as usize != count {
            assert_eq!(got, Err(only(52)));
        } else if count == 0 {
            assert_eq!(got, Err(in_block(53, 1)));
        } else {
            assert_eq!(got.unwrap().0.blocks[0].message_size, Some(told));
            assert_eq!(user_data(&d).len(), count);
        }
    }
    // A receipt for a forwarded message is wrong with and without data.
    for count in [0, 1] {
        let mut m = Hand::new();
        m.start().n(0, 1).n(0, 1).n(4, 4).n(0, 3).n(0, 1).n(0, 8).n(0, 4);
        m.n(1, 1).dtg().n(0, 1).n(1, 3).n(0, 3).n(0, 2);
        let d = with_data(&m.octets(), &vec![0; count]);
        assert_eq!(read(&d), Err(in_block(53, 1)));
    }
}

#[test]
fn one_block_must_not_be_empty_even_if_the_sum_is_right() {
    // 25 + 2 * 44 bits, 15 octets; sizes 0 and 2.
    let mut m = Hand::new();
    m.start().n(1, 1).n(15, 16);
    m.n(1, 1).n(2, 4).n(0, 3).n(1, 1).n(0, 20).n(0, 15);
    m.n(0, 1).n(2, 4).n(0, 3).n(1, 1).n(2, 20).n(0, 15);
    assert_eq!(m.octets().len(), 15);
    assert_eq!(read(&with_data(&m.octets(), &[1, 2])), Err(in_block(53, 1)));
}

#[test]
fn the_longest_datagram() {
    let fits = with_data(&A, &vec![0; 65_507 - 5]);
    assert_eq!(read(&fits), Ok((plain_header(), 5)));
    assert_eq!(user_data(&fits).len(), 65_502);
    let over = with_data(&A, &vec![0; 65_508 - 5]);
    assert_eq!(read(&over), Err(only(12)));
    // Whatever else is wrong with it.
    assert_eq!(read(&vec![0; 65_508]), Err(only(12)));
    assert_eq!(user_data(&over), &[] as &[u8]);
}

#[test]
fn user_data_is_a_part_of_the_datagram() {
    // The same octets in memory, not a copy.
    let d = with_data(&B, &[1, 2, 3]);
    assert_eq!(user_data(&d).as_ptr(), d[16..].as_ptr());
}

#[test]
fn all_fields_of_a_full_block() {
    let mut m = Hand::new();
    m.start().n(0, 1).n(0, 1);
    m.n(8, 4).n(1, 1).n(15, 4);
    m.n(1, 1).n(7, 4).n(101, 7).n(1, 1).n(99, 7);
    m.n(1, 1).chars(b"a.txt").n(127, 7);
    m.n(1, 1).n(1, 20);
    m.n(3, 2).n(1, 1).n(6, 3).n(2, 2);
    m.n(1, 1).chars(b"US").n(127, 7);
    m.n(1, 1).dtg().n(1, 1).n(4095, 12);
    m.n(1, 1).n(0, 7).n(1, 4).n(1, 5).n(0, 5).n(0, 6).n(0, 6);
    m.n(0, 1).n(0, 1);
    m.n(1, 1).n(0, 1).n(0, 1).n(1, 1).chars(b"HQ").n(127, 7).dtg().n(1, 1).n(0, 12);
    m.n(0, 1);
    let expected = Block {
        umf: 8,
        standard_version: Some(15),
        identity: Some(Identity { fad: 7, number: 101, subtype: Some(99) }),
        file_name: Some(b"a.txt".to_vec()),
        message_size: Some(1),
        operation: 3,
        retransmit: 1,
        precedence: 6,
        classification: 2,
        marking: Some(b"US".to_vec()),
        stamp: Some(extended(4095)),
        perishable: Some(Dtg { year: 0, month: 1, day: 1, hour: 0, minute: 0, second: 0 }),
        requests: None,
        response: None,
        references: Some(vec![Reference { address: name(b"HQ"), stamp: extended(0) }]),
    };
    let (h, octets) = read(&m.datagram()).unwrap();
    assert_eq!(h.blocks, vec![expected]);
    let mut out = vec![0u8; octets];
    assert_eq!(write(&h, 1, &mut out), Ok(octets));
    assert_eq!(out, m.octets());
}
