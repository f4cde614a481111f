use super::*;

fn text(board: &Board, row: u32) -> String {
    String::from_utf8(listing(board, row).unwrap()).unwrap()
}

#[test]
fn an_empty_board() {
    let board = Board::new();
    assert_eq!(text(&board, 0), "rows 0\n");
    assert_eq!(text(&board, 1), "");
    assert_eq!(text(&board, u32::MAX), "");
}

#[test]
fn rows_in_words() {
    let mut board = Board::new();
    let s = Stamp {
        dtg: Dtg { year: 5, month: 1, day: 9, hour: 0, minute: 4, second: 59 },
        extension: Some(4095),
    };
    let odd = name(b"a \"b\"\\\n\x00\x1f~");
    let h = message(
        odd,
        vec![name(b"HQ"), urn(16_777_215), urn(0)],
        s.clone(),
        requests(true, true, true),
    );
    assert_eq!(post(&mut board, &h, 1, 1), Ok(()));
    let from = h.originator.clone().unwrap();
    assert_eq!(receipt(&mut board, &answer(urn(0), from.clone(), s.clone(), 6), 1, 0), Ok(()));
    assert_eq!(receipt(&mut board, &answer(name(b"HQ"), from, s, 3), 1, 0), Ok(()));
    let mr = message(urn(1), vec![urn(2)], extended(0), requests(true, false, true));
    assert_eq!(post(&mut board, &mr, 1, 1), Ok(()));

    assert_eq!(text(&board, 0), "rows 2\n");
    assert_eq!(
        text(&board, 1),
        "1 96-07-03 16:27:55 0 asked mr\n  2 m=? r=?\n"
    );
    assert_eq!(
        text(&board, 2),
        concat!(
            "\"a \\22b\\22\\5c\\0a\\00\\1f~\" 05-01-09 00:04:59 4095 asked mor\n",
            "  0 m=? o=? r=6\n",
            "  16777215 m=? o=? r=?\n",
            "  \"HQ\" m=? o=3 r=?\n",
        )
    );
    assert_eq!(text(&board, 3), "");
}

#[test]
fn into_lent_output() {
    let mut board = Board::new();
    let h = message(urn(207), vec![urn(3)], stamp(), requests(false, true, false));
    assert_eq!(post(&mut board, &h, 1, 1), Ok(()));
    for row in 0..4 {
        let whole = listing(&board, row).unwrap();
        for length in 0..whole.len() {
            let mut out = vec![0xEE; length];
            assert_eq!(list_row(&board, row, &mut out), Err(only(11)));
            assert_eq!(out, vec![0xEE; length]);
        }
        let mut out = vec![0xEE; whole.len() + 2];
        assert_eq!(list_row(&board, row, &mut out), Ok(whole.len()));
        assert_eq!(&out[..whole.len()], &whole[..]);
        assert_eq!(&out[whole.len()..], &[0xEE; 2]);
    }
    // Nothing fits into nothing.
    assert_eq!(list_row(&board, 2, &mut []), Ok(0));
    assert_eq!(list_row(&board, 0, &mut []), Err(only(11)));
}
