use super::*;

fn hex(octets: &[u8]) -> String {
    octets.iter().map(|o| format!("{o:02X}")).collect()
}

fn run(input: &str) -> String {
    String::from_utf8(program(input.as_bytes())).unwrap()
}

const WHOLE: &str = "rows 1\n207 96-07-03 16:27:55 - asked m\n  3 m=1\n";
const OPEN: &str = "rows 1\n207 96-07-03 16:27:55 - asked m\n  3 m=?\n";

#[test]
fn the_papers_output() {
    let b = hex(&with_data(&B, &[0x01]));
    let c = hex(&C);
    assert_eq!(run(&format!("{b}\n{c}\n")), WHOLE);
    // The last line feed may be missing, and the case doesn't matter.
    assert_eq!(run(&format!("{b}\n{c}")), WHOLE);
    assert_eq!(run(&format!("{}\n{}", b.to_lowercase(), c.to_lowercase())), WHOLE);
    // In the wrong order the receipt finds nothing.
    assert_eq!(run(&format!("{c}\n{b}\n")), OPEN);
    // What is refused leaves no trace.
    assert_eq!(run(&format!("{b}\n{b}\n{c}\n{c}\n")), WHOLE);
}

#[test]
fn both_versions_on_one_board() {
    let b = hex(&with_data(&B, &[0x01]));
    let c = hex(&C);
    let b1 = hex(&with_data(&B1, &[0x01]));
    let c1 = hex(&C1);
    assert_eq!(run(&format!("{b1}\n")), OPEN);
    assert_eq!(run(&format!("{b1}\n{c1}\n")), WHOLE);
    assert_eq!(run(&format!("{b}\n{c1}\n")), WHOLE);
    assert_eq!(run(&format!("{b1}\n{c}\n")), WHOLE);
    assert_eq!(run(&format!("{b1}\n{b}\n{c}\n{c1}\n")), WHOLE);
    // A version that cannot be read leaves no trace.
    assert_eq!(run(&format!("{}\n", b.replacen("E2", "E0", 1))), "rows 0\n");
    assert_eq!(run(&format!("{}\n", b.replacen("E2", "E3", 1))), "rows 0\n");
}

#[test]
fn nothing_to_read() {
    assert_eq!(run(""), "rows 0\n");
    assert_eq!(run("\n"), "rows 0\n");
    assert_eq!(run("\n\n\n"), "rows 0\n");
    // A can be read but asks nothing.
    assert_eq!(run(&hex(&with_data(&A, &[1]))), "rows 0\n");
}

#[test]
fn other_lines_are_skipped() {
    let b = hex(&with_data(&B, &[0x01]));
    let c = hex(&C);
    for line in [
        format!("{c}\r"),
        format!(" {c}"),
        format!("{c} "),
        format!("0x{c}"),
        format!("{c}0"),
        c[..c.len() - 1].to_string(),
        c[..c.len() - 2].to_string(),
        c.replace('E', "G"),
        "E2 01 00 00 7D 06 00 00 01 00 08 BE 01 B7 5B 00".to_string(),
        "# a remark".to_string(),
    ] {
        assert_eq!(run(&format!("{b}\n{line}\n")), OPEN, "{line:?}");
        // The lines around it are taken all the same.
        assert_eq!(run(&format!("{line}\n{b}\n{line}\n{c}\n{line}")), WHOLE, "{line:?}");
    }
    // Octets that are no text at all do no harm.
    let mut input = vec![0xFF, 0x80, 0x00, b'\n'];
    input.extend_from_slice(b.as_bytes());
    assert_eq!(program(&input), OPEN.as_bytes());
}

#[test]
fn the_longest_line() {
    let fits = hex(&with_data(&B, &vec![0; 8192 - 16]));
    assert_eq!(fits.len(), 16_384);
    assert_eq!(run(&fits), OPEN);
    let over = hex(&with_data(&B, &vec![0; 8193 - 16]));
    assert_eq!(run(&over), "rows 0\n");
}

#[test]
fn several_blocks_in_one_datagram() {
    // A station posts to itself and answers in the same datagram: the first
    // block is a posting, the second its receipt, the third another posting.
    let mut h = message(urn(9), vec![urn(9)], stamp(), requests(true, false, false));
    h.sized = true;
    h.blocks[0].message_size = Some(1);
    let mut second = plain_block();
    second.message_size = Some(0);
    second.response = Some(response(stamp(), 1));
    let mut third = h.blocks[0].clone();
    third.stamp = Some(extended(12));
    third.requests = Some(requests(false, true, false));
    h.blocks.push(second);
    h.blocks.push(third);
    let mut out = vec![0; check(&h, 2).unwrap()];
    write(&h, 2, &mut out).unwrap();
    let d = with_data(&out, &[1, 2]);
    assert_eq!(
        run(&hex(&d)),
        "rows 2\n9 96-07-03 16:27:55 - asked m\n  9 m=1\n9 96-07-03 16:27:55 12 asked o\n  9 o=?\n"
    );
}

#[test]
fn thirty_three_postings_leave_thirty_two_rows() {
    let mut input = String::new();
    for i in 0..33 {
        let h = message(urn(i), vec![urn(100)], stamp(), requests(true, false, false));
        let mut out = vec![0; check(&h, 1).unwrap()];
        write(&h, 1, &mut out).unwrap();
        input.push_str(&hex(&with_data(&out, &[0])));
        input.push('\n');
    }
    let output = run(&input);
    assert!(output.starts_with("rows 32\n0 96-"));
    assert_eq!(output.lines().count(), 1 + 2 * 32);
    assert!(output.contains("\n31 96-"));
    assert!(!output.contains("\n32 96-"));
}
