//! The example `socket`: the lines that it takes, a datagram of no octets, and its file.

use std::fs;
use std::path::Path;

use pruvelaccio::{Address, Key, Table, LAYOUT};

use crate::host::{new_file, refused, remove, Host};

/// Document 01's B with an octet of data, and C.
const MESSAGE: [u8; 17] =
    [0xE2, 0x67, 0, 0, 0x1D, 0, 0, 0, 0x01, 0, 0xC1, 0x37, 0xE0, 0x76, 0x33, 0, 0x01];
const RECEIPT: [u8; 16] =
    [0xE2, 0x01, 0, 0, 0x7D, 0x06, 0, 0, 0x01, 0, 0x08, 0xBE, 0x01, 0xB7, 0x5B, 0];

/// No addresses, a header of 12 octets, a block of one octet with UMF 2 and a second one that tells no size: bit 8 says
/// that bits 9 to 24 are the header size, bit 25 that a second block follows, bit 33 that bits 34 to 53 are the message
/// size; the second block begins at bit 69, and its bit 77 is 0.
const UNSIZED: [u8; 13] = [0x02, 0x19, 0, 0x0A, 0x06, 0, 0, 0, 0x80, 0, 0, 0, 0x01];

const OPEN: &str = "rows 1\n207 96-07-03 16:27:55 - asked m\n  3 m=?\n";
const SETTLED: &str = "rows 1\n207 96-07-03 16:27:55 - asked m\n  3 m=1\n";

fn kept(file: &Path) -> Table {
    Table::from_octets(&fs::read(file).expect("a file")).expect("a saved table")
}

#[test]
fn takes_datagrams_and_lines() {
    let file = new_file("lines");
    let mut host = Host::start(&file);
    host.send(&MESSAGE);
    assert_eq!(host.logged(), "posted 207 96-07-03 16:27:55 -");
    assert_eq!(kept(&file).count, 1);
    host.say("list");
    host.say("release 2");
    assert_eq!(host.logged(), "no row \"2\": the table has 1");
    host.send(&[]);
    assert!(host.logged().starts_with("a datagram of 0 octets: refusal 1 at place 0"));
    host.send(&UNSIZED);
    let words = "refusal 46 at place 0: rule (f): block 2 has no message size";
    assert_eq!(host.logged(), format!("a datagram of 13 octets: {words}"));
    host.send(&MESSAGE);
    assert!(host.logged().starts_with("block 1: refusal 22"));
    host.send(&RECEIPT);
    assert_eq!(host.logged(), "settled 207 96-07-03 16:27:55 - by 3");
    host.say("list");
    host.say("  release   1  ");
    assert_eq!(host.logged(), "released 207 96-07-03 16:27:55 -");
    for line in ["release 1", "release", "release 0", "release -1", "give up", ""] {
        host.say(line);
        assert!(host.logged().starts_with("no "));
    }
    host.say("list");
    assert_eq!(host.end(), format!("{OPEN}{SETTLED}rows 0\n"));
    assert_eq!(fs::read(&file).expect("a file"), Table::empty().to_octets());
    remove(&file);
}

#[test]
fn starts_from_its_file() {
    let file = new_file("start");
    let host = Host::start(&file);
    host.send(&MESSAGE);
    host.logged();
    assert_eq!(host.end(), "");
    let mut host = Host::start(&file);
    host.say("list");
    host.say("nothing");
    host.logged();
    host.send(&RECEIPT);
    host.logged();
    host.say("list");
    assert_eq!(host.end(), format!("{OPEN}{SETTLED}"));
    remove(&file);
}

/// Octets that are no table of this layout, or no well-formed one, are refused in words and left alone.
#[test]
fn refuses_what_is_no_table() {
    let file = new_file("refused");
    let mut other = Table::empty().to_octets();
    other[0] = other[0].wrapping_add(1);
    let mut ill_formed = Table::empty();
    ill_formed.rows[0].key = Key { address: Address::urn(1), ..Key::zero() };
    ill_formed.count = 1;
    let layout = format!("saved with layout {}, where this is layout {LAYOUT}", LAYOUT + 1);
    for (octets, words) in [
        (other, layout.as_str()),
        (vec![], "0 octets where there should be 50952"),
        (Table::empty().to_octets()[1..].to_vec(), "saved with layout"),
        (ill_formed.to_octets(), "the table is not well formed"),
    ] {
        fs::write(&file, &octets).expect("a file");
        let (status, line) = refused(&file);
        assert!(!status.success() && line.contains(words), "{line}");
        assert_eq!(fs::read(&file).expect("the file"), octets);
    }
    remove(&file);
}
