//! The structs of this crate, those of the C header and the octets that the library reads are laid out alike.

mod support;

use std::mem::{offset_of, size_of};
use std::process::Command;

use pruvelaccio::raw::{Answer, SizeAnswer};
use pruvelaccio::*;
use support::*;

/// `OptionalNumber` is `optional_number` in C.
fn c_name(name: &str) -> String {
    let mut words = String::new();
    for letter in name.chars() {
        if letter.is_uppercase() && !words.is_empty() {
            words.push('_');
        }
        words.push(letter.to_ascii_lowercase());
    }
    words
}

macro_rules! layout {
    ($($name:ident { $($field:ident),+ })+) => {{
        let mut lines = Vec::new();
        $(
            // a struct with a field that is not named here would not compile
            let _ = |$name { $($field: _),+ }: &$name| ();
            let name = c_name(stringify!($name));
            lines.push(format!("{name} {}", size_of::<$name>()));
            $(lines.push(format!("{name}.{} {}", stringify!($field), offset_of!($name, $field)));)+
        )+
        lines
    }};
}

fn layout_in_rust() -> Vec<String> {
    let answers = layout! {
        Answer { number, block, place }
        SizeAnswer { number, block, place, length }
    };
    let structs = pruvelaccio::each_struct!(layout);
    structs.into_iter().chain(answers).collect()
}

/// What host/c/layout.c prints.
fn layout_in_c() -> String {
    let said = Command::new(compiled_c("layout")).output().expect("the program just compiled");
    assert!(said.status.success());
    String::from_utf8(said.stdout).expect("words and numbers")
}

#[test]
fn sizes_and_offsets_are_those_of_the_c_header() {
    let rust = layout_in_rust();
    let c = layout_in_c();
    for (ours, theirs) in rust.iter().zip(c.lines()) {
        assert_eq!(ours, theirs);
    }
    assert_eq!(rust.len(), c.lines().count());
}

/// What include/pruvelaccio_layout.h, made from the one table of structs that the library is made from, says of a
/// record: sizes and offsets, in the words of `layout_in_rust`.
fn layout_of_a_record() -> Vec<String> {
    let path = repository().join("include/pruvelaccio_layout.h");
    let text = std::fs::read_to_string(path).expect("the layout");
    let said = |line: &str| {
        let (kind, rest) = line.strip_suffix(");")?.split_once('(')?;
        let words: Vec<&str> = rest.split(", ").collect();
        match (kind, &words[..]) {
            ("PRUVELACCIO_STRUCT", [name, size]) => Some(format!("{name} {size}")),
            ("PRUVELACCIO_FIELD", [name, field, at, _]) => Some(format!("{name}.{field} {at}")),
            _ => None,
        }
    };
    text.lines().filter_map(said).collect()
}

#[test]
fn sizes_and_offsets_of_a_record_are_those_of_the_layout() {
    let (rust, layout) = (layout_in_rust(), layout_of_a_record());
    assert_eq!(rust[..layout.len()], layout);
    assert!(layout.contains(&format!("header {RECORD}")));
    assert!(layout.contains(&format!("table {TABLE}")));
    assert!(layout.contains(&format!("key {KEY}")));
}

#[test]
fn meanings_are_those_of_the_c_header() {
    let header =
        std::fs::read_to_string(repository().join("include/pruvelaccio.h")).expect("the header");
    let fields = [1, 2, 3, 4, 5, 6, 7, 9, 11, 12];
    let known: Vec<u32> = fields.into_iter().chain(20..=30).chain(41..=49).chain(51..=54).collect();
    for number in 1..=99 {
        let meaning = Refusal { number, place: 0, block: 0 }.meaning();
        let line = format!("    case {number}: return \"{meaning}\";\n");
        assert_eq!(header.contains(&line), known.contains(&number), "{line}");
        assert_eq!(meaning != "unknown", known.contains(&number), "{number}: {meaning}");
    }
}

/// Changes that leave `message` valid: each takes one presence away, or turns one request round.
const MESSAGES: [fn(&mut Header); 21] = [
    |_| (),
    |h| h.front.compression.present = false,
    |h| h.front.recipients.present = false,
    |h| h.front.information.present = false,
    |h| {
        h.front.originator.present = false;
        h.blocks.list[0].times.requests.present = false;
    },
    |h| h.blocks.list[0].format.version.present = false,
    |h| h.blocks.list[0].format.identity.present = false,
    |h| h.blocks.list[0].format.identity.identity.subtype.present = false,
    |h| h.blocks.list[0].format.file.present = false,
    |h| h.blocks.list[0].handling.marking.present = false,
    |h| {
        h.blocks.list[0].times.origin.present = false;
        h.blocks.list[0].times.requests.present = false;
    },
    |h| h.blocks.list[0].times.origin.stamp.extension.present = false,
    |h| h.blocks.list[0].times.perish.present = false,
    |h| h.blocks.list[0].times.requests.present = false,
    |h| h.blocks.list[0].times.requests.requests.machine = false,
    |h| h.blocks.list[0].times.requests.requests.acknowledge = true,
    |h| h.blocks.list[0].times.requests.requests.reply = false,
    |h| h.blocks.list[0].references.present = false,
    |h| h.blocks.list[0].references.references.list[0].stamp.extension.present = false,
    |h| {
        h.blocks.count = 1;
        h.blocks.list[0].handling.size = number(MESSAGE_DATA as u32);
        h.sized = false;
    },
    |h| {
        h.blocks.count = 1;
        h.blocks.list[0].handling.size.present = false;
    },
];

/// The same for `receipts`.
const RECEIPTS: [fn(&mut Header); 6] = [
    |_| (),
    |h| h.blocks.list[0].response.response.stamp.extension.present = false,
    |h| h.blocks.list[0].response.response.compliance.cantco.present = false,
    |h| h.blocks.list[1].response.response.compliance.cantpro.present = false,
    |h| h.blocks.list[1].response.response.amplification.present = false,
    |h| {
        h.blocks.count = 1;
        h.blocks.list[0].handling.size.present = false;
    },
];

/// The library writes each cell of ours to its field of Table I, and reads it from there.
fn goes_over(header: &Header, count: usize) -> Header {
    let expected = header_octets(header);
    let mut datagram = vec![0xA5; 8192];
    let length = write(header, count, &mut datagram).expect("a valid record");
    assert_eq!(datagram[..length], expected);
    assert!(datagram[length..].iter().all(|octet| *octet == 0xA5));
    assert_eq!(check(header, count), Ok(length));
    datagram.truncate(length + count);
    let got = read(&datagram).expect("what was written");
    assert_eq!(got.length, length);
    assert_eq!(header_octets(&got.header), expected);
    assert_eq!(user_data(&datagram).len(), count);
    got.header
}

#[test]
fn each_cell_of_a_record_is_the_librarys() {
    for change in MESSAGES {
        let mut header = message();
        change(&mut header);
        goes_over(&header, MESSAGE_DATA);
    }
    for change in RECEIPTS {
        let mut header = receipts();
        change(&mut header);
        goes_over(&header, 0);
    }
    for (header, count) in [(message(), MESSAGE_DATA), (receipts(), 0)] {
        assert_eq!(goes_over(&header, count).to_octets(), header.to_octets());
    }
}

fn recipient(address: Address, [machine, acknowledge, reply]: [u32; 3]) -> Recipient {
    Recipient { address, machine, acknowledge, reply }
}

fn requests([machine, acknowledge, reply]: [bool; 3]) -> Requests {
    Requests { machine, acknowledge, reply }
}

fn row(key: Key, asked: [bool; 3], recipients: &[Recipient]) -> Row {
    let mut row = Table::zero().rows[0];
    row.key = key;
    row.asked = requests(asked);
    row.recipients[..recipients.len()].copy_from_slice(recipients);
    row.count = recipients.len() as u32;
    row
}

/// Three rows with codes, a value of its own in each used cell.
fn table() -> Table {
    let named = Key { address: name("ZULU"), stamp: stamp([1, 2, 3, 4, 5, 6], None) };
    let later = Key { address: name("ZULU"), stamp: stamp([1, 2, 3, 4, 5, 7], None) };
    let numbered = Key { address: urn(7), stamp: stamp([12, 11, 10, 9, 8, 5], Some(77)) };
    let mut table = Table::zero();
    table.rows[0] = row(
        numbered,
        [true, true, true],
        &[recipient(urn(1), [1, 3, 5]), recipient(name("KILO"), [0, 0, 6])],
    );
    table.rows[1] = row(named, [false, true, false], &[recipient(urn(2), [0, 2, 0])]);
    table.rows[2] = row(later, [false, false, true], &[recipient(urn(3), [0, 0, 0])]);
    table.count = 3;
    table
}

fn listing(table: &Table) -> String {
    let mut text = Vec::new();
    for number in 0..=table.count {
        let mut out = [0; 4096];
        let written = table.list_row(number, &mut out).expect("a well-formed table");
        text.extend_from_slice(&out[..written]);
    }
    String::from_utf8(text).expect("characters below 127")
}

#[test]
fn each_cell_of_a_table_is_the_librarys() {
    let mut table = table();
    let first = "7 12-11-10 09:08:05 77 asked mor\n  1 m=1 o=3 r=5\n  \"KILO\" m=? o=? r=6\n";
    let rest = "\"ZULU\" 01-02-03 04:05:06 - asked o\n  2 o=2\n\"ZULU\" 01-02-03 04:05:07 - asked r\n  3 r=?\n";
    assert_eq!(listing(&table), format!("rows 3\n{first}{rest}"));
    let key = table.rows[0].key;
    table.release(&key).expect("a key that is held");
    assert_eq!(listing(&table), format!("rows 2\n{rest}"));
}

/// What the library stores in a row, looked at from here; the second receipt of `receipts` settles what is open.
#[test]
fn each_cell_that_the_library_stores_is_ours() {
    let mut table = Table::empty();
    table.post(&message(), 1, MESSAGE_DATA).expect("a message with requests");
    let mut answered = receipts();
    answered.blocks.list[1].response.response.stamp = stamp([12, 11, 10, 9, 8, 7], Some(0x123));
    table.receipt(&answered, 1, 0).expect("code 6");
    table.receipt(&answered, 2, 0).expect("code 2");
    let key = Key { address: urn(0x0A_0B_0C), stamp: stamp([12, 11, 10, 9, 8, 7], Some(0x123)) };
    let held = row(
        key,
        [true, false, true],
        &[recipient(urn(0x11), [0, 0, 0]), recipient(name("KILO"), [2, 0, 6])],
    );
    let mut expected = Table::zero();
    expected.rows[0] = held;
    expected.count = 1;
    assert_eq!(listing(&table), listing(&expected));
    assert_eq!(TableOctets::from(&table), TableOctets::from(&expected));
}
