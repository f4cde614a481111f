//! Named inputs of `pending_list`, each with the text that it has to print, worked out by hand from document 01.

use reference::{Address, Dtg, Header, Requests, Stamp};

use crate::emit::{emit, Extra};
use crate::headers::hex;
use crate::pool::answering;
use crate::program;
use crate::random::Random;
use crate::records::{bare_block, bare_header};
use crate::run::Run;

/// Document 01's header B with one octet of data, and its receipt C.
const B: &str = "E26700001D0000000100C137E076330001";
const C: &str = "E20100007D060000010008BE01B75B00";

/// The same two in version 1, worked out from the layout: every bit behind the UMF stands one place lower.
const OLD_B: &str = "E16700001D0000000180E01B70BB190001";
const OLD_C: &str = "E10100007D060000010004DF80DB2D00";

/// What is listed after nothing, after B, and after B and C.
const NONE: &str = "rows 0\n";
const OPEN: &str = "rows 1\n207 96-07-03 16:27:55 - asked m\n  3 m=?\n";
const SETTLED: &str = "rows 1\n207 96-07-03 16:27:55 - asked m\n  3 m=1\n";

/// And after the sample: B and C, and in version 1 a message from URN 9 at 16:30:00 with its receipt.
const SAMPLE: &str = "rows 2\n\
    9 96-07-03 16:30:00 - asked m\n\x20 3 m=1\n\
    207 96-07-03 16:27:55 - asked m\n\x20 3 m=1\n";

struct Named {
    name: &'static str,
    input: Vec<u8>,
    output: String,
}

fn named(name: &'static str, input: impl Into<Vec<u8>>, output: impl Into<String>) -> Named {
    Named { name, input: input.into(), output: output.into() }
}

/// B with so much data that the line has this many digits.
fn long_b(count: usize) -> String {
    format!("{B}{}", "5a".repeat((count - B.len()) / 2))
}

fn digits() -> Vec<Named> {
    let mixed = B.replace("E2", "e2").replace("37E0", "37e0");
    let c = C.to_lowercase();
    vec![
        named("capital digits", format!("{B}\n{C}\n"), SETTLED),
        named("small digits", format!("{}\n{c}\n", B.to_lowercase()), SETTLED),
        named("digits of both cases in one line", format!("{mixed}\n{c}\n"), SETTLED),
        named("an odd count of digits", format!("{B}0\n"), NONE),
        named("an odd count, one digit less", format!("{}\n", &B[1..]), NONE),
        named("an odd count between good lines", format!("{B}\n{C}5\n"), OPEN),
        named("a digit g", format!("{B}\n{}\n", C.replace('7', "g")), OPEN),
        named("a prefix 0x", format!("0x{B}\n"), NONE),
        named("octets that are no characters", [b"\xFF\x00\x80\n", B.as_bytes()].concat(), OPEN),
    ]
}

fn versions() -> Vec<Named> {
    vec![
        named("B in version 1", format!("{OLD_B}\n"), OPEN),
        named("B and C in version 1", format!("{OLD_B}\n{OLD_C}\n"), SETTLED),
        named("B in version 1, C in version 2", format!("{OLD_B}\n{C}\n"), SETTLED),
        named("B in version 2, C in version 1", format!("{B}\n{OLD_C}\n"), SETTLED),
        named("B in both versions", format!("{B}\n{OLD_B}\n"), OPEN),
        named("the sample", include_str!("../../../samples/messages.txt"), SAMPLE),
        named("B with 1 in front", format!("E1{}\n", &B[2..]), NONE),
        named("version 1's B with 2 in front", format!("E2{}\n", &OLD_B[2..]), NONE),
    ]
}

/// B with another date: of its 16 bits the year's stand in the octet C1, behind a bit that is 1, the month's and four
/// of the day's in 37, and the day's last is the lowest of E0.
fn dates() -> Vec<Named> {
    let dated = |octets: &str| format!("{}\n", B.replace("C137E0", octets));
    let listed = |date: &str| OPEN.replace("96-07-03", date);
    vec![
        named("29 February 00", dated("01D2E1"), listed("00-02-29")),
        named("29 February 96", dated("C1D2E1"), listed("96-02-29")),
        named("28 February 99", dated("C7C2E1"), listed("99-02-28")),
        named("30 June 96", dated("C1E6E1"), listed("96-06-30")),
        named("31 December 99", dated("C7FCE1"), listed("99-12-31")),
        named("29 February 01", dated("03D2E1"), NONE),
        named("29 February 99", dated("C7D2E1"), NONE),
        named("30 February 96", dated("C1E2E1"), NONE),
        named("31 April 96", dated("C1F4E1"), NONE),
        named("31 June 96", dated("C1F6E1"), NONE),
        named("31 June 96 between B and C", format!("{B}\n{}{C}\n", dated("C1F6E1")), SETTLED),
        named("31 of month 13", dated("C1FDE1"), NONE),
    ]
}

fn lengths() -> Vec<Named> {
    let most = long_b(16_384);
    let over = long_b(16_386);
    let mega = "7".repeat(1 << 20);
    vec![
        named("16,384 digits", format!("{most}\n"), OPEN),
        named("16,384 digits, no line feed", most.clone(), OPEN),
        named("16,384 digits, then C", format!("{most}\n{C}\n"), SETTLED),
        named("16,385 digits", format!("{most}0\n"), NONE),
        named("16,386 digits", format!("{over}\n"), NONE),
        named("16,386 digits, no line feed", over.clone(), NONE),
        named("16,386 digits between good lines", format!("{B}\n{over}\n{C}\n"), SETTLED),
        named("16,384 digits and a blank", format!("{most} \n{C}\n"), NONE),
        named("a megabyte of digits, then B", format!("{mega}\n{B}\n"), OPEN),
        named("a megabyte, then B without line feed", format!("{mega}\n{B}"), OPEN),
        named("a megabyte between B and C", format!("{B}\n{mega}\n{C}\n"), SETTLED),
        named("a megabyte alone", mega.clone(), NONE),
        named("a megabyte that begins with B", format!("{B}{mega}\n"), NONE),
    ]
}

fn ends() -> Vec<Named> {
    let spaced = C.replace("00", " 00 ");
    vec![
        named("a carriage return at the end", format!("{B}\r\n"), NONE),
        named("carriage returns, the last line without", format!("{C}\r\n{B}"), OPEN),
        named("a carriage return after C", format!("{B}\n{C}\r\n"), OPEN),
        named("blanks in the line", format!("{B}\n{spaced}\n"), OPEN),
        named("a blank in front", format!("{B}\n {C}\n"), OPEN),
        named("a blank at the end", format!("{B}\n{C} \n"), OPEN),
        named("a line of one blank", format!("{B}\n \n{C}\n"), SETTLED),
        named("blank lines", format!("\n{B}\n\n\n{C}\n\n"), SETTLED),
        named("no last line feed", format!("{B}\n{C}"), SETTLED),
        named("empty input", "", NONE),
        named("a line feed", "\n", NONE),
        named("only line feeds", "\n".repeat(5_000), NONE),
        named("two datagrams in one line", format!("{B}{C}\n"), OPEN),
        named("a datagram that is refused", format!("{B}\n03{}\n{C}\n", &C[2..]), SETTLED),
        named("a datagram cut short", format!("{B}\n{}\n", &C[..C.len() - 2]), OPEN),
        named("C before B", format!("{C}\n{B}\n"), OPEN),
        named("B and C twice", format!("{B}\n{B}\n{C}\n{C}\n"), SETTLED),
    ]
}

/// The input comes in parts of some size; line feeds fall on, before and behind likely borders.
fn borders() -> Vec<Named> {
    let mut list = Vec::new();
    for border in [1024, 4096, 8192, 16_384, 65_536] {
        for length in border - 3..border + 3 {
            let filler = "x".repeat(length);
            list.push(named("line feeds near a border", format!("{filler}\n{B}\n{C}\n"), SETTLED));
            let filler = "x".repeat(length - B.len() / 2);
            list.push(named("a line across a border", format!("{filler}\n{B}\n{C}\n"), SETTLED));
        }
    }
    list
}

// ---------------------------------------------------------------------------
// Records written out here

fn urn(number: u32) -> Address {
    Address { urn: Some(number), name: None }
}

fn named_by(text: &[u8]) -> Address {
    Address { urn: None, name: Some(text.to_vec()) }
}

fn stamp(extension: Option<u32>) -> Stamp {
    let dtg = Dtg { year: 7, month: 1, day: 9, hour: 0, minute: 5, second: 59 };
    Stamp { dtg, extension }
}

/// A message that asks for everything.
fn message(from: Address, to: Vec<Address>, extension: Option<u32>) -> Header {
    let mut record = bare_header();
    record.originator = Some(from);
    record.recipients = Some(to);
    record.blocks[0].stamp = Some(stamp(extension));
    record.blocks[0].requests = Some(Requests { machine: true, acknowledge: true, reply: true });
    record
}

fn line(record: &Header, data: &[u8]) -> String {
    hex(&[emit(record, Extra::default()), data.to_vec()].concat())
}

/// Quotes, backslashes and what is below 32; a recipient that occurs twice; order by number, then by name.
fn names() -> Named {
    let from = named_by(b"\x00\x1F \"\\~a");
    let to =
        vec![named_by(b"AB"), urn(10), named_by(b"A"), urn(9), named_by(b"AB"), named_by(b"\n")];
    let input = line(&message(from, to, Some(4095)), b"1");
    let mut output = "rows 1\n".to_string();
    output += "\"\\00\\1f \\22\\5c~a\" 07-01-09 00:05:59 4095 asked mor\n";
    for address in ["9", "10", "\"\\0a\"", "\"A\"", "\"AB\""] {
        output += &format!("  {address} m=? o=? r=?\n");
    }
    named("names and their order", input, output)
}

/// Posted against the order of their keys.
fn keys() -> Named {
    let from = [named_by(b"B"), named_by(b"AA"), named_by(b"A"), urn(20), urn(3)];
    let mut input = String::new();
    for address in from {
        for extension in [Some(10), Some(9), Some(0), None] {
            input +=
                &format!("{}\n", line(&message(address.clone(), vec![urn(1)], extension), b"1"));
        }
    }
    let mut output = "rows 20\n".to_string();
    for address in ["3", "20", "\"A\"", "\"AA\"", "\"B\""] {
        for extension in ["-", "0", "9", "10"] {
            output +=
                &format!("{address} 07-01-09 00:05:59 {extension} asked mor\n  1 m=? o=? r=?\n");
        }
    }
    named("keys and their order", input, output)
}

fn full() -> Named {
    let mut input = String::new();
    let mut output = "rows 32\n".to_string();
    for number in 0..33 {
        input += &format!("{}\n", line(&message(urn(number), vec![urn(1)], None), b"1"));
        if number < 32 {
            output += &format!("{number} 07-01-09 00:05:59 - asked mor\n  1 m=? o=? r=?\n");
        }
    }
    named("33 postings", input, output)
}

/// A posting, its receipt (code 2, so that all is settled) and another posting in one datagram.
fn several() -> Named {
    let mut record = message(urn(9), vec![urn(9)], None);
    let mut last = record.blocks[0].clone();
    last.stamp = Some(stamp(Some(1)));
    let mut answer = bare_block();
    answer.response = answering(stamp(None), &mut Random::new(0)).response;
    answer.response.iter_mut().for_each(|r| (r.code, r.cantco, r.cantpro) = (2, None, Some(1)));
    record.blocks.extend([answer, last]);
    record.sized = true;
    for (block, size) in record.blocks.iter_mut().zip([1, 0, 2]) {
        block.message_size = Some(size);
    }
    let output = "rows 2\n\
        9 07-01-09 00:05:59 - asked mor\n\x20 9 m=2 o=2 r=2\n\
        9 07-01-09 00:05:59 1 asked mor\n\x20 9 m=? o=? r=?\n";
    named("several blocks in one datagram", line(&record, b"123"), output)
}

pub fn compare_named(run: &mut Run) -> Result<(), String> {
    let mut list: Vec<Named> = [digits(), versions(), dates(), lengths(), ends(), borders()]
        .into_iter()
        .flatten()
        .collect();
    list.extend([names(), keys(), full(), several()]);
    for case in &list {
        let compared = program::compare(run, &case.input, Some(&case.output));
        compared.map_err(|text| format!("{}: {text}", case.name))?;
    }
    Ok(())
}
