//! From octets to the second program's records, tables and keys, by the rules of the layout alone: a flag is set unless
//! its octet is 0, a number is 32 bits with the low octet first, and a struct stands where the compiler puts it. Any
//! octets are some record, table or key. What is not present, or lies behind a count, is not looked at.

use std::mem::{offset_of, size_of};

use pruvelaccio as product;
use pruvelaccio::{KeyOctets, RecordOctets, TableOctets};
use reference as plain;

/// The octets from a field of a struct on; `$s` begins at the struct.
macro_rules! from {
    ($s:expr, $struct:ident, $($field:ident).+) => {
        &$s[offset_of!(product::$struct, $($field).+)..]
    };
}

fn flag(s: &[u8]) -> bool {
    s[0] != 0
}

fn word(s: &[u8]) -> u32 {
    u32::from_le_bytes([s[0], s[1], s[2], s[3]])
}

fn number(s: &[u8]) -> Option<u32> {
    flag(from!(s, OptionalNumber, present)).then(|| word(from!(s, OptionalNumber, value)))
}

/// The entries that a count names. Where it passes the array there is one more than the array has, whatever it is: no
/// more can be said of such a list, and each is refused for its length, before its entries.
fn list<T>(s: &[u8], count: u32, (held, size): (usize, usize), take: fn(&[u8]) -> T) -> Vec<T> {
    let count = (count as usize).min(held + 1);
    (0..count).map(|i| take(&s[i.min(held - 1) * size..])).collect()
}

fn text(s: &[u8]) -> Vec<u8> {
    list(from!(s, Text, chars), word(from!(s, Text, len)), (64, 1), |s| s[0])
}

fn optional_text(s: &[u8]) -> Option<Vec<u8>> {
    flag(from!(s, OptionalText, present)).then(|| text(from!(s, OptionalText, text)))
}

fn address(s: &[u8]) -> plain::Address {
    plain::Address {
        urn: number(from!(s, Address, urn)),
        name: optional_text(from!(s, Address, name)),
    }
}

fn addresses(s: &[u8]) -> Option<Vec<plain::Address>> {
    let count = word(from!(s, OptionalAddresses, addresses.count));
    let entries = from!(s, OptionalAddresses, addresses.list);
    let shape = (16, size_of::<product::Address>());
    flag(from!(s, OptionalAddresses, present)).then(|| list(entries, count, shape, address))
}

fn dtg(s: &[u8]) -> plain::Dtg {
    plain::Dtg {
        year: word(from!(s, Dtg, date.year)),
        month: word(from!(s, Dtg, date.month)),
        day: word(from!(s, Dtg, date.day)),
        hour: word(from!(s, Dtg, time.hour)),
        minute: word(from!(s, Dtg, time.minute)),
        second: word(from!(s, Dtg, time.second)),
    }
}

fn stamp(s: &[u8]) -> plain::Stamp {
    plain::Stamp { dtg: dtg(from!(s, Stamp, dtg)), extension: number(from!(s, Stamp, extension)) }
}

fn identity(s: &[u8]) -> plain::Identity {
    plain::Identity {
        fad: word(from!(s, Identity, fad)),
        number: word(from!(s, Identity, number)),
        subtype: number(from!(s, Identity, subtype)),
    }
}

fn requests(s: &[u8]) -> plain::Requests {
    plain::Requests {
        machine: flag(from!(s, Requests, machine)),
        acknowledge: flag(from!(s, Requests, acknowledge)),
        reply: flag(from!(s, Requests, reply)),
    }
}

fn response(s: &[u8]) -> plain::Response {
    plain::Response {
        stamp: stamp(from!(s, Response, stamp)),
        code: word(from!(s, Response, compliance.code)),
        cantco: number(from!(s, Response, compliance.cantco)),
        cantpro: number(from!(s, Response, compliance.cantpro)),
        amplification: optional_text(from!(s, Response, amplification)),
    }
}

fn reference(s: &[u8]) -> plain::Reference {
    plain::Reference {
        address: address(from!(s, Reference, address)),
        stamp: stamp(from!(s, Reference, stamp)),
    }
}

fn references(s: &[u8]) -> Option<Vec<plain::Reference>> {
    let count = word(from!(s, OptionalReferences, references.count));
    let entries = from!(s, OptionalReferences, references.list);
    let shape = (4, size_of::<product::Reference>());
    flag(from!(s, OptionalReferences, present)).then(|| list(entries, count, shape, reference))
}

/// A part that may be absent: its flag, and what stands behind it.
fn optional<T>((present, part): (&[u8], &[u8]), take: fn(&[u8]) -> T) -> Option<T> {
    flag(present).then(|| take(part))
}

fn block(s: &[u8]) -> plain::Block {
    let g4 = (from!(s, Block, format.identity.present), from!(s, Block, format.identity.identity));
    let g5 = (from!(s, Block, times.origin.present), from!(s, Block, times.origin.stamp));
    let g6 = (from!(s, Block, times.perish.present), from!(s, Block, times.perish.dtg));
    let g7 = (from!(s, Block, times.requests.present), from!(s, Block, times.requests.requests));
    let g8 = (from!(s, Block, response.present), from!(s, Block, response.response));
    plain::Block {
        umf: word(from!(s, Block, format.umf)),
        standard_version: number(from!(s, Block, format.version)),
        identity: optional(g4, identity),
        file_name: optional_text(from!(s, Block, format.file)),
        message_size: number(from!(s, Block, handling.size)),
        operation: word(from!(s, Block, handling.codes.operation)),
        retransmit: word(from!(s, Block, handling.codes.retransmit)),
        precedence: word(from!(s, Block, handling.codes.precedence)),
        classification: word(from!(s, Block, handling.codes.classification)),
        marking: optional_text(from!(s, Block, handling.marking)),
        stamp: optional(g5, stamp),
        perishable: optional(g6, dtg),
        requests: optional(g7, requests),
        response: optional(g8, response),
        references: references(from!(s, Block, references)),
    }
}

pub fn header(record: &RecordOctets) -> plain::Header {
    let s = &record.octets()[..];
    let g1 =
        (from!(s, Header, front.originator.present), from!(s, Header, front.originator.address));
    let count = word(from!(s, Header, blocks.count));
    let shape = (16, size_of::<product::Block>());
    plain::Header {
        version: word(from!(s, Header, front.version)),
        compression: number(from!(s, Header, front.compression)),
        originator: optional(g1, address),
        recipients: addresses(from!(s, Header, front.recipients)),
        information: addresses(from!(s, Header, front.information)),
        sized: flag(from!(s, Header, sized)),
        blocks: list(from!(s, Header, blocks.list), count, shape, block),
    }
}

// ---------------------------------------------------------------------------
// The table

fn key_at(s: &[u8]) -> plain::Key {
    plain::Key { address: address(from!(s, Key, address)), stamp: stamp(from!(s, Key, stamp)) }
}

fn recipient(s: &[u8]) -> plain::Recipient {
    plain::Recipient {
        address: address(from!(s, Recipient, address)),
        machine: word(from!(s, Recipient, machine)),
        acknowledge: word(from!(s, Recipient, acknowledge)),
        reply: word(from!(s, Recipient, reply)),
    }
}

fn row(s: &[u8]) -> plain::Row {
    let count = word(from!(s, Row, count));
    let shape = (16, size_of::<product::Recipient>());
    plain::Row {
        key: key_at(from!(s, Row, key)),
        asked: requests(from!(s, Row, asked)),
        recipients: list(from!(s, Row, recipients), count, shape, recipient),
    }
}

/// A row that is as good as any other: of a table with too many nothing else is looked at.
fn any_row() -> plain::Row {
    let dtg = plain::Dtg { year: 0, month: 0, day: 0, hour: 0, minute: 0, second: 0 };
    let stamp = plain::Stamp { dtg, extension: None };
    let key = plain::Key { address: plain::Address { urn: None, name: None }, stamp };
    let asked = plain::Requests { machine: false, acknowledge: false, reply: false };
    plain::Row { key, asked, recipients: Vec::new() }
}

pub fn key(key: &KeyOctets) -> plain::Key {
    key_at(key.octets())
}

/// Taking many rows costs much, so those of a table with too many are not taken.
pub fn table(table: &TableOctets) -> plain::Board {
    let s = &table.octets()[..];
    let count = word(from!(s, Table, count));
    let rows = match count {
        0..=32 => list(from!(s, Table, rows), count, (32, size_of::<product::Row>()), row),
        _ => vec![any_row(); 33],
    };
    plain::Board { rows }
}
