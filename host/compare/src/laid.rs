//! From the second program's records and tables to octets, by the rules of the layout alone. Only the octets of used
//! cells are written: what stands in the others, and between the cells, is up to the caller (zeros for what the library
//! fills, rubbish for a question). A list or text longer than its array is held as its count, with entries up to the
//! array's end; `stretch` is added to such a count, which is too large with and without it.

use std::mem::{offset_of, size_of};

use pruvelaccio as product;
use pruvelaccio::{KeyOctets, RecordOctets, TableOctets};
use reference as plain;

/// The octets from a field of a struct on; `$s` begins at the struct.
macro_rules! from {
    ($s:expr, $struct:ident, $($field:ident).+) => {
        &mut $s[offset_of!(product::$struct, $($field).+)..]
    };
}

fn flag(from: bool, s: &mut [u8]) {
    s[0] = u8::from(from);
}

fn word(from: u32, s: &mut [u8]) {
    s[..4].copy_from_slice(&from.to_le_bytes());
}

fn number(from: Option<u32>, s: &mut [u8]) {
    flag(from.is_some(), from!(s, OptionalNumber, present));
    if let Some(value) = from {
        word(value, from!(s, OptionalNumber, value));
    }
}

/// The entries one behind the other, `size` octets apart, as many as the array holds.
fn list<T>(from: &[T], s: &mut [u8], (held, size): (usize, usize), lay: impl Fn(&T, &mut [u8])) {
    from.iter().take(held).zip(s.chunks_mut(size)).for_each(|(entry, s)| lay(entry, s));
}

fn count(length: usize, held: usize, stretch: u32, s: &mut [u8]) {
    let stretch = if length > held { stretch } else { 0 };
    word((length as u32).saturating_add(stretch), s);
}

fn stretched_text(from: &Option<Vec<u8>>, s: &mut [u8], stretch: u32) {
    flag(from.is_some(), from!(s, OptionalText, present));
    if let Some(characters) = from {
        list(characters, from!(s, OptionalText, text.chars), (64, 1), |c, s| s[0] = *c);
        count(characters.len(), 64, stretch, from!(s, OptionalText, text.len));
    }
}

fn stretched_address(from: &plain::Address, s: &mut [u8], stretch: u32) {
    number(from.urn, from!(s, Address, urn));
    stretched_text(&from.name, from!(s, Address, name), stretch);
}

fn optional_text(from: &Option<Vec<u8>>, s: &mut [u8]) {
    stretched_text(from, s, 0);
}

fn address(from: &plain::Address, s: &mut [u8]) {
    stretched_address(from, s, 0);
}

fn addresses(from: &Option<Vec<plain::Address>>, s: &mut [u8]) {
    flag(from.is_some(), from!(s, OptionalAddresses, present));
    if let Some(entries) = from {
        let shape = (16, size_of::<product::Address>());
        list(entries, from!(s, OptionalAddresses, addresses.list), shape, address);
        word(entries.len() as u32, from!(s, OptionalAddresses, addresses.count));
    }
}

fn dtg(from: &plain::Dtg, s: &mut [u8]) {
    word(from.year, from!(s, Dtg, date.year));
    word(from.month, from!(s, Dtg, date.month));
    word(from.day, from!(s, Dtg, date.day));
    word(from.hour, from!(s, Dtg, time.hour));
    word(from.minute, from!(s, Dtg, time.minute));
    word(from.second, from!(s, Dtg, time.second));
}

fn stamp(from: &plain::Stamp, s: &mut [u8]) {
    dtg(&from.dtg, from!(s, Stamp, dtg));
    number(from.extension, from!(s, Stamp, extension));
}

fn identity(from: &Option<plain::Identity>, s: &mut [u8]) {
    flag(from.is_some(), from!(s, OptionalIdentity, present));
    if let Some(g4) = from {
        word(g4.fad, from!(s, OptionalIdentity, identity.fad));
        word(g4.number, from!(s, OptionalIdentity, identity.number));
        number(g4.subtype, from!(s, OptionalIdentity, identity.subtype));
    }
}

fn requests(from: &plain::Requests, s: &mut [u8]) {
    flag(from.machine, from!(s, Requests, machine));
    flag(from.acknowledge, from!(s, Requests, acknowledge));
    flag(from.reply, from!(s, Requests, reply));
}

fn times(from: &plain::Block, s: &mut [u8]) {
    flag(from.stamp.is_some(), from!(s, Times, origin.present));
    if let Some(g5) = &from.stamp {
        stamp(g5, from!(s, Times, origin.stamp));
    }
    flag(from.perishable.is_some(), from!(s, Times, perish.present));
    if let Some(g6) = &from.perishable {
        dtg(g6, from!(s, Times, perish.dtg));
    }
    flag(from.requests.is_some(), from!(s, Times, requests.present));
    if let Some(g7) = &from.requests {
        requests(g7, from!(s, Times, requests.requests));
    }
}

fn response(from: &Option<plain::Response>, s: &mut [u8]) {
    flag(from.is_some(), from!(s, OptionalResponse, present));
    let s = from!(s, OptionalResponse, response);
    if let Some(g8) = from {
        stamp(&g8.stamp, from!(s, Response, stamp));
        word(g8.code, from!(s, Response, compliance.code));
        number(g8.cantco, from!(s, Response, compliance.cantco));
        number(g8.cantpro, from!(s, Response, compliance.cantpro));
        optional_text(&g8.amplification, from!(s, Response, amplification));
    }
}

fn reference(from: &plain::Reference, s: &mut [u8]) {
    address(&from.address, from!(s, Reference, address));
    stamp(&from.stamp, from!(s, Reference, stamp));
}

fn references(from: &Option<Vec<plain::Reference>>, s: &mut [u8]) {
    flag(from.is_some(), from!(s, OptionalReferences, present));
    if let Some(entries) = from {
        let shape = (4, size_of::<product::Reference>());
        list(entries, from!(s, OptionalReferences, references.list), shape, reference);
        word(entries.len() as u32, from!(s, OptionalReferences, references.count));
    }
}

fn block(from: &plain::Block, s: &mut [u8]) {
    word(from.umf, from!(s, Block, format.umf));
    number(from.standard_version, from!(s, Block, format.version));
    identity(&from.identity, from!(s, Block, format.identity));
    optional_text(&from.file_name, from!(s, Block, format.file));
    number(from.message_size, from!(s, Block, handling.size));
    word(from.operation, from!(s, Block, handling.codes.operation));
    word(from.retransmit, from!(s, Block, handling.codes.retransmit));
    word(from.precedence, from!(s, Block, handling.codes.precedence));
    word(from.classification, from!(s, Block, handling.codes.classification));
    optional_text(&from.marking, from!(s, Block, handling.marking));
    times(from, from!(s, Block, times));
    response(&from.response, from!(s, Block, response));
    references(&from.references, from!(s, Block, references));
}

/// Lays a record over the octets that are there.
pub fn over(from: &plain::Header, record: &mut RecordOctets) {
    let s = &mut record.octets_mut()[..];
    word(from.version, from!(s, Header, front.version));
    number(from.compression, from!(s, Header, front.compression));
    flag(from.originator.is_some(), from!(s, Header, front.originator.present));
    if let Some(originator) = &from.originator {
        address(originator, from!(s, Header, front.originator.address));
    }
    addresses(&from.recipients, from!(s, Header, front.recipients));
    addresses(&from.information, from!(s, Header, front.information));
    flag(from.sized, from!(s, Header, sized));
    list(&from.blocks, from!(s, Header, blocks.list), (16, size_of::<product::Block>()), block);
    word(from.blocks.len() as u32, from!(s, Header, blocks.count));
}

/// A record's octets with 0 in unused cells and between the cells.
pub fn alone(from: &plain::Header) -> RecordOctets {
    let mut record = RecordOctets::zero();
    over(from, &mut record);
    record
}

// ---------------------------------------------------------------------------
// The table

fn stretched_key(from: &plain::Key, s: &mut [u8], stretch: u32) {
    stretched_address(&from.address, from!(s, Key, address), stretch);
    stamp(&from.stamp, from!(s, Key, stamp));
}

fn recipient(from: &plain::Recipient, s: &mut [u8], stretch: u32) {
    stretched_address(&from.address, from!(s, Recipient, address), stretch);
    codes(from, s);
}

fn stretched_row(from: &plain::Row, s: &mut [u8], stretch: u32) {
    stretched_key(&from.key, from!(s, Row, key), stretch);
    requests(&from.asked, from!(s, Row, asked));
    let shape = (16, size_of::<product::Recipient>());
    list(&from.recipients, from!(s, Row, recipients), shape, |r, s| recipient(r, s, stretch));
    count(from.recipients.len(), 16, stretch, from!(s, Row, count));
}

/// Lays a key over the octets that are there.
pub fn key(from: &plain::Key, key: &mut KeyOctets, stretch: u32) {
    stretched_key(from, key.octets_mut(), stretch);
}

/// Lays a row, which fits, over the octets of its place.
pub fn row(from: &plain::Row, s: &mut [u8]) {
    stretched_row(from, s, 0);
}

/// Lays the codes of a recipient over the octets of its place.
pub fn codes(from: &plain::Recipient, s: &mut [u8]) {
    word(from.machine, from!(s, Recipient, machine));
    word(from.acknowledge, from!(s, Recipient, acknowledge));
    word(from.reply, from!(s, Recipient, reply));
}

/// The count of a table's rows.
pub fn rows(count: usize, table: &mut TableOctets) {
    word(count as u32, from!(table.octets_mut(), Table, count));
}

/// Lays a table over the octets that are there.
pub fn table(from: &plain::Board, table: &mut TableOctets, stretch: u32) {
    let s = &mut table.octets_mut()[..];
    let shape = (32, size_of::<product::Row>());
    list(&from.rows, from!(s, Table, rows), shape, |row, s| stretched_row(row, s, stretch));
    count(from.rows.len(), 32, stretch, from!(s, Table, count));
}

/// A table's octets with 0 in unused cells, in unused rows and between the cells.
pub fn table_alone(from: &plain::Board) -> TableOctets {
    let mut octets = TableOctets::zero();
    table(from, &mut octets, 0);
    octets
}
