//! From a record to header octets, and the checks that come before.

use crate::bits::BitWriter;
use crate::legal::*;
use crate::refusal::Refusal;
use crate::rules::{check_rules, check_sizes};
use crate::types::*;

/// Every refusal of the writer except 11, with `count` octets of user data to
/// follow. If there is none, gives the octets that the header will take.
pub fn check(h: &Header, count: u64) -> Result<usize, Refusal> {
    check_fields(h)?;
    check_rules(h)?;
    // The header's own size is made here and not handed in, so it is never
    // wrong (51).
    check_sizes(h, count)?;
    let octets = header_octets(h).len();
    // The sum is taken wider than the count, which may be as large as it likes.
    if octets as u128 + u128::from(count) > MAX_DATAGRAM as u128 {
        return Err(Refusal::new(12));
    }
    Ok(octets)
}

/// Writes the header to the front of `out` and tells how many octets it took.
/// Nothing is touched before every check has passed.
pub fn write(h: &Header, count: u64, out: &mut [u8]) -> Result<usize, Refusal> {
    let octets = check(h, count)?;
    if out.len() < octets {
        return Err(Refusal::new(11));
    }
    let header = header_octets(h);
    for i in 0..octets {
        out[i] = header[i];
    }
    Ok(octets)
}

// ---------------------------------------------------------------------------
// Checks of single fields, in the order of the bits.

fn check_fields(h: &Header) -> Result<(), Refusal> {
    if !legal_version(h.version) {
        return Err(Refusal::new(2));
    }
    if let Some(compression) = h.compression {
        check_code(compression, legal_compression)?;
    }
    if let Some(originator) = &h.originator {
        check_address(originator)?;
    }

    let mut taken = 0;
    if let Some(list) = &h.recipients {
        taken = list.len();
        check_length(list.len(), list.len(), MAX_ADDRESSEES)?;
        for address in list {
            check_address(address)?;
        }
    }
    if let Some(list) = &h.information {
        // Both groups draw on the same sixteen places; that is found out here,
        // once the recipients themselves are in order.
        check_length(list.len(), taken + list.len(), MAX_ADDRESSEES)?;
        for address in list {
            check_address(address)?;
        }
    }

    check_length(h.blocks.len(), h.blocks.len(), MAX_BLOCKS)?;
    for b in &h.blocks {
        check_block(b, h.version)?;
    }
    Ok(())
}

/// A list that is there holds one entry at least, and with those counted
/// before it no more than the maximum.
fn check_length(own: usize, together: usize, maximum: usize) -> Result<(), Refusal> {
    if own == 0 || together > maximum {
        return Err(Refusal::new(5));
    }
    Ok(())
}

fn check_code(value: u32, legal: impl Fn(u32) -> bool) -> Result<(), Refusal> {
    if !legal(value) {
        return Err(Refusal::new(3));
    }
    Ok(())
}

/// A field that takes all values of its width has no illegal code in a
/// datagram, but a record can hold a number too large for it.
fn check_width(value: u32, width: usize) -> Result<(), Refusal> {
    if !fits(value, width) {
        return Err(Refusal::new(3));
    }
    Ok(())
}

fn check_optional_width(value: Option<u32>, width: usize) -> Result<(), Refusal> {
    match value {
        Some(value) => check_width(value, width),
        None => Ok(()),
    }
}

fn check_text(text: &[u8], maximum: usize) -> Result<(), Refusal> {
    if text.is_empty() || text.len() > maximum {
        return Err(Refusal::new(4));
    }
    for character in text {
        if *character >= MARKER {
            return Err(Refusal::new(4));
        }
    }
    Ok(())
}

fn check_optional_text(text: &Option<Vec<u8>>, maximum: usize) -> Result<(), Refusal> {
    match text {
        Some(text) => check_text(text, maximum),
        None => Ok(()),
    }
}

/// The number stands first, then the indicator that settles the form, then the
/// name: hence 3, 6, 4.
pub fn check_address(a: &Address) -> Result<(), Refusal> {
    check_optional_width(a.urn, 24)?;
    if a.urn.is_some() == a.name.is_some() {
        return Err(Refusal::new(6));
    }
    check_optional_text(&a.name, MAX_UNIT_NAME)
}

fn check_dtg(d: &Dtg) -> Result<(), Refusal> {
    check_code(d.year, legal_year)?;
    check_code(d.month, legal_month)?;
    check_code(d.day, |day| legal_day(d.year, d.month, day))?;
    check_code(d.hour, legal_hour)?;
    check_code(d.minute, legal_minute)?;
    check_code(d.second, legal_second)
}

pub fn check_stamp(s: &Stamp) -> Result<(), Refusal> {
    check_dtg(&s.dtg)?;
    check_optional_width(s.extension, 12)
}

/// Where the layout has no room for a standard version, one that is there would
/// be lost in writing. So it is refused, whatever its number.
fn check_standard_version(value: Option<u32>, version: u32) -> Result<(), Refusal> {
    if value.is_some() && !has_standard_version(version) {
        return Err(Refusal::new(3));
    }
    check_optional_width(value, 4)
}

fn check_block(b: &Block, version: u32) -> Result<(), Refusal> {
    check_code(b.umf, legal_umf)?;
    check_standard_version(b.standard_version, version)?;
    if let Some(identity) = &b.identity {
        check_width(identity.fad, 4)?;
        check_width(identity.number, 7)?;
        check_optional_width(identity.subtype, 7)?;
    }
    check_optional_text(&b.file_name, MAX_FILE_NAME)?;
    check_optional_width(b.message_size, 20)?;
    check_width(b.operation, 2)?;
    check_width(b.retransmit, 1)?;
    check_width(b.precedence, 3)?;
    check_width(b.classification, 2)?;
    check_optional_text(&b.marking, MAX_MARKING)?;
    if let Some(stamp) = &b.stamp {
        check_stamp(stamp)?;
    }
    if let Some(dtg) = &b.perishable {
        check_dtg(dtg)?;
    }
    // The three request bits are single bits and cannot be wrong.
    if let Some(response) = &b.response {
        check_response(response)?;
    }
    if let Some(list) = &b.references {
        check_references(list)?;
    }
    Ok(())
}

fn check_response(r: &Response) -> Result<(), Refusal> {
    check_stamp(&r.stamp)?;
    check_code(r.code, legal_response_code)?;
    check_optional_width(r.cantco, 3)?;
    check_optional_width(r.cantpro, 6)?;
    check_optional_text(&r.amplification, MAX_AMPLIFICATION)
}

fn check_references(list: &[Reference]) -> Result<(), Refusal> {
    check_length(list.len(), list.len(), MAX_REFERENCES)?;
    for reference in list {
        check_address(&reference.address)?;
        check_stamp(&reference.stamp)?;
    }
    Ok(())
}

// ---------------------------------------------------------------------------
// The octets of a record whose fields are in order.

/// The header is put together twice: the first time only to learn its length,
/// which does not depend on the number that stands in the size field. The
/// longest header takes under 10,000 octets, so the number fits 16 bits.
fn header_octets(h: &Header) -> Vec<u8> {
    let length = header_octets_with_size(h, 0).len();
    header_octets_with_size(h, length as u32)
}

fn header_octets_with_size(h: &Header, size: u32) -> Vec<u8> {
    let mut w = BitWriter::new();
    w.number(h.version, 4);
    w.optional_number(h.compression, 2);

    w.flag(h.originator.is_some());
    if let Some(originator) = &h.originator {
        put_address(&mut w, originator);
    }
    put_addressees(&mut w, &h.recipients);
    put_addressees(&mut w, &h.information);

    w.flag(h.sized);
    if h.sized {
        w.number(size, 16);
    }

    for (i, b) in h.blocks.iter().enumerate() {
        w.flag(i + 1 < h.blocks.len());
        put_block(&mut w, b, h.version);
    }
    w.octets()
}

fn put_address(w: &mut BitWriter, a: &Address) {
    w.optional_number(a.urn, 24);
    w.optional_text(&a.name, MAX_UNIT_NAME);
}

fn put_addressees(w: &mut BitWriter, addressees: &Option<Vec<Address>>) {
    w.flag(addressees.is_some());
    if let Some(list) = addressees {
        for (i, address) in list.iter().enumerate() {
            w.flag(i + 1 < list.len());
            put_address(w, address);
        }
    }
}

fn put_dtg(w: &mut BitWriter, d: &Dtg) {
    w.number(d.year, 7);
    w.number(d.month, 4);
    w.number(d.day, 5);
    w.number(d.hour, 5);
    w.number(d.minute, 6);
    w.number(d.second, 6);
}

fn put_stamp(w: &mut BitWriter, s: &Stamp) {
    put_dtg(w, &s.dtg);
    w.optional_number(s.extension, 12);
}

fn put_block(w: &mut BitWriter, b: &Block, version: u32) {
    w.number(b.umf, 4);
    if has_standard_version(version) {
        w.optional_number(b.standard_version, 4);
    }
    put_identity(w, &b.identity);
    w.optional_text(&b.file_name, MAX_FILE_NAME);
    w.optional_number(b.message_size, 20);
    w.number(b.operation, 2);
    w.number(b.retransmit, 1);
    w.number(b.precedence, 3);
    w.number(b.classification, 2);
    w.optional_text(&b.marking, MAX_MARKING);

    w.flag(b.stamp.is_some());
    if let Some(stamp) = &b.stamp {
        put_stamp(w, stamp);
    }
    w.flag(b.perishable.is_some());
    if let Some(dtg) = &b.perishable {
        put_dtg(w, dtg);
    }
    put_requests(w, &b.requests);
    put_response(w, &b.response);
    put_references(w, &b.references);
    // The security group is never sent.
    w.flag(false);
}

fn put_identity(w: &mut BitWriter, identity: &Option<Identity>) {
    w.flag(identity.is_some());
    if let Some(identity) = identity {
        w.number(identity.fad, 4);
        w.number(identity.number, 7);
        w.optional_number(identity.subtype, 7);
    }
}

fn put_requests(w: &mut BitWriter, requests: &Option<Requests>) {
    w.flag(requests.is_some());
    if let Some(q) = requests {
        w.flag(q.machine);
        w.flag(q.acknowledge);
        w.flag(q.reply);
    }
}

fn put_response(w: &mut BitWriter, response: &Option<Response>) {
    w.flag(response.is_some());
    if let Some(r) = response {
        put_stamp(w, &r.stamp);
        w.number(r.code, 3);
        w.optional_number(r.cantco, 3);
        w.optional_number(r.cantpro, 6);
        w.optional_text(&r.amplification, MAX_AMPLIFICATION);
    }
}

fn put_references(w: &mut BitWriter, references: &Option<Vec<Reference>>) {
    w.flag(references.is_some());
    if let Some(list) = references {
        for (i, reference) in list.iter().enumerate() {
            w.flag(i + 1 < list.len());
            put_address(w, &reference.address);
            put_stamp(w, &reference.stamp);
        }
    }
}
