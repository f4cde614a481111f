//! From the record to header octets.

use super::bits_out::BitsOut;
use super::check::check;
use super::fragments::Fragments;
use super::limits::*;
use super::refusals::only;
use super::way::Way;
use pruvelaccio::*;

/// Writes a record's header: the octets written. Every refusal is decided before the first of them.
#[inline(never)]
pub fn write(h: &Header, count: usize, out: &mut [u8]) -> Result<usize, Refusal> {
    write_by(Fragments, h, count, out)
}

/// The same, with bits put either way.
pub fn write_by(way: impl Way, h: &Header, count: usize, out: &mut [u8]) -> Result<usize, Refusal> {
    let octets = check(h, count)?;
    if out.len() < octets {
        return Err(only(11));
    }
    let mut bits = BitsOut::new(way, &mut out[..octets]);
    front(&mut bits, &h.front);
    bits.flag(h.sized);
    if h.sized {
        bits.number(octets as u32, 16);
    }
    blocks(&mut bits, h.front.version, &h.blocks);
    bits.finish();
    Ok(octets)
}

fn front(bits: &mut BitsOut<impl Way>, f: &Front) {
    bits.number(f.version, 4);
    bits.optional(&f.compression, 2);
    bits.flag(f.originator.present);
    if f.originator.present {
        address(bits, &f.originator.address);
    }
    addressees(bits, &f.recipients);
    addressees(bits, &f.information);
}

fn address(bits: &mut BitsOut<impl Way>, a: &Address) {
    bits.optional(&a.urn, 24);
    bits.optional_text(&a.name, UNIT_NAME);
}

/// Every entry but the last has the recurrence bit 1.
fn addressees(bits: &mut BitsOut<impl Way>, g: &OptionalAddresses) {
    bits.flag(g.present);
    if !g.present {
        return;
    }
    let list = &g.addresses.list[..g.addresses.count as usize];
    for (i, entry) in list.iter().enumerate() {
        bits.flag(i + 1 < list.len());
        address(bits, entry);
    }
}

fn blocks(bits: &mut BitsOut<impl Way>, version: u32, g: &Blocks) {
    let list = &g.list[..g.count as usize];
    for (i, entry) in list.iter().enumerate() {
        bits.flag(i + 1 < list.len());
        block(bits, version, entry);
    }
}

/// The last bit is G10's presence.
fn block(bits: &mut BitsOut<impl Way>, version: u32, b: &Block) {
    format(bits, version, &b.format);
    handling(bits, &b.handling);
    times(bits, &b.times);
    bits.flag(b.response.present);
    if b.response.present {
        response(bits, &b.response.response);
    }
    bits.flag(b.references.present);
    if b.references.present {
        references(bits, &b.references.references);
    }
    bits.flag(false);
}

/// Version 1 has no standard version.
fn format(bits: &mut BitsOut<impl Way>, version: u32, f: &Format) {
    bits.number(f.umf, 4);
    if version != 1 {
        bits.optional(&f.version, 4);
    }
    bits.flag(f.identity.present);
    if f.identity.present {
        let g4 = &f.identity.identity;
        bits.number(g4.fad | g4.number << 4, 11);
        bits.optional(&g4.subtype, 7);
    }
    bits.optional_text(&f.file, FILE_NAME);
}

fn handling(bits: &mut BitsOut<impl Way>, x: &Handling) {
    bits.optional(&x.size, 20);
    let c = &x.codes;
    let codes = c.operation | c.retransmit << 2 | c.precedence << 3 | c.classification << 6;
    bits.number(codes, 8);
    bits.optional_text(&x.marking, MARKING);
}

fn times(bits: &mut BitsOut<impl Way>, x: &Times) {
    bits.flag(x.origin.present);
    if x.origin.present {
        bits.stamp(&x.origin.stamp);
    }
    bits.flag(x.perish.present);
    if x.perish.present {
        bits.dtg(&x.perish.dtg);
    }
    bits.flag(x.requests.present);
    if x.requests.present {
        let asked = &x.requests.requests;
        bits.flag(asked.machine);
        bits.flag(asked.acknowledge);
        bits.flag(asked.reply);
    }
}

fn response(bits: &mut BitsOut<impl Way>, x: &Response) {
    bits.stamp(&x.stamp);
    bits.number(x.compliance.code, 3);
    bits.optional(&x.compliance.cantco, 3);
    bits.optional(&x.compliance.cantpro, 6);
    bits.optional_text(&x.amplification, AMPLIFICATION);
}

fn references(bits: &mut BitsOut<impl Way>, g: &References) {
    let list = &g.list[..g.count as usize];
    for (i, entry) in list.iter().enumerate() {
        bits.flag(i + 1 < list.len());
        address(bits, &entry.address);
        bits.stamp(&entry.stamp);
    }
}
