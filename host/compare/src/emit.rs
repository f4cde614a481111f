//! The bits of any record, legal or not, so that faults of a record turn up in datagrams too. A number over its width
//! loses its high bits, a list stands with all its entries. No answer is expected of this: it makes inputs.

use reference::{
    Address, BitWriter, Block, Dtg, Header, Stamp, MAX_AMPLIFICATION, MAX_FILE_NAME, MAX_MARKING,
    MAX_UNIT_NAME,
};

/// What a record cannot hold.
#[derive(Clone, Copy, Default)]
pub struct Extra {
    /// The block whose G10 presence bit is 1.
    pub security: Option<usize>,
    /// The fill bits, lowest first.
    pub fill: u32,
    /// Added to the number that stands as header size.
    pub size: u32,
}

pub fn emit(record: &Header, extra: Extra) -> Vec<u8> {
    let octets = fields(record, extra, 0).bits.len().div_ceil(8);
    let mut bits = fields(record, extra, (octets as u32).wrapping_add(extra.size));
    let missing = octets * 8 - bits.bits.len();
    bits.number(extra.fill, missing);
    bits.octets()
}

fn fields(record: &Header, extra: Extra, size: u32) -> BitWriter {
    let mut bits = BitWriter::new();
    bits.number(record.version, 4);
    bits.optional_number(record.compression, 2);
    bits.flag(record.originator.is_some());
    if let Some(originator) = &record.originator {
        address(&mut bits, originator);
    }
    list(&mut bits, &record.recipients, address);
    list(&mut bits, &record.information, address);
    bits.optional_number(record.sized.then_some(size), 16);
    for (i, b) in record.blocks.iter().enumerate() {
        bits.flag(i + 1 < record.blocks.len());
        block(&mut bits, b, record.version);
        bits.flag(extra.security == Some(i));
    }
    bits
}

fn list<T>(bits: &mut BitWriter, entries: &Option<Vec<T>>, put: fn(&mut BitWriter, &T)) {
    bits.flag(entries.is_some());
    let Some(entries) = entries else { return };
    for (i, entry) in entries.iter().enumerate() {
        bits.flag(i + 1 < entries.len());
        put(bits, entry);
    }
}

fn address(bits: &mut BitWriter, a: &Address) {
    bits.optional_number(a.urn, 24);
    bits.optional_text(&a.name, MAX_UNIT_NAME);
}

fn dtg(bits: &mut BitWriter, d: &Dtg) {
    let fields = [(d.year, 7), (d.month, 4), (d.day, 5), (d.hour, 5), (d.minute, 6), (d.second, 6)];
    fields.iter().for_each(|(value, width)| bits.number(*value, *width));
}

fn stamp(bits: &mut BitWriter, s: &Stamp) {
    dtg(bits, &s.dtg);
    bits.optional_number(s.extension, 12);
}

/// A standard version that version 1 does not have stands there all the same: to a reader its bits are other fields.
fn block(bits: &mut BitWriter, b: &Block, version: u32) {
    bits.number(b.umf, 4);
    if version != 1 || b.standard_version.is_some() {
        bits.optional_number(b.standard_version, 4);
    }
    bits.flag(b.identity.is_some());
    if let Some(identity) = &b.identity {
        bits.number(identity.fad, 4);
        bits.number(identity.number, 7);
        bits.optional_number(identity.subtype, 7);
    }
    bits.optional_text(&b.file_name, MAX_FILE_NAME);
    bits.optional_number(b.message_size, 20);
    bits.number(b.operation, 2);
    bits.number(b.retransmit, 1);
    bits.number(b.precedence, 3);
    bits.number(b.classification, 2);
    bits.optional_text(&b.marking, MAX_MARKING);
    groups(bits, b);
}

/// G5 to G9.
fn groups(bits: &mut BitWriter, b: &Block) {
    bits.flag(b.stamp.is_some());
    b.stamp.iter().for_each(|s| stamp(bits, s));
    bits.flag(b.perishable.is_some());
    b.perishable.iter().for_each(|d| dtg(bits, d));
    bits.flag(b.requests.is_some());
    if let Some(asked) = &b.requests {
        bits.flag(asked.machine);
        bits.flag(asked.acknowledge);
        bits.flag(asked.reply);
    }
    bits.flag(b.response.is_some());
    if let Some(response) = &b.response {
        stamp(bits, &response.stamp);
        bits.number(response.code, 3);
        bits.optional_number(response.cantco, 3);
        bits.optional_number(response.cantpro, 6);
        bits.optional_text(&response.amplification, MAX_AMPLIFICATION);
    }
    list(bits, &b.references, |bits, entry| {
        address(bits, &entry.address);
        stamp(bits, &entry.stamp);
    });
}
