//! From the second program's records to the product's struct.
//!
//! Only used cells are written: what stands in the others is up to the caller (rubbish for a question, zeros for
//! an expected answer). A list or text longer than its array is held as its count, with cells up to the array's
//! end; `stretch` is added to such a count, which is too large with and without it.

use pruvelaccio as product;
use reference as plain;

fn count(length: usize, held: usize, stretch: u32) -> u32 {
    if length <= held {
        length as u32
    } else {
        (length as u32).saturating_add(stretch)
    }
}

fn number(from: Option<u32>, to: &mut product::OptionalNumber) {
    to.present = from.is_some();
    if let Some(value) = from {
        to.value = value;
    }
}

fn text(from: &[u8], to: &mut product::Text, stretch: u32) {
    let held = from.len().min(to.chars.len());
    to.chars[..held].copy_from_slice(&from[..held]);
    to.len = count(from.len(), to.chars.len(), stretch);
}

fn optional_text(from: &Option<Vec<u8>>, to: &mut product::OptionalText, stretch: u32) {
    to.present = from.is_some();
    if let Some(characters) = from {
        text(characters, &mut to.text, stretch);
    }
}

fn address(from: &plain::Address, to: &mut product::Address, stretch: u32) {
    number(from.urn, &mut to.urn);
    optional_text(&from.name, &mut to.name, stretch);
}

fn addresses(
    from: &Option<Vec<plain::Address>>,
    to: &mut product::OptionalAddresses,
    stretch: u32,
) {
    to.present = from.is_some();
    let Some(list) = from else { return };
    let to = &mut to.addresses;
    to.count = count(list.len(), to.list.len(), stretch);
    list.iter().zip(&mut to.list).for_each(|(from, to)| address(from, to, stretch));
}

fn dtg(from: &plain::Dtg, to: &mut product::Dtg) {
    to.date = product::Date { year: from.year, month: from.month, day: from.day };
    to.time = product::Time { hour: from.hour, minute: from.minute, second: from.second };
}

fn stamp(from: &plain::Stamp, to: &mut product::Stamp) {
    dtg(&from.dtg, &mut to.dtg);
    number(from.extension, &mut to.extension);
}

fn requests(from: &plain::Requests) -> product::Requests {
    product::Requests { machine: from.machine, acknowledge: from.acknowledge, reply: from.reply }
}

fn identity(from: &Option<plain::Identity>, to: &mut product::OptionalIdentity) {
    to.present = from.is_some();
    let Some(from) = from else { return };
    to.identity.fad = from.fad;
    to.identity.number = from.number;
    number(from.subtype, &mut to.identity.subtype);
}

fn times(from: &plain::Block, to: &mut product::Times) {
    to.origin.present = from.stamp.is_some();
    if let Some(origin) = &from.stamp {
        stamp(origin, &mut to.origin.stamp);
    }
    to.perish.present = from.perishable.is_some();
    if let Some(perishable) = &from.perishable {
        dtg(perishable, &mut to.perish.dtg);
    }
    to.requests.present = from.requests.is_some();
    if let Some(asked) = &from.requests {
        to.requests.requests = requests(asked);
    }
}

fn response(from: &Option<plain::Response>, to: &mut product::OptionalResponse, stretch: u32) {
    to.present = from.is_some();
    let Some(from) = from else { return };
    let to = &mut to.response;
    stamp(&from.stamp, &mut to.stamp);
    to.compliance.code = from.code;
    number(from.cantco, &mut to.compliance.cantco);
    number(from.cantpro, &mut to.compliance.cantpro);
    optional_text(&from.amplification, &mut to.amplification, stretch);
}

fn references(
    from: &Option<Vec<plain::Reference>>,
    to: &mut product::OptionalReferences,
    stretch: u32,
) {
    to.present = from.is_some();
    let Some(list) = from else { return };
    let to = &mut to.references;
    to.count = count(list.len(), to.list.len(), stretch);
    for (from, to) in list.iter().zip(&mut to.list) {
        address(&from.address, &mut to.address, stretch);
        stamp(&from.stamp, &mut to.stamp);
    }
}

fn block(from: &plain::Block, to: &mut product::Block, stretch: u32) {
    to.format.umf = from.umf;
    number(from.standard_version, &mut to.format.version);
    identity(&from.identity, &mut to.format.identity);
    optional_text(&from.file_name, &mut to.format.file, stretch);
    number(from.message_size, &mut to.handling.size);
    to.handling.codes.operation = from.operation;
    to.handling.codes.retransmit = from.retransmit;
    to.handling.codes.precedence = from.precedence;
    to.handling.codes.classification = from.classification;
    optional_text(&from.marking, &mut to.handling.marking, stretch);
    times(from, &mut to.times);
    response(&from.response, &mut to.response, stretch);
    references(&from.references, &mut to.references, stretch);
}

pub fn header(from: &plain::Header, to: &mut product::Header, stretch: u32) {
    to.front.version = from.version;
    number(from.compression, &mut to.front.compression);
    to.front.originator.present = from.originator.is_some();
    if let Some(originator) = &from.originator {
        address(originator, &mut to.front.originator.address, stretch);
    }
    addresses(&from.recipients, &mut to.front.recipients, stretch);
    addresses(&from.information, &mut to.front.information, stretch);
    to.sized = from.sized;
    to.blocks.count = count(from.blocks.len(), to.blocks.list.len(), stretch);
    from.blocks.iter().zip(&mut to.blocks.list).for_each(|(from, to)| block(from, to, stretch));
}
