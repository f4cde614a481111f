//! From a datagram to the record.

use super::bits_in::BitsIn;
use super::fragments::Fragments;
use super::limits::*;
use super::refusals::only;
use super::rules;
use super::way::Way;
use super::zero::NO_HEADER;
use pruvelaccio::*;

/// Reads a datagram: the octets of its header. The record is cleared first, so that unused cells are 0; after a
/// refusal what it holds has no meaning.
#[inline(never)]
pub fn read(datagram: &[u8], into: &mut Header) -> Result<usize, Refusal> {
    read_by(Fragments, datagram, into)
}

/// The same, with bits taken either way.
pub fn read_by(way: impl Way, datagram: &[u8], into: &mut Header) -> Result<usize, Refusal> {
    if datagram.len() > DATAGRAM {
        return Err(only(12));
    }
    *into = NO_HEADER;
    let mut bits = BitsIn::new(way, datagram);
    front(&mut bits, &mut into.front)?;
    let mut size = OptionalNumber { present: false, value: 0 };
    bits.optional(16, &mut size)?;
    into.sized = size.present;
    blocks(&mut bits, into.front.version, &mut into.blocks)?;
    bits.fill()?;
    let length = bits.place() / 8;
    rules::rules(into)?;
    if size.present && size.value as usize != length {
        return Err(only(51));
    }
    rules::sizes(&into.blocks, datagram.len() - length)?;
    Ok(length)
}

fn front(bits: &mut BitsIn<impl Way>, into: &mut Front) -> Result<(), Refusal> {
    into.version = bits.code(4, 1, 2, 2)?;
    if bits.flag()? {
        let value = bits.code(2, 0, 1, 3)?;
        into.compression = OptionalNumber { present: true, value };
    }
    if bits.flag()? {
        into.originator.present = true;
        address(bits, &mut into.originator.address)?;
    }
    if bits.flag()? {
        into.recipients.present = true;
        addresses(bits, ADDRESSEES, &mut into.recipients.addresses)?;
    }
    // The presence bit of G3 asks for one more, as a recurrence bit does.
    let room = ADDRESSEES - into.recipients.addresses.count as usize;
    if bits.recurs(room)? {
        into.information.present = true;
        addresses(bits, room, &mut into.information.addresses)?;
    }
    Ok(())
}

fn address(bits: &mut BitsIn<impl Way>, into: &mut Address) -> Result<(), Refusal> {
    bits.optional(24, &mut into.urn)?;
    // The second indicator is the contrary of the first.
    let due = u32::from(!into.urn.present);
    if bits.code(1, due, due, 6)? == 1 {
        into.name.present = true;
        bits.text(UNIT_NAME, &mut into.name.text)?;
    }
    Ok(())
}

fn addresses(
    bits: &mut BitsIn<impl Way>,
    room: usize,
    into: &mut Addresses,
) -> Result<(), Refusal> {
    for (i, entry) in into.list[..room].iter_mut().enumerate() {
        let more = bits.recurs(room - 1 - i)?;
        address(bits, entry)?;
        if !more {
            into.count = i as u32 + 1;
            break;
        }
    }
    Ok(())
}

fn blocks(
    bits: &mut BitsIn<impl Way>,
    version: u32,
    into: &mut Blocks,
) -> Result<(), Refusal> {
    for (i, entry) in into.list.iter_mut().enumerate() {
        let more = bits.recurs(BLOCKS - 1 - i)?;
        block(bits, version, entry)?;
        if !more {
            into.count = i as u32 + 1;
            break;
        }
    }
    Ok(())
}

fn block(bits: &mut BitsIn<impl Way>, version: u32, into: &mut Block) -> Result<(), Refusal> {
    format(bits, version, &mut into.format)?;
    handling(bits, &mut into.handling)?;
    times(bits, &mut into.times)?;
    if bits.flag()? {
        into.response.present = true;
        response(bits, &mut into.response.response)?;
    }
    if bits.flag()? {
        into.references.present = true;
        references(bits, &mut into.references.references)?;
    }
    bits.zero(7)
}

/// Version 1 has no standard version.
fn format(
    bits: &mut BitsIn<impl Way>,
    version: u32,
    into: &mut Format,
) -> Result<(), Refusal> {
    into.umf = bits.code(4, 0, 8, 3)?;
    if version != 1 {
        bits.optional(4, &mut into.version)?;
    }
    if bits.flag()? {
        into.identity.present = true;
        let identity = &mut into.identity.identity;
        identity.fad = bits.number(4)?;
        identity.number = bits.number(7)?;
        bits.optional(7, &mut identity.subtype)?;
    }
    bits.optional_text(FILE_NAME, &mut into.file)
}

fn handling(bits: &mut BitsIn<impl Way>, into: &mut Handling) -> Result<(), Refusal> {
    bits.optional(20, &mut into.size)?;
    into.codes = Codes {
        operation: bits.number(2)?,
        retransmit: bits.number(1)?,
        precedence: bits.number(3)?,
        classification: bits.number(2)?,
    };
    bits.optional_text(MARKING, &mut into.marking)
}

fn times(bits: &mut BitsIn<impl Way>, into: &mut Times) -> Result<(), Refusal> {
    if bits.flag()? {
        into.origin.present = true;
        bits.stamp(&mut into.origin.stamp)?;
    }
    if bits.flag()? {
        into.perish.present = true;
        bits.dtg(&mut into.perish.dtg)?;
    }
    if bits.flag()? {
        into.requests.present = true;
        into.requests.requests =
            Requests { machine: bits.flag()?, acknowledge: bits.flag()?, reply: bits.flag()? };
    }
    Ok(())
}

fn response(bits: &mut BitsIn<impl Way>, into: &mut Response) -> Result<(), Refusal> {
    bits.stamp(&mut into.stamp)?;
    into.compliance.code = bits.code(3, 1, 6, 3)?;
    bits.optional(3, &mut into.compliance.cantco)?;
    bits.optional(6, &mut into.compliance.cantpro)?;
    bits.optional_text(AMPLIFICATION, &mut into.amplification)
}

fn references(bits: &mut BitsIn<impl Way>, into: &mut References) -> Result<(), Refusal> {
    for (i, entry) in into.list.iter_mut().enumerate() {
        let more = bits.recurs(REFERENCES - 1 - i)?;
        address(bits, &mut entry.address)?;
        bits.stamp(&mut entry.stamp)?;
        if !more {
            into.count = i as u32 + 1;
            break;
        }
    }
    Ok(())
}
