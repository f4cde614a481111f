//! From a datagram to a record.

use crate::bits::{bit_at, BitReader};
use crate::legal::*;
use crate::refusal::Refusal;
use crate::rules::{check_header_size, check_rules, check_sizes};
use crate::types::*;

/// Reads the header. Gives the record and the number of header octets, or the
/// refusal.
pub fn read(datagram: &[u8]) -> Result<(Header, usize), Refusal> {
    // A datagram that could never have been sent is not looked into at all.
    if datagram.len() > MAX_DATAGRAM {
        return Err(Refusal::new(12));
    }

    let mut r = BitReader::new(datagram);
    let (header, told_size) = read_fields(&mut r)?;

    // What is left of the octet begun last must be zero.
    while r.place % 8 != 0 {
        if bit_at(datagram, r.place) {
            return Err(Refusal::at(9, r.place));
        }
        r.place += 1;
    }
    // Here, and only here, a bit place becomes a number of octets.
    let octets = r.place / 8;

    check_rules(&header)?;
    check_header_size(told_size, octets)?;
    let count = (datagram.len() - octets) as u64;
    check_sizes(&header, count)?;

    Ok((header, octets))
}

/// What follows the header; nothing if the datagram is refused.
pub fn user_data(datagram: &[u8]) -> &[u8] {
    match read(datagram) {
        Ok((_, octets)) => &datagram[octets..],
        Err(_) => &datagram[datagram.len()..],
    }
}

/// All fields from the left. The header size is handed out beside the record,
/// since the record does not keep its number.
fn read_fields(r: &mut BitReader) -> Result<(Header, Option<u32>), Refusal> {
    let version = r.code(4, legal_version, 2)?;

    let compression = if r.flag()? {
        Some(r.code(2, legal_compression, 3)?)
    } else {
        None
    };

    let originator = optional(r, read_address)?;

    let recipients = if r.flag()? {
        Some(read_addressees(r, 0)?)
    } else {
        None
    };
    let taken = match &recipients {
        Some(list) => list.len(),
        None => 0,
    };
    let information = read_information(r, taken)?;

    let told_size = r.optional_number(16)?;
    let blocks = read_blocks(r, version)?;

    let header = Header {
        version,
        compression,
        originator,
        recipients,
        information,
        sized: told_size.is_some(),
        blocks,
    };
    Ok((header, told_size))
}

/// `[x]` for an x that is more than one number or text.
fn optional<T>(
    r: &mut BitReader,
    part: fn(&mut BitReader) -> Result<T, Refusal>,
) -> Result<Option<T>, Refusal> {
    if r.flag()? {
        Ok(Some(part(r)?))
    } else {
        Ok(None)
    }
}

/// The bit in front of an entry, which asks for another one after it. `before`
/// entries stand already. Asking for one too many is refused on the spot, ahead
/// of the entry that the bit leads.
fn read_recurrence(r: &mut BitReader, before: usize, maximum: usize) -> Result<bool, Refusal> {
    let start = r.place;
    let again = r.flag()?;
    if again && before + 2 > maximum {
        return Err(Refusal::at(5, start));
    }
    Ok(again)
}

fn read_addressees(r: &mut BitReader, taken: usize) -> Result<Vec<Address>, Refusal> {
    let mut list: Vec<Address> = Vec::new();
    loop {
        let again = read_recurrence(r, taken + list.len(), MAX_ADDRESSEES)?;
        list.push(read_address(r)?);
        if !again {
            break;
        }
    }
    Ok(list)
}

/// The second list of addressees, `taken` places being used up by the first.
fn read_information(r: &mut BitReader, taken: usize) -> Result<Option<Vec<Address>>, Refusal> {
    let presence = r.place;
    if !r.flag()? {
        return Ok(None);
    }
    // The group would hold at least one, and there is no room for it.
    if taken >= MAX_ADDRESSEES {
        return Err(Refusal::at(5, presence));
    }
    Ok(Some(read_addressees(r, taken)?))
}

fn read_blocks(r: &mut BitReader, version: u32) -> Result<Vec<Block>, Refusal> {
    let mut blocks: Vec<Block> = Vec::new();
    loop {
        let again = read_recurrence(r, blocks.len(), MAX_BLOCKS)?;
        blocks.push(read_block(r, version)?);
        if !again {
            break;
        }
    }
    Ok(blocks)
}

/// The second indicator decides whether exactly one form is there, so it is
/// also where a wrong address is refused, before any name is read.
fn read_address(r: &mut BitReader) -> Result<Address, Refusal> {
    let urn = r.optional_number(24)?;
    let second = r.place;
    let named = r.flag()?;
    if named == urn.is_some() {
        return Err(Refusal::at(6, second));
    }
    let name = if named {
        Some(r.text(MAX_UNIT_NAME)?)
    } else {
        None
    };
    Ok(Address { urn, name })
}

/// Six fields, each judged as soon as it is read. A wrong year or month is thus
/// refused at its own place, and the day is measured against right ones only.
fn read_dtg(r: &mut BitReader) -> Result<Dtg, Refusal> {
    let year = r.code(7, legal_year, 3)?;
    let month = r.code(4, legal_month, 3)?;
    let day = r.code(5, |day| legal_day(year, month, day), 3)?;
    let hour = r.code(5, legal_hour, 3)?;
    let minute = r.code(6, legal_minute, 3)?;
    let second = r.code(6, legal_second, 3)?;
    Ok(Dtg { year, month, day, hour, minute, second })
}

fn read_stamp(r: &mut BitReader) -> Result<Stamp, Refusal> {
    let dtg = read_dtg(r)?;
    let extension = r.optional_number(12)?;
    Ok(Stamp { dtg, extension })
}

/// A block without the recurrence bit in front of it.
fn read_block(r: &mut BitReader, version: u32) -> Result<Block, Refusal> {
    let umf = r.code(4, legal_umf, 3)?;
    let standard_version = read_standard_version(r, version)?;
    let identity = optional(r, read_identity)?;
    let file_name = r.optional_text(MAX_FILE_NAME)?;
    let message_size = r.optional_number(20)?;
    let operation = r.number(2)?;
    let retransmit = r.number(1)?;
    let precedence = r.number(3)?;
    let classification = r.number(2)?;
    let marking = r.optional_text(MAX_MARKING)?;
    let stamp = optional(r, read_stamp)?;
    let perishable = optional(r, read_dtg)?;
    let requests = optional(r, read_requests)?;
    let response = optional(r, read_response)?;
    let references = optional(r, read_references)?;
    read_no_security(r)?;

    Ok(Block {
        umf,
        standard_version,
        identity,
        file_name,
        message_size,
        operation,
        retransmit,
        precedence,
        classification,
        marking,
        stamp,
        perishable,
        requests,
        response,
        references,
    })
}

/// In version 1 the next bit is already G4's: not even a presence bit may be
/// taken off here.
fn read_standard_version(r: &mut BitReader, version: u32) -> Result<Option<u32>, Refusal> {
    if has_standard_version(version) {
        r.optional_number(4)
    } else {
        Ok(None)
    }
}

fn read_identity(r: &mut BitReader) -> Result<Identity, Refusal> {
    let fad = r.number(4)?;
    let number = r.number(7)?;
    let subtype = r.optional_number(7)?;
    Ok(Identity { fad, number, subtype })
}

fn read_requests(r: &mut BitReader) -> Result<Requests, Refusal> {
    let machine = r.flag()?;
    let acknowledge = r.flag()?;
    let reply = r.flag()?;
    Ok(Requests { machine, acknowledge, reply })
}

/// The security group is not carried, so its presence is a refusal.
fn read_no_security(r: &mut BitReader) -> Result<(), Refusal> {
    let presence = r.place;
    if r.flag()? {
        return Err(Refusal::at(7, presence));
    }
    Ok(())
}

fn read_response(r: &mut BitReader) -> Result<Response, Refusal> {
    let stamp = read_stamp(r)?;
    let code = r.code(3, legal_response_code, 3)?;
    let cantco = r.optional_number(3)?;
    let cantpro = r.optional_number(6)?;
    let amplification = r.optional_text(MAX_AMPLIFICATION)?;
    Ok(Response { stamp, code, cantco, cantpro, amplification })
}

fn read_references(r: &mut BitReader) -> Result<Vec<Reference>, Refusal> {
    let mut list: Vec<Reference> = Vec::new();
    loop {
        let again = read_recurrence(r, list.len(), MAX_REFERENCES)?;
        let address = read_address(r)?;
        let stamp = read_stamp(r)?;
        list.push(Reference { address, stamp });
        if !again {
            break;
        }
    }
    Ok(list)
}
