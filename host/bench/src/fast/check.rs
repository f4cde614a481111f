//! The writer's checks in field order. Each says the bits that its part will take, so that the header's length comes
//! out of the same pass; or the number of the refusal, which tells no block.

use super::calendar::days_in;
use super::limits::*;
use super::refusals::only;
use super::rules;
use pruvelaccio::*;

type Bits = Result<usize, u32>;

/// Whether a record is valid with so many octets of user data: the octets of its header.
#[inline(never)]
pub fn check(h: &Header, count: usize) -> Result<usize, Refusal> {
    let octets = fields(h).map_err(only)?.div_ceil(8);
    rules::rules(h)?;
    rules::sizes(&h.blocks, count)?;
    if count > DATAGRAM || octets > DATAGRAM - count {
        return Err(only(12));
    }
    Ok(octets)
}

fn fields(h: &Header) -> Bits {
    let front = front(&h.front)? + 1 + 16 * usize::from(h.sized);
    Ok(front + blocks(h.front.version, &h.blocks)?)
}

#[inline]
fn within(value: u32, least: u32, most: u32) -> Result<(), u32> {
    if value < least || value > most {
        return Err(3);
    }
    Ok(())
}

#[inline]
fn number(value: u32, width: usize) -> Bits {
    within(value, 0, (1 << width) - 1)?;
    Ok(width)
}

#[inline]
fn optional(x: &OptionalNumber, width: usize) -> Bits {
    if !x.present {
        return Ok(1);
    }
    Ok(1 + number(x.value, width)?)
}

/// A text with its marker, or a full one without.
fn text(t: &Text, most: usize) -> Bits {
    let count = t.len as usize;
    if count == 0 || count > most {
        return Err(4);
    }
    // The highest of all, rather than a stop at the first bad one: that runs over many characters at once.
    let highest = t.chars[..count].iter().fold(0, |high, &c| c.max(high));
    if highest >= MARKER {
        return Err(4);
    }
    Ok(7 * (count + 1).min(most))
}

fn optional_text(x: &OptionalText, most: usize) -> Bits {
    if !x.present {
        return Ok(1);
    }
    Ok(1 + text(&x.text, most)?)
}

pub fn address(a: &Address) -> Bits {
    let urn = optional(&a.urn, 24)?;
    if a.urn.present == a.name.present {
        return Err(6);
    }
    Ok(urn + optional_text(&a.name, UNIT_NAME)?)
}

fn addresses(g: &Addresses, room: usize) -> Bits {
    let count = g.count as usize;
    if count == 0 || count > room {
        return Err(5);
    }
    g.list[..count].iter().try_fold(0, |sum, a| Ok(sum + 1 + address(a)?))
}

fn addressees(g: &OptionalAddresses, room: usize) -> Bits {
    if !g.present {
        return Ok(1);
    }
    Ok(1 + addresses(&g.addresses, room)?)
}

fn front(f: &Front) -> Bits {
    if f.version != 1 && f.version != 2 {
        return Err(2);
    }
    let mut bits = 4 + 2;
    if f.compression.present {
        within(f.compression.value, 0, 1)?;
        bits += 2;
    }
    if f.originator.present {
        bits += address(&f.originator.address)?;
    }
    bits += addressees(&f.recipients, ADDRESSEES)?;
    let taken = if f.recipients.present { f.recipients.addresses.count as usize } else { 0 };
    Ok(bits + addressees(&f.information, ADDRESSEES - taken)?)
}

pub fn dtg_legal(d: &Dtg) -> bool {
    let (date, time) = (&d.date, &d.time);
    // Every field is looked at, without a branch for each.
    (date.year <= 99)
        & (date.month.wrapping_sub(1) < 12)
        & (date.day.wrapping_sub(1) < days_in(date.year, date.month))
        & (time.hour <= 23)
        & (time.minute <= 59)
        & (time.second <= 59)
}

fn dtg(d: &Dtg) -> Bits {
    if dtg_legal(d) {
        Ok(33)
    } else {
        Err(3)
    }
}

pub fn stamp(s: &Stamp) -> Bits {
    Ok(dtg(&s.dtg)? + optional(&s.extension, 12)?)
}

fn blocks(version: u32, g: &Blocks) -> Bits {
    let count = g.count as usize;
    if count == 0 || count > BLOCKS {
        return Err(5);
    }
    g.list[..count].iter().try_fold(0, |sum, b| Ok(sum + 1 + block(version, b)?))
}

/// The one bit more is G10's.
fn block(version: u32, b: &Block) -> Bits {
    let mut bits = format(version, &b.format)? + handling(&b.handling)? + times(&b.times)? + 3;
    if b.response.present {
        bits += response(&b.response.response)?;
    }
    if b.references.present {
        bits += references(&b.references.references)?;
    }
    Ok(bits)
}

/// Version 1 has no standard version, and a record that has one is refused.
fn standard_version(version: u32, x: &OptionalNumber) -> Bits {
    match (version, x.present) {
        (1, true) => Err(3),
        (1, false) => Ok(0),
        _ => optional(x, 4),
    }
}

fn format(version: u32, f: &Format) -> Bits {
    within(f.umf, 0, 8)?;
    let mut bits = 4 + standard_version(version, &f.version)? + 1;
    if f.identity.present {
        let g4 = &f.identity.identity;
        bits += number(g4.fad, 4)? + number(g4.number, 7)? + optional(&g4.subtype, 7)?;
    }
    Ok(bits + optional_text(&f.file, FILE_NAME)?)
}

fn handling(x: &Handling) -> Bits {
    let size = optional(&x.size, 20)?;
    let c = &x.codes;
    let first = number(c.operation, 2)? + number(c.retransmit, 1)?;
    let second = number(c.precedence, 3)? + number(c.classification, 2)?;
    Ok(size + first + second + optional_text(&x.marking, MARKING)?)
}

fn times(x: &Times) -> Bits {
    let mut bits = 3;
    if x.origin.present {
        bits += stamp(&x.origin.stamp)?;
    }
    if x.perish.present {
        bits += dtg(&x.perish.dtg)?;
    }
    if x.requests.present {
        bits += 3;
    }
    Ok(bits)
}

fn response(x: &Response) -> Bits {
    let bits = stamp(&x.stamp)? + 3;
    let answer = &x.compliance;
    within(answer.code, 1, 6)?;
    let reasons = optional(&answer.cantco, 3)? + optional(&answer.cantpro, 6)?;
    Ok(bits + reasons + optional_text(&x.amplification, AMPLIFICATION)?)
}

fn references(g: &References) -> Bits {
    let count = g.count as usize;
    if count == 0 || count > REFERENCES {
        return Err(5);
    }
    g.list[..count]
        .iter()
        .try_fold(0, |sum, x| Ok(sum + 1 + address(&x.address)? + stamp(&x.stamp)?))
}
