//! What must hold between fields: the rules (refusals 41 to 49) and the sizes
//! (refusals 51 to 54), numbered as Ticket 2 of document 02 has them. Reader
//! and writer both come here once every field by itself is in order. What is
//! given back is always the first fault in the order of the lines below.

use crate::refusal::Refusal;
use crate::types::{Block, Header};

/// Rules (a) to (i), one after the other. Each looks at all blocks before the
/// next rule is asked, so an earlier rule in a later block goes first.
pub fn check_rules(h: &Header) -> Result<(), Refusal> {
    // (a) Nobody to answer to, so nothing may be asked.
    forbid(h, 41, |b| h.originator.is_none() && b.requests.is_some())?;
    // (b) An answer neither perishes nor asks for an answer.
    forbid(h, 42, |b| {
        b.response.is_some() && (b.perishable.is_some() || b.requests.is_some())
    })?;
    // (c) A binary file has no message identity.
    forbid(h, 43, |b| b.umf == 1 && b.identity.is_some())?;
    // (d) Neither has a forwarded message.
    forbid(h, 44, |b| b.umf == 4 && b.identity.is_some())?;
    // (e) An answer has no data, so there is nothing to compress.
    forbid(h, 45, |b| h.compression.is_some() && b.response.is_some())?;
    // (f) With several messages their borders must be told, the last one's too.
    // The header's own border is looked at first, and no block is to blame.
    let several = h.blocks.len() > 1;
    if several && !h.sized {
        return Err(Refusal::new(46));
    }
    forbid(h, 46, |b| several && b.message_size.is_none())?;
    // (g) The CANTCO reason belongs to code 6 only.
    forbid(h, 47, |b| match &b.response {
        Some(r) => r.code != 6 && r.cantco.is_some(),
        None => false,
    })?;
    // (h) The CANTPRO reason belongs to code 2 only.
    forbid(h, 48, |b| match &b.response {
        Some(r) => r.code != 2 && r.cantpro.is_some(),
        None => false,
    })?;
    // (i) Who asks must give the stamp by which the answer names the message.
    forbid(h, 49, |b| match &b.requests {
        Some(q) => (q.machine || q.acknowledge || q.reply) && b.stamp.is_none(),
        None => false,
    })
}

/// Goes through the blocks from the first. Where one is at fault it stops and
/// tells the refusal with that block.
fn forbid(h: &Header, number: u32, fault: impl Fn(&Block) -> bool) -> Result<(), Refusal> {
    let mut block = 0;
    for b in &h.blocks {
        block += 1;
        if fault(b) {
            return Err(Refusal::in_block(number, block));
        }
    }
    Ok(())
}

/// The first of the sizes, which only a datagram can have wrong: a record does
/// not hold the number. `octets` are those that the header really takes.
pub fn check_header_size(told: Option<u32>, octets: usize) -> Result<(), Refusal> {
    // 51: a size that is told is the true one.
    match told {
        Some(size) if size as usize != octets => Err(Refusal::new(51)),
        _ => Ok(()),
    }
}

/// The other sizes, with `count` octets of user data. The rules must hold
/// already: of several blocks each then has a size.
pub fn check_sizes(h: &Header, count: u64) -> Result<(), Refusal> {
    // 52: the blocks together take all the data. With a single block without
    // size the sum is `count` itself. Otherwise it adds at most 16 numbers below
    // 2^32, so it cannot overflow.
    let mut sum: u64 = 0;
    for b in &h.blocks {
        sum += owned(b, count);
    }
    if sum != count {
        return Err(Refusal::new(52));
    }
    // 53: who needs a body has one.
    forbid(h, 53, |b| body_missing(b, owned(b, count)))?;
    // 54: who must not have a body has none.
    forbid(h, 54, |b| b.response.is_some() && owned(b, count) > 0)
}

/// The octets of user data that belong to a block.
fn owned(b: &Block, count: u64) -> u64 {
    match b.message_size {
        Some(size) => u64::from(size),
        // Only a single block can come here; it takes everything.
        None => count,
    }
}

/// A message that is no answer needs at least one octet. A forwarded one needs
/// its data even as an answer, which must not have any: whatever its size, the
/// body that it could have is missing.
fn body_missing(b: &Block, size: u64) -> bool {
    if b.response.is_some() {
        b.umf == 4
    } else {
        size == 0
    }
}
