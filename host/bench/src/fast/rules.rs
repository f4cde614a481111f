//! The rules (a) to (i) and the sizes. One pass over the blocks says whether all are kept, as they mostly are. Only
//! where one is not, they are gone through one by one for the first, and for the block that it tells.

use super::refusals::{in_block, only};
use pruvelaccio::{Block, Blocks, Header, OptionalRequests, Refusal};

fn used(blocks: &Blocks) -> &[Block] {
    &blocks.list[..(blocks.count as usize).min(blocks.list.len())]
}

/// Whether a block keeps a rule in its record.
type Rule = fn(&Header, &Block) -> bool;

fn rule_a(h: &Header, b: &Block) -> bool {
    h.front.originator.present || !b.times.requests.present
}

fn rule_b(_: &Header, b: &Block) -> bool {
    !b.response.present || !(b.times.perish.present || b.times.requests.present)
}

fn rule_c(_: &Header, b: &Block) -> bool {
    b.format.umf != 1 || !b.format.identity.present
}

fn rule_d(_: &Header, b: &Block) -> bool {
    b.format.umf != 4 || !b.format.identity.present
}

fn rule_e(h: &Header, b: &Block) -> bool {
    !h.front.compression.present || !b.response.present
}

fn rule_f(h: &Header, b: &Block) -> bool {
    h.blocks.count <= 1 || b.handling.size.present
}

/// What (f) asks of the header itself.
fn header_sized(h: &Header) -> bool {
    h.blocks.count <= 1 || h.sized
}

fn rule_g(_: &Header, b: &Block) -> bool {
    let answer = &b.response.response.compliance;
    !b.response.present || answer.code == 6 || !answer.cantco.present
}

fn rule_h(_: &Header, b: &Block) -> bool {
    let answer = &b.response.response.compliance;
    !b.response.present || answer.code == 2 || !answer.cantpro.present
}

fn rule_i(_: &Header, b: &Block) -> bool {
    b.times.origin.present || !any_asked(&b.times.requests)
}

pub fn any_asked(g7: &OptionalRequests) -> bool {
    g7.present && (g7.requests.machine || g7.requests.acknowledge || g7.requests.reply)
}

fn block_keeps(h: &Header, b: &Block) -> bool {
    rule_a(h, b)
        && rule_b(h, b)
        && rule_c(h, b)
        && rule_d(h, b)
        && rule_e(h, b)
        && rule_f(h, b)
        && rule_g(h, b)
        && rule_h(h, b)
        && rule_i(h, b)
}

/// In their order, with their numbers.
const RULES: [(u32, Rule); 9] = [
    (41, rule_a),
    (42, rule_b),
    (43, rule_c),
    (44, rule_d),
    (45, rule_e),
    (46, rule_f),
    (47, rule_g),
    (48, rule_h),
    (49, rule_i),
];

pub fn rules(h: &Header) -> Result<(), Refusal> {
    if header_sized(h) && used(&h.blocks).iter().all(|b| block_keeps(h, b)) {
        return Ok(());
    }
    first_broken(h)
}

/// Each rule over all blocks before the next; (f) asks the header first.
#[cold]
fn first_broken(h: &Header) -> Result<(), Refusal> {
    for (number, keeps) in RULES {
        if number == 46 && !header_sized(h) {
            return Err(only(number));
        }
        if let Some(i) = used(&h.blocks).iter().position(|b| !keeps(h, b)) {
            return Err(in_block(number, i));
        }
    }
    Ok(())
}

/// The octets of data that a block owns: its size, or all of them where it is alone and tells none.
fn owned(b: &Block, blocks: usize, octets: usize) -> usize {
    match b.handling.size.present {
        true => b.handling.size.value as usize,
        false if blocks == 1 => octets,
        false => 0,
    }
}

/// An answer in format 4 would need data that an answer may not have.
fn body_missing(b: &Block, own: usize) -> bool {
    if b.response.present {
        b.format.umf == 4
    } else {
        own == 0
    }
}

fn body_needless(b: &Block, own: usize) -> bool {
    b.response.present && own > 0
}

/// Whether the blocks own all octets behind the header, and each what it may.
pub fn sizes(blocks: &Blocks, octets: usize) -> Result<(), Refusal> {
    let list = used(blocks);
    let mut left = octets;
    for b in list {
        let own = owned(b, list.len(), octets);
        if own > left || body_missing(b, own) || body_needless(b, own) {
            return first_wrong(list, octets);
        }
        left -= own;
    }
    match left {
        0 => Ok(()),
        _ => first_wrong(list, octets),
    }
}

/// The sum, then each missing body before each needless one.
#[cold]
fn first_wrong(list: &[Block], octets: usize) -> Result<(), Refusal> {
    let own = |b: &Block| owned(b, list.len(), octets);
    if list.iter().map(own).try_fold(0, usize::checked_add) != Some(octets) {
        return Err(only(52));
    }
    if let Some(i) = list.iter().position(|b| body_missing(b, own(b))) {
        return Err(in_block(53, i));
    }
    if let Some(i) = list.iter().position(|b| body_needless(b, own(b))) {
        return Err(in_block(54, i));
    }
    Ok(())
}
