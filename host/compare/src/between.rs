//! Damage between fields: the rules (a) to (i) and the sizes, each with its number and the block that it tells.

use reference::{Block, Header, Requests};

use crate::pool::asked;
use crate::random::Random;
use crate::records::{Case, Maker};

/// A name, the number, and what does the damage: it says which block is told, 0 for none, or that the record lacks what
/// the damage needs.
pub type Blamed = (&'static str, u32, fn(&mut Case, &mut Random) -> Option<u32>);

/// A block with its number, counted from 1.
fn numbered<'a>(h: &'a mut Header, random: &mut Random) -> (u32, &'a mut Block) {
    let i = random.index(h.blocks.len());
    (i as u32 + 1, &mut h.blocks[i])
}

/// The number of the first block of which something holds.
fn first(h: &Header, holds: impl Fn(&Block) -> bool) -> Option<u32> {
    h.blocks.iter().position(holds).map(|i| i as u32 + 1)
}

// ---------------------------------------------------------------------------
// Rules (a) to (i)

/// Gives a block this format, and G4, which it must not have there.
pub fn identify(block: &mut Block, umf: u32, random: &mut Random) {
    block.umf = umf;
    block.identity = Some(Maker { random, often: 4 }.identity());
}

pub const RULES: &[Blamed] = &[
    ("(a) G7 without G1", 41, |case, _| {
        case.record.originator.take()?;
        first(&case.record, |b| b.requests.is_some())
    }),
    ("(b) G6 beside G8", 42, |case, random| {
        let (number, block) = numbered(&mut case.record, random);
        block.perishable = Some(Maker { random, often: 4 }.dtg());
        block.response.is_some().then_some(number)
    }),
    ("(b) G7 beside G8", 42, |case, random| {
        let named = case.record.originator.is_some();
        let (number, block) = numbered(&mut case.record, random);
        block.requests = Some(Requests { machine: false, acknowledge: false, reply: false });
        (named && block.response.is_some()).then_some(number)
    }),
    ("(c) G4 with UMF 1", 43, |case, random| {
        let (number, block) = numbered(&mut case.record, random);
        identify(block, 1, random);
        Some(number)
    }),
    ("(d) G4 with UMF 4", 44, |case, random| {
        let (number, block) = numbered(&mut case.record, random);
        identify(block, 4, random);
        Some(number)
    }),
    ("(e) compression beside G8", 45, |case, random| {
        case.record.compression = Some(random.below(2));
        first(&case.record, |b| b.response.is_some())
    }),
    ("(f) several blocks, no header size", 46, |case, _| {
        case.record.sized = false;
        (case.record.blocks.len() > 1).then_some(0)
    }),
    ("(f) several blocks, no header size and one without its own", 46, |case, random| {
        case.record.sized = false;
        numbered(&mut case.record, random).1.message_size = None;
        (case.record.blocks.len() > 1).then_some(0)
    }),
    ("(f) several blocks, no size at all", 46, |case, _| {
        case.record.sized = false;
        case.record.blocks.iter_mut().for_each(|b| b.message_size = None);
        (case.record.blocks.len() > 1).then_some(0)
    }),
    ("(f) several blocks, one without a size", 46, |case, random| {
        let several = case.record.blocks.len() > 1;
        let (number, block) = numbered(&mut case.record, random);
        block.message_size = None;
        several.then_some(number)
    }),
    ("(f) several blocks, the last without a size", 46, |case, _| {
        let several = case.record.blocks.len() > 1;
        case.record.blocks.last_mut()?.message_size.take()?;
        several.then_some(case.record.blocks.len() as u32)
    }),
    ("(f) several blocks, none with a size", 46, |case, _| {
        case.record.blocks.iter_mut().for_each(|b| b.message_size = None);
        (case.record.blocks.len() > 1).then_some(1)
    }),
    ("(g) CANTCO without code 6", 47, |case, random| {
        let (number, block) = numbered(&mut case.record, random);
        let response = block.response.as_mut()?;
        response.cantco = Some(random.below(8));
        (response.code != 6).then_some(number)
    }),
    ("(h) CANTPRO without code 2", 48, |case, random| {
        let (number, block) = numbered(&mut case.record, random);
        let response = block.response.as_mut()?;
        response.cantpro = Some(random.below(64));
        (response.code != 2).then_some(number)
    }),
    ("(i) a request without G5", 49, |case, random| {
        let named = case.record.originator.is_some();
        let (number, block) = numbered(&mut case.record, random);
        block.stamp = None;
        block.requests = Some(asked(random));
        (named && block.response.is_none()).then_some(number)
    }),
];

// ---------------------------------------------------------------------------
// Sizes

/// Whether the record says how many octets its blocks have.
fn told(case: &Case) -> bool {
    case.record.blocks.iter().all(|b| b.message_size.is_some())
}

/// The one block of a record that owns all the data, because it tells no size.
fn owner(case: &mut Case) -> Option<&mut Block> {
    let [block] = &mut case.record.blocks[..] else { return None };
    block.message_size.is_none().then_some(block)
}

/// Counts that overflow in a sum, or look right in 32 bits.
pub fn huge(case: &Case, random: &mut Random) -> u64 {
    match random.below(4) {
        0 => u64::MAX,
        1 => u64::MAX - u64::from(random.below(10_000)),
        2 => case.count.wrapping_add(1 << (32 + random.below(32))),
        _ => u64::MAX / 2 + u64::from(random.below(3)),
    }
}

/// Makes an answer one in format 4, whose data can neither be there nor be missing.
pub fn forward(block: &mut Block) -> Option<()> {
    block.umf = 4;
    block.identity = None;
    block.response.is_some().then_some(())
}

/// Another size for a block that tells one, and the data to go with it.
pub fn resize(case: &mut Case, i: usize, size: u32) -> Option<()> {
    let before = case.record.blocks[i].message_size.replace(size)?;
    case.count = case.count.wrapping_add(u64::from(size)).wrapping_sub(u64::from(before));
    Some(())
}

pub const SIZES: &[Blamed] = &[
    ("one octet of data too many", 52, |case, _| {
        case.count = case.count.wrapping_add(1);
        told(case).then_some(0)
    }),
    ("one octet of data too few", 52, |case, _| {
        case.count = case.count.checked_sub(1)?;
        told(case).then_some(0)
    }),
    ("message size one too large", 52, |case, random| {
        let size = numbered(&mut case.record, random).1.message_size.as_mut()?;
        *size = size.checked_add(1)?;
        Some(0)
    }),
    ("message size one too small", 52, |case, random| {
        let size = numbered(&mut case.record, random).1.message_size.as_mut()?;
        *size = size.checked_sub(1)?;
        Some(0)
    }),
    ("a huge count beside told sizes", 52, |case, random| {
        case.count = huge(case, random);
        told(case).then_some(0)
    }),
    ("no data", 53, |case, _| {
        case.count = 0;
        owner(case)?.response.is_none().then_some(1)
    }),
    ("a message of no octets", 53, |case, random| {
        let i = random.index(case.record.blocks.len());
        resize(case, i, 0)?;
        case.record.blocks[i].response.is_none().then_some(i as u32 + 1)
    }),
    ("an answer in UMF 4, size 0", 53, |case, random| {
        let (number, block) = numbered(&mut case.record, random);
        forward(block)?;
        (block.message_size == Some(0)).then_some(number)
    }),
    ("an answer in UMF 4, size 1", 53, |case, random| {
        let i = random.index(case.record.blocks.len());
        forward(&mut case.record.blocks[i])?;
        resize(case, i, 1)?;
        Some(i as u32 + 1)
    }),
    ("an answer in UMF 4, no size", 53, |case, random| {
        forward(owner(case)?)?;
        case.count = u64::from(random.below(3));
        Some(1)
    }),
    ("an answer of an octet", 54, |case, random| {
        let i = random.index(case.record.blocks.len());
        resize(case, i, 1)?;
        case.record.blocks[i].response.is_some().then_some(i as u32 + 1)
    }),
    ("data behind an answer without a size", 54, |case, random| {
        let few = 1 + u64::from(random.below(40));
        case.count = if random.coin() { few } else { huge(case, random) };
        owner(case)?.response.is_some().then_some(1)
    }),
];
