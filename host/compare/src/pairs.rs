//! Several things wrong between the fields of one record. The rules are tried one after the other, each over all
//! blocks: the earlier of two broken rules is told, though its block be the later one. So too a missing body, though a
//! needless one stands in front of it.

use reference::{Address, Block};

use crate::between::{forward, identify, resize, Blamed};
use crate::damage::{blamed, Damage};
use crate::pool::asked;
use crate::random::Random;
use crate::records::{self, Case, Maker};

// ---------------------------------------------------------------------------
// One rule broken in one block

/// Makes a block an answer that keeps every rule.
fn answer(block: &mut Block, random: &mut Random) {
    let mut response = Maker { random, often: 4 }.response();
    (response.cantco, response.cantpro) = (None, None);
    block.response = Some(response);
    (block.perishable, block.requests) = (None, None);
}

/// Makes a block an answer with any code but one, and gives back the code's reasons.
fn answer_without<'a>(
    block: &'a mut Block,
    code: u32,
    random: &mut Random,
) -> (&'a mut Option<u32>, &'a mut Option<u32>) {
    answer(block, random);
    let response = block.response.as_mut().expect("an answer");
    response.code = if response.code == code { 1 } else { response.code };
    (&mut response.cantco, &mut response.cantpro)
}

/// Whatever the block was, it then breaks this rule and no earlier one, in a record with an originator and without
/// compression.
type Break = fn(&mut Block, &mut Random);

/// The rules that look at one block, in their order.
const BREAKS: &[(&str, u32, Break)] = &[
    ("(b)", 42, |block, random| {
        answer(block, random);
        block.perishable = Some(Maker { random, often: 4 }.dtg());
    }),
    ("(c)", 43, |block, random| identify(block, 1, random)),
    ("(d)", 44, |block, random| identify(block, 4, random)),
    ("(f)", 46, |block, _| block.message_size = None),
    ("(g)", 47, |block, random| {
        let reason = random.below(8);
        *answer_without(block, 6, random).0 = Some(reason);
    }),
    ("(h)", 48, |block, random| {
        let reason = random.below(64);
        *answer_without(block, 2, random).1 = Some(reason);
    }),
    ("(i)", 49, |block, random| {
        (block.response, block.stamp) = (None, None);
        block.requests = Some(asked(random));
    }),
];

/// Two blocks, the first in front of the second.
fn two(case: &Case, random: &mut Random) -> Option<(usize, usize)> {
    let last = case.record.blocks.len().checked_sub(1).filter(|last| *last > 0)?;
    let front = random.index(last);
    Some((front, front + 1 + random.index(last - front)))
}

/// The later rule is broken in front of the earlier one, which is told.
fn break_two(earlier: Break, later: Break, case: &mut Case, random: &mut Random) -> Option<u32> {
    let (front, behind) = two(case, random)?;
    case.record.compression = None;
    case.record.originator = Some(Address { urn: Some(random.below(1 << 24)), name: None });
    later(&mut case.record.blocks[front], random);
    earlier(&mut case.record.blocks[behind], random);
    Some(behind as u32 + 1)
}

/// Every two rules of those above.
pub fn add_rules(list: &mut Vec<Damage>) {
    for (i, (rule, number, earlier)) in BREAKS.iter().enumerate() {
        for (other, _, later) in &BREAKS[i + 1..] {
            let name = format!("{rule} behind {other}");
            let apply =
                |case: &mut Case, random: &mut Random| break_two(*earlier, *later, case, random);
            list.push(blamed(name, *number, apply));
        }
    }
}

// ---------------------------------------------------------------------------
// Bodies that are missing and needless

/// An answer of an octet in front of another block: both their places.
fn needless_in_front(case: &mut Case, random: &mut Random) -> Option<(usize, usize)> {
    let (front, behind) = two(case, random)?;
    case.record.compression = None;
    answer(&mut case.record.blocks[front], random);
    resize(case, front, 1)?;
    Some((front, behind))
}

pub const BODIES: &[Blamed] = &[
    ("a message of no octets behind an answer of one", 53, |case, random| {
        let (front, behind) = needless_in_front(case, random)?;
        resize(case, behind, 0)?;
        let message = case.record.blocks[behind].response.is_none();
        (message && case.record.blocks[front].umf != 4).then_some(behind as u32 + 1)
    }),
    ("an answer in UMF 4 behind an answer of an octet", 53, |case, random| {
        let (front, behind) = needless_in_front(case, random)?;
        answer(&mut case.record.blocks[behind], random);
        forward(&mut case.record.blocks[behind])?;
        resize(case, behind, random.below(2))?;
        (case.record.blocks[front].umf != 4).then_some(behind as u32 + 1)
    }),
    ("an answer of an octet behind messages", 54, |case, random| {
        let (_, behind) = two(case, random)?;
        case.record.compression = None;
        answer(&mut case.record.blocks[behind], random);
        resize(case, behind, 1)?;
        (case.record.blocks[behind].umf != 4).then_some(behind as u32 + 1)
    }),
    ("two answers of an octet", 54, |case, random| {
        let (front, behind) = needless_in_front(case, random)?;
        answer(&mut case.record.blocks[behind], random);
        resize(case, behind, 1)?;
        let fours = [front, behind].iter().any(|i| case.record.blocks[*i].umf == 4);
        (!fours).then_some(front as u32 + 1)
    }),
];

// ---------------------------------------------------------------------------
// Any of them

/// A record with two to four things wrong between its fields, in any blocks. What is told of them is for the second
/// program to say.
pub fn broken(damages: &[Damage], random: &mut Random) -> Case {
    let mut case = records::several(random);
    let between: Vec<&Damage> = damages.iter().filter(|damage| damage.between()).collect();
    for _ in 0..2 + random.below(3) {
        let i = random.index(case.record.blocks.len());
        match random.coin() {
            true => random.pick(BREAKS).2(&mut case.record.blocks[i], random),
            false => random.pick(&between).add(&mut case, random),
        }
    }
    case
}
