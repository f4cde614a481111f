//! Damage that no single field shows: counts of lists, and lengths.

use crate::between::huge;
use crate::damage::block;
use crate::random::Random;
use crate::records::Case;

/// Does the damage, or says that the record lacks what it needs.
pub type Named = (&'static str, fn(&mut Case, &mut Random) -> bool);

// ---------------------------------------------------------------------------
// Counts of lists

/// Brings a list to a length; its own entries come again and again.
fn repeat<T: Clone>(list: &mut Vec<T>, length: usize) -> bool {
    *list = list.iter().cycle().take(length).cloned().collect();
    !list.is_empty()
}

/// One too many, or more.
fn crowd<T: Clone>(list: &mut Vec<T>, maximum: usize, random: &mut Random) -> bool {
    repeat(list, maximum + 1 + random.index(3))
}

pub const COUNTS: &[Named] = &[
    ("no recipient in G2", |case, _| {
        case.record.recipients.as_mut().map(|list| list.clear()).is_some()
    }),
    ("no addressee in G3", |case, _| {
        case.record.information.as_mut().map(|list| list.clear()).is_some()
    }),
    ("17 recipients and more", |case, random| {
        case.record.recipients.as_mut().is_some_and(|list| crowd(list, 16, random))
    }),
    ("17 information addressees and more", |case, random| {
        case.record.information.as_mut().is_some_and(|list| crowd(list, 16, random))
    }),
    ("17 addressees together", |case, random| {
        let own = 1 + random.index(16);
        let (Some(g2), Some(g3)) = (&mut case.record.recipients, &mut case.record.information)
        else {
            return false;
        };
        repeat(g2, own) && repeat(g3, 17 - own)
    }),
    ("no block", |case, _| {
        case.record.blocks.clear();
        true
    }),
    ("17 blocks and more", |case, random| crowd(&mut case.record.blocks, 16, random)),
    ("no reference in G9", |case, random| {
        let list = block(&mut case.record, random).references.as_mut();
        list.map(|list| list.clear()).is_some()
    }),
    ("5 references and more", |case, random| {
        let list = block(&mut case.record, random).references.as_mut();
        list.is_some_and(|list| crowd(list, 4, random))
    }),
];

// ---------------------------------------------------------------------------
// Lengths

/// The octets of a valid record's header.
pub fn header_octets(case: &Case) -> u64 {
    reference::check(&case.record, case.count).map_or(0, |octets| octets as u64)
}

/// Gives one block that is no answer so many octets of data, told or not told as before.
pub fn load(case: &mut Case, count: u64) -> bool {
    case.count = count;
    let [block] = &mut case.record.blocks[..] else { return false };
    if block.message_size.is_some() {
        block.message_size = Some(count as u32);
    }
    block.response.is_none()
}

pub const LENGTHS: &[Named] = &[
    ("header and data one octet too long", |case, _| {
        let octets = header_octets(case);
        octets > 0 && load(case, 65_508 - octets)
    }),
    ("header and data far too long", |case, random| {
        load(case, 65_508 + u64::from(random.below(900_000)))
    }),
    ("a huge count beside no told size", |case, random| {
        let told = case.record.blocks.iter().any(|b| b.message_size.is_some());
        let count = huge(case, random);
        !told && load(case, count)
    }),
];
