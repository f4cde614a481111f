//! One thing wrong in a valid record, with the refusal that it must get. Every field has its turn.

use reference::{Address, Block, Dtg, Header, Refusal, Stamp};

use crate::between::{Blamed, RULES, SIZES};
use crate::calendar::days_in;
use crate::pairs::{self, BODIES};
use crate::random::Random;
use crate::records::{self, Case, Maker};
use crate::wholes::{Named, COUNTS, LENGTHS};

/// Does the damage and says which block is told, 0 for none; nothing where the record lacks what it needs.
type Apply = Box<dyn Fn(&mut Case, &mut Random) -> Option<u32>>;

pub struct Damage {
    pub name: String,
    /// The number of the refusal by the writer's checks.
    pub number: u32,
    apply: Apply,
}

impl Damage {
    /// Whether it is the rules or the sizes that refuse it: something between fields is wrong.
    pub fn between(&self) -> bool {
        self.number > 40
    }

    /// A record that is valid but for this damage, and how it is refused.
    pub fn case(&self, random: &mut Random) -> (Case, Refusal) {
        for _ in 0..100_000 {
            let make = if self.between() { records::several } else { records::rich };
            let mut case = make(random);
            if let Some(block) = (self.apply)(&mut case, random) {
                return (case, Refusal { number: self.number, place: 0, block });
            }
        }
        panic!("no record could be damaged: {}", self.name);
    }

    /// Whatever the damage does to a record that may have another fault already. Which of the two comes first is for
    /// the second program to say.
    pub fn add(&self, case: &mut Case, random: &mut Random) {
        if !case.record.blocks.is_empty() {
            (self.apply)(case, random);
        }
    }
}

pub fn all() -> Vec<Damage> {
    let mut list = Vec::new();
    list.push(damage("version".into(), 2, |case, random| {
        case.record.version =
            *random.pick(&[0, 3, 15, 17, 18, 1 + (1 << 31), 2 + (1 << 31), u32::MAX]);
        true
    }));
    list.push(damage("standard version in version 1".into(), 3, |case, random| {
        case.record.version = 1;
        block(&mut case.record, random).standard_version = Some(random.below(20));
        true
    }));
    add_numbers(&mut list);
    add_dtgs(&mut list);
    add_texts(&mut list);
    add_addresses(&mut list);
    add_named(&mut list, 5, COUNTS);
    add_blamed(&mut list, RULES);
    add_blamed(&mut list, SIZES);
    add_blamed(&mut list, BODIES);
    pairs::add_rules(&mut list);
    add_named(&mut list, 12, LENGTHS);
    list
}

fn damage(
    name: String,
    number: u32,
    apply: impl Fn(&mut Case, &mut Random) -> bool + 'static,
) -> Damage {
    blamed(name, number, move |case, random| apply(case, random).then_some(0))
}

/// The same for damage that tells a block.
pub fn blamed(
    name: String,
    number: u32,
    apply: impl Fn(&mut Case, &mut Random) -> Option<u32> + 'static,
) -> Damage {
    Damage { name, number, apply: Box::new(apply) }
}

/// A number that is not below the limit; some have legal low bits.
fn over(random: &mut Random, limit: u32) -> u32 {
    match random.below(4) {
        0 => limit,
        1 => u32::MAX - random.below(3),
        2 => (1 << (24 + random.below(8))) + random.below(limit),
        _ => limit + random.below(u32::MAX - limit),
    }
}

// ---------------------------------------------------------------------------
// Where a field is. A record without it gives nothing.

type At<T> = for<'a> fn(&'a mut Header, &mut Random) -> Option<&'a mut T>;

pub fn block<'a>(h: &'a mut Header, random: &mut Random) -> &'a mut Block {
    let i = random.index(h.blocks.len());
    &mut h.blocks[i]
}

fn entry<'a, T>(list: Option<&'a mut Vec<T>>, random: &mut Random) -> Option<&'a mut T> {
    let list = list.filter(|list| !list.is_empty())?;
    let i = random.index(list.len());
    Some(&mut list[i])
}

fn origin<'a>(h: &'a mut Header, random: &mut Random) -> Option<&'a mut Stamp> {
    block(h, random).stamp.as_mut()
}

fn answered<'a>(h: &'a mut Header, random: &mut Random) -> Option<&'a mut Stamp> {
    Some(&mut block(h, random).response.as_mut()?.stamp)
}

fn referred<'a>(h: &'a mut Header, random: &mut Random) -> Option<&'a mut Stamp> {
    let list = block(h, random).references.as_mut();
    Some(&mut entry(list, random)?.stamp)
}

/// Each with the first number that is too large.
const NUMBERS: &[(&str, u32, At<u32>)] = &[
    ("compression", 2, |h, _| h.compression.as_mut()),
    ("UMF", 9, |h, r| Some(&mut block(h, r).umf)),
    ("standard version", 16, |h, r| block(h, r).standard_version.as_mut()),
    ("FAD", 16, |h, r| Some(&mut block(h, r).identity.as_mut()?.fad)),
    ("message number", 128, |h, r| Some(&mut block(h, r).identity.as_mut()?.number)),
    ("subtype", 128, |h, r| block(h, r).identity.as_mut()?.subtype.as_mut()),
    ("message size", 1 << 20, |h, r| block(h, r).message_size.as_mut()),
    ("operation", 4, |h, r| Some(&mut block(h, r).operation)),
    ("retransmit", 2, |h, r| Some(&mut block(h, r).retransmit)),
    ("precedence", 8, |h, r| Some(&mut block(h, r).precedence)),
    ("classification", 4, |h, r| Some(&mut block(h, r).classification)),
    ("R/C", 7, |h, r| Some(&mut block(h, r).response.as_mut()?.code)),
    ("CANTCO", 8, |h, r| block(h, r).response.as_mut()?.cantco.as_mut()),
    ("CANTPRO", 64, |h, r| block(h, r).response.as_mut()?.cantpro.as_mut()),
    ("G5 extension", 4096, |h, r| origin(h, r)?.extension.as_mut()),
    ("G8 extension", 4096, |h, r| answered(h, r)?.extension.as_mut()),
    ("G9 extension", 4096, |h, r| referred(h, r)?.extension.as_mut()),
];

const DTGS: &[(&str, At<Dtg>)] = &[
    ("G5", |h, r| Some(&mut origin(h, r)?.dtg)),
    ("G6", |h, r| block(h, r).perishable.as_mut()),
    ("G8", |h, r| Some(&mut answered(h, r)?.dtg)),
    ("G9", |h, r| Some(&mut referred(h, r)?.dtg)),
];

/// Each with its maximum.
const TEXTS: &[(&str, usize, At<Vec<u8>>)] = &[
    ("file name", 64, |h, r| block(h, r).file_name.as_mut()),
    ("marking", 32, |h, r| block(h, r).marking.as_mut()),
    ("amplification", 50, |h, r| block(h, r).response.as_mut()?.amplification.as_mut()),
];

const ADDRESSES: &[(&str, At<Address>)] = &[
    ("originator", |h, _| h.originator.as_mut()),
    ("recipient", |h, r| entry(h.recipients.as_mut(), r)),
    ("information addressee", |h, r| entry(h.information.as_mut(), r)),
    ("G9 address", |h, r| Some(&mut entry(block(h, r).references.as_mut(), r)?.address)),
];

// ---------------------------------------------------------------------------
// What can be wrong with a field.

type Change<T> = fn(&mut T, &mut Random);

pub const BAD_DTGS: &[(&str, Change<Dtg>)] = &[
    ("year", |d, r| d.year = over(r, 100)),
    ("month 0", |d, _| d.month = 0),
    ("month", |d, r| d.month = over(r, 13)),
    ("day 0", |d, _| d.day = 0),
    ("day", |d, r| d.day = over(r, 32)),
    ("day 32", |d, _| d.day = 32),
    ("hour", |d, r| d.hour = over(r, 24)),
    ("minute", |d, r| d.minute = over(r, 60)),
    ("minute 75", |d, _| d.minute = 75),
    ("second", |d, r| d.second = over(r, 60)),
];

/// A day that other months have, in a month that there is.
pub const LATE_DAYS: &[(&str, Change<Dtg>)] = &[
    ("29 February where there are 28", |d, r| {
        (d.year, d.month, d.day) = (4 * r.below(25) + 1 + r.below(3), 2, 29);
    }),
    ("30 or 31 February", |d, r| (d.month, d.day) = (2, 30 + r.below(2))),
    ("31 of a month of 30", |d, r| (d.month, d.day) = (*r.pick(&[4, 6, 9, 11]), 31)),
    ("the day behind the last of a short month", |d, r| {
        d.month = *r.pick(&[2, 4, 6, 9, 11]);
        d.day = days_in(d.year, d.month) + 1;
    }),
];

/// Puts such a day into the times that one of the blocks has of its own message and of the one that it answers.
pub fn misdate(mut case: Case, random: &mut Random) -> Case {
    let block = block(&mut case.record, random);
    let answered = block.response.as_mut().map(|response| &mut response.stamp);
    for stamp in block.stamp.iter_mut().chain(answered) {
        random.pick(LATE_DAYS).1(&mut stamp.dtg, random);
    }
    case
}

/// Each with its refusal.
pub const BAD_ADDRESSES: &[(&str, u32, Change<Address>)] = &[
    ("wide URN", 3, |a, r| *a = Address { urn: Some(over(r, 1 << 24)), name: None }),
    ("both forms", 6, |a, r| *a = Address { urn: Some(r.below(1 << 24)), name: Some(name(r)) }),
    ("neither form", 6, |a, _| *a = Address { urn: None, name: None }),
    ("empty name", 4, |a, _| *a = Address { urn: None, name: Some(Vec::new()) }),
    ("long name", 4, |a, r| *a = Address { urn: None, name: Some(long(64, r)) }),
    ("bad name", 4, |a, r| *a = Address { urn: None, name: Some(bad(name(r), r)) }),
    ("wide URN in both", 3, |a, r| {
        *a = Address { urn: Some(over(r, 1 << 24)), name: Some(name(r)) }
    }),
    ("bad name in both", 6, |a, r| {
        *a = Address { urn: Some(r.below(9)), name: Some(bad(name(r), r)) }
    }),
];

fn name(random: &mut Random) -> Vec<u8> {
    Maker { random, often: 4 }.text(64)
}

/// One character too many, or more; some do not even fit the array.
fn long(maximum: usize, random: &mut Random) -> Vec<u8> {
    let extra = if random.coin() { 1 } else { 1 + random.index(80) };
    vec![random.below(127) as u8; maximum + extra]
}

fn bad(mut text: Vec<u8>, random: &mut Random) -> Vec<u8> {
    let i = random.index(text.len());
    text[i] = *random.pick(&[127, 128, 130, 255]);
    text
}

fn add_numbers(list: &mut Vec<Damage>) {
    for (name, limit, at) in NUMBERS {
        list.push(damage(format!("{name} too large"), 3, |case, random| {
            at(&mut case.record, random).map(|n| *n = over(random, *limit)).is_some()
        }));
    }
    list.push(damage("R/C 0".into(), 3, |case, random| {
        let response = block(&mut case.record, random).response.as_mut();
        response.map(|response| response.code = 0).is_some()
    }));
}

fn add_dtgs(list: &mut Vec<Damage>) {
    for (place, at) in DTGS {
        for (name, change) in BAD_DTGS.iter().chain(LATE_DAYS) {
            list.push(damage(format!("{place} {name}"), 3, |case, random| {
                at(&mut case.record, random).map(|dtg| change(dtg, random)).is_some()
            }));
        }
    }
}

fn add_texts(list: &mut Vec<Damage>) {
    for (place, maximum, at) in TEXTS {
        list.push(damage(format!("{place} empty"), 4, |case, random| {
            at(&mut case.record, random).map(|text| text.clear()).is_some()
        }));
        list.push(damage(format!("{place} too long"), 4, |case, random| {
            at(&mut case.record, random).map(|text| *text = long(*maximum, random)).is_some()
        }));
        list.push(damage(format!("{place} with a bad character"), 4, |case, random| {
            let text = at(&mut case.record, random).filter(|text| !text.is_empty());
            text.map(|text| *text = bad(text.clone(), random)).is_some()
        }));
    }
}

fn add_addresses(list: &mut Vec<Damage>) {
    for (place, at) in ADDRESSES {
        for (name, number, change) in BAD_ADDRESSES {
            list.push(damage(format!("{place}: {name}"), *number, |case, random| {
                at(&mut case.record, random).map(|address| change(address, random)).is_some()
            }));
        }
    }
}

fn add_named(list: &mut Vec<Damage>, number: u32, named: &'static [Named]) {
    for (name, apply) in named {
        list.push(damage(name.to_string(), number, apply));
    }
}

fn add_blamed(list: &mut Vec<Damage>, all: &'static [Blamed]) {
    for (name, number, apply) in all {
        list.push(blamed(name.to_string(), *number, apply));
    }
}
