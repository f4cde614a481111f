//! Every octet in every flag of a record: 0 is a flag that is not set, and all others give the answers that 1 gives.
//! Each flag is tried in a valid record where it makes a difference.

use std::mem::{offset_of, size_of};

use pruvelaccio::{RecordOctets, TableOctets};
use reference::{Address, Block, Board, Dtg, Header, Identity, Recipient, Reference, Requests};
use reference::{Refusal, Response, Row, Stamp};

use crate::cells::Places;
use crate::headers::{same_octets, same_size};
use crate::images;
use crate::laid;
use crate::library;
use crate::octets::ROOM;
use crate::records::{bare_block, bare_header};
use crate::run::caught;
use crate::tables::{same_table, Told};
use crate::taken;

const PATTERN: u8 = 0xA5;

// ---------------------------------------------------------------------------
// The records

/// A valid record, the arguments that go with it, and a table that it can be entered into.
struct Base {
    record: RecordOctets,
    count: u64,
    block: u32,
    table: TableOctets,
    plain: Board,
}

fn urn(number: u32) -> Address {
    Address { urn: Some(number), name: None }
}

fn name(text: &[u8]) -> Address {
    Address { urn: None, name: Some(text.to_vec()) }
}

fn stamp(second: u32) -> Stamp {
    let dtg = Dtg { year: 96, month: 7, day: 3, hour: 16, minute: 27, second };
    Stamp { dtg, extension: Some(second) }
}

/// Every part that a message and an answer may both have; version 1 has no standard version.
fn full_block(version: u32) -> Block {
    let referred = |address, second| Reference { address, stamp: stamp(second) };
    let mut block = bare_block();
    block.standard_version = (version != 1).then_some(3);
    block.identity = Some(Identity { fad: 5, number: 77, subtype: Some(33) });
    block.file_name = Some(b"ORDERS".to_vec());
    block.marking = Some(b"ALL".to_vec());
    block.stamp = Some(stamp(1));
    block.references = Some(vec![
        referred(urn(1), 2),
        referred(name(b"A"), 3),
        referred(urn(2), 4),
        referred(name(b"B"), 5),
    ]);
    block
}

fn message(version: u32) -> Block {
    let mut block = full_block(version);
    block.perishable = Some(stamp(6).dtg);
    block.requests = Some(Requests { machine: true, acknowledge: true, reply: true });
    block
}

/// Code 2, which answers all that is open.
fn answer(version: u32) -> Block {
    let mut block = full_block(version);
    let amplification = Some(b"NO".to_vec());
    let (cantco, cantpro) = (None, Some(44));
    block.response = Some(Response { stamp: stamp(7), code: 2, cantco, cantpro, amplification });
    block
}

/// The row that `answer` answers, from URN 9 to URN 8.
fn answered() -> Board {
    let key = reference::Key { address: urn(9), stamp: stamp(7) };
    let asked = Requests { machine: true, acknowledge: true, reply: true };
    let owing = Recipient { address: urn(8), machine: 0, acknowledge: 0, reply: 0 };
    Board { rows: vec![Row { key, asked, recipients: vec![owing] }] }
}

/// From URN 8 to the given lists; the block is the last of so many, the others are bare.
fn base(version: u32, to: [Option<Vec<Address>>; 2], blocks: usize, last: Block) -> Base {
    let mut header: Header = bare_header();
    header.version = version;
    header.originator = Some(urn(8));
    [header.recipients, header.information] = to;
    header.sized = true;
    header.blocks = vec![bare_block(); blocks];
    header.blocks[blocks - 1] = last;
    let mut count = 0;
    for block in &mut header.blocks {
        let size = u32::from(block.response.is_none());
        block.message_size = Some(size);
        count += u64::from(size);
    }
    let plain = answered();
    let table = laid::table_alone(&plain);
    Base { record: laid::alone(&header), count, block: blocks as u32, table, plain }
}

/// Sixteen that differ, half of them by name.
fn crowd() -> Option<Vec<Address>> {
    let one = |i: u8| if i % 2 == 0 { urn(u32::from(i)) } else { name(&[b'A' + i]) };
    Some((0..16).map(one).collect())
}

/// Records of a version among which the flag at an offset makes a difference in one.
fn bases(version: u32, offset: usize) -> Vec<Base> {
    let start = offset_of!(pruvelaccio::Header, blocks.list);
    if offset < start {
        return [[crowd(), None], [None, crowd()]]
            .map(|to| base(version, to, 1, message(version)))
            .into();
    }
    let blocks = (offset - start) / size_of::<pruvelaccio::Block>() + 1;
    let to = || [Some(vec![urn(9)]), None];
    [message(version), answer(version)].map(|last| base(version, to(), blocks, last)).into()
}

// ---------------------------------------------------------------------------
// The calls

/// What the second program makes of a record.
#[derive(PartialEq)]
struct Expected {
    check: Result<usize, Refusal>,
    write: Result<usize, Refusal>,
    out: Vec<u8>,
    post: (Told, Board),
    receipt: (Told, Board),
}

fn expected(base: &Base, record: &RecordOctets) -> Expected {
    let header = taken::header(record);
    let mut out = vec![PATTERN; ROOM];
    let (mut posted, mut settled) = (base.plain.clone(), base.plain.clone());
    Expected {
        check: reference::check(&header, base.count),
        write: reference::write(&header, base.count, &mut out),
        out,
        post: (reference::post(&mut posted, &header, base.block, base.count), posted),
        receipt: (reference::receipt(&mut settled, &header, base.block, base.count), settled),
    }
}

fn image(base: &Base, after: &Board) -> TableOctets {
    images::after(&base.table, &base.plain, after)
}

fn compare(base: &Base, record: &RecordOctets, due: &Expected) -> Result<(), String> {
    let (count, before) = (base.count as usize, *record);
    let mut out = vec![PATTERN; ROOM];
    same_size("check", due.check, library::check(record, count)?)?;
    same_size("write", due.write, library::write(record, count, &mut out)?)?;
    same_octets("write", &due.out, &out)?;
    let (mut posted, mut settled) = (base.table, base.table);
    let got = library::post(&mut posted, record, base.block, count)?;
    same_table(due.post.0, &image(base, &due.post.1), got, &posted)?;
    let got = library::receipt(&mut settled, record, base.block, count)?;
    same_table(due.receipt.0, &image(base, &due.receipt.1), got, &settled)?;
    if *record == before {
        return Ok(());
    }
    Err("the record has changed".to_string())
}

/// All octets in the flag at an offset, in the first record where it makes a difference.
fn compare_flag(version: u32, offset: usize) -> Result<(), String> {
    for mut base in bases(version, offset) {
        let due = [0, 1].map(|octet| {
            base.record.octets_mut()[offset] = octet;
            expected(&base, &base.record)
        });
        if due[0] == due[1] {
            continue;
        }
        for octet in 0..=255 {
            base.record.octets_mut()[offset] = octet;
            let due = &due[usize::from(octet != 0)];
            compare(&base, &base.record, due).map_err(|text| format!("octet {octet}: {text}"))?;
        }
        return Ok(());
    }
    Err("it makes no difference in any record here".to_string())
}

/// How many flags were tried.
pub fn compare_all() -> Result<usize, String> {
    let flags = Places::of::<pruvelaccio::Header>().flags;
    for (version, offset) in flags.iter().flat_map(|offset| [(1, offset), (2, offset)]) {
        let told = |text| format!("version {version}, the flag at offset {offset}: {text}");
        caught(|| compare_flag(version, *offset)).map_err(told)?;
    }
    Ok(flags.len())
}
