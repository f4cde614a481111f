//! The headers and tables that are measured.

use crate::fast;
use pruvelaccio::*;

/// Document 01's B and C: a message from URN 207 to URN 3 that asks for a machine acknowledgement, and the receipt.
const B: [u8; 16] = [0xe2, 0x67, 0, 0, 0x1d, 0, 0, 0, 0x01, 0, 0xc1, 0x37, 0xe0, 0x76, 0x33, 0];
const C: [u8; 16] = [0xe2, 0x01, 0, 0, 0x7d, 0x06, 0, 0, 0x01, 0, 0x08, 0xbe, 0x01, 0xb7, 0x5b, 0];

/// Octets of user data behind a message that has some.
pub const DATA: usize = 64;

/// A record with the count of its user data, and the datagram that it makes.
pub struct Sample {
    pub name: String,
    pub header: Box<Header>,
    pub count: usize,
    pub octets: usize,
    pub datagram: Vec<u8>,
}

impl Sample {
    fn new(name: &str, header: &Header, count: usize) -> Sample {
        let mut datagram = vec![0; 8192];
        let octets = fast::write(header, count, &mut datagram).expect("a valid record");
        datagram.truncate(octets);
        datagram.resize(octets + count, 0x5a);
        Sample { name: name.to_string(), header: Box::new(*header), count, octets, datagram }
    }
}

pub fn number(value: u32) -> OptionalNumber {
    OptionalNumber { present: true, value }
}

pub fn text(characters: &str) -> OptionalText {
    let mut chars = [0; 64];
    chars[..characters.len()].copy_from_slice(characters.as_bytes());
    OptionalText { present: true, text: Text { chars, len: characters.len() as u32 } }
}

pub fn urn(value: u32) -> Address {
    Address { urn: number(value), ..fast::NO_HEADER.front.originator.address }
}

pub fn named(name: &str) -> Address {
    Address { name: text(name), ..fast::NO_HEADER.front.originator.address }
}

pub fn addressees(list: &[Address]) -> OptionalAddresses {
    let mut group = fast::NO_HEADER.front.recipients;
    group.present = true;
    group.addresses.count = list.len() as u32;
    group.addresses.list[..list.len()].copy_from_slice(list);
    group
}

pub fn dtg(minute: u32, second: u32) -> Dtg {
    Dtg { date: Date { year: 96, month: 7, day: 3 }, time: Time { hour: 16, minute, second } }
}

fn stamp(minute: u32) -> Stamp {
    Stamp { dtg: dtg(minute, 0), extension: number(4095) }
}

fn record(octets: &[u8], data: usize) -> Header {
    let mut datagram = octets.to_vec();
    datagram.resize(octets.len() + data, 0x5a);
    let mut header = fast::NO_HEADER;
    fast::read(&datagram, &mut header).expect("document 01's own octets");
    header
}

/// B's datagram with another date, whether there is that one or not. Its 16 bits stand behind bit 80.
pub fn dated(date: &Date) -> Vec<u8> {
    let bits = (date.year & 127) << 1 | (date.month & 15) << 8 | (date.day & 31) << 12;
    let mut datagram = B.to_vec();
    datagram[10] = 1 | bits as u8;
    datagram[11] = (bits >> 8) as u8;
    datagram[12] = datagram[12] & 0xfe | (bits >> 16) as u8;
    datagram.resize(B.len() + DATA, 0x5a);
    datagram
}

pub fn small() -> Sample {
    Sample::new("small", &record(&C, 0), 0)
}

/// B with two recipients by name.
pub fn typical() -> Sample {
    let mut header = record(&B, DATA);
    let names = ["2 COY 7 REGT", "SIGNAL TROOP 41"];
    header.front.recipients = addressees(&names.map(named));
    Sample::new("typical", &header, DATA)
}

/// The same in version 1.
pub fn typical_old() -> Sample {
    let mut header = typical().header;
    header.front.version = 1;
    Sample::new("typical, version 1", &header, DATA)
}

/// Names as long as they may be: 64 characters, or 63 and the marker, which are as many bits.
fn longest_name(number: usize) -> Address {
    named(&format!("{number:02} {}", "N".repeat(61 - number % 2)))
}

/// As many bits as a block can have. G8 shuts out G6 and G7, which are shorter, and leaves the size 0.
fn full_block() -> Block {
    let mut b = fast::NO_HEADER.blocks.list[0];
    b.format.umf = 2;
    b.format.version = number(15);
    b.format.identity.present = true;
    b.format.identity.identity = Identity { fad: 15, number: 127, subtype: number(127) };
    b.format.file = text(&"F".repeat(64));
    b.handling.size = number(0);
    b.handling.codes = Codes { operation: 3, retransmit: 1, precedence: 7, classification: 3 };
    b.handling.marking = text(&"M".repeat(32));
    b.times.origin = OptionalStamp { present: true, stamp: stamp(1) };
    b.response.present = true;
    b.response.response.stamp = stamp(2);
    b.response.response.compliance.code = 2;
    b.response.response.compliance.cantpro = number(63);
    b.response.response.amplification = text(&"A".repeat(50));
    b.references.present = true;
    b.references.references.count = 4;
    for (i, reference) in b.references.references.list.iter_mut().enumerate() {
        *reference = Reference { address: longest_name(i), stamp: stamp(3) };
    }
    b
}

/// A block as most messages have it: UMF 2, its size, G5 and the machine request.
fn plain_block() -> Block {
    let mut b = record(&B, DATA).blocks.list[0];
    b.handling.size = number(DATA as u32);
    b
}

fn with_blocks(front: &Front, count: usize, block: Block) -> Header {
    let mut header = fast::NO_HEADER;
    header.front = *front;
    header.sized = true;
    header.blocks.count = count as u32;
    header.blocks.list[..count].fill(block);
    header
}

/// 16 blocks with all that fits, and 17 addresses by name.
pub fn largest() -> Sample {
    let mut front = fast::NO_HEADER.front;
    front.version = 2;
    front.originator = OptionalAddress { present: true, address: longest_name(99) };
    let names: Vec<Address> = (0..16).map(longest_name).collect();
    front.recipients = addressees(&names[..8]);
    front.information = addressees(&names[8..]);
    Sample::new("largest", &with_blocks(&front, 16, full_block()), 0)
}

/// B's addresses and so many plain blocks.
pub fn plain_blocks(count: usize) -> Sample {
    let front = record(&B, DATA).front;
    let name = format!("{count} plain");
    Sample::new(&name, &with_blocks(&front, count, plain_block()), count * DATA)
}

/// B's addresses and so many full blocks.
pub fn full_blocks(count: usize) -> Sample {
    let front = record(&B, DATA).front;
    Sample::new(&format!("{count} full"), &with_blocks(&front, count, full_block()), 0)
}

/// The largest message that can be posted: 16 recipients by name, 16 blocks, the last of which asks.
pub fn largest_posting() -> Sample {
    let mut block = full_block();
    block.response = fast::NO_HEADER.blocks.list[0].response;
    block.handling.size = number(DATA as u32);
    block.times.perish = OptionalDtg { present: true, dtg: dtg(59, 59) };
    let mut header = with_blocks(&largest().header.front, 16, block);
    let names: Vec<Address> = (0..16).rev().map(longest_name).collect();
    header.front.originator.address = urn(207);
    header.front.recipients = addressees(&names);
    header.front.information = fast::NO_HEADER.front.information;
    let last = &mut header.blocks.list[15].times;
    last.origin.stamp.dtg = dtg(27, 55);
    last.requests.present = true;
    last.requests.requests.machine = true;
    Sample::new("largest posting", &header, 16 * DATA)
}

/// A recipient's name of the usual length.
fn unit(number: usize) -> Address {
    named(&format!("{number:02} COY 7 REGT"))
}

/// The message of row `minute` of the nearly full table: from URN 207 to 16 names, machine and reply asked.
fn message(minute: usize) -> Sample {
    let mut header = record(&B, DATA);
    let names: Vec<Address> = (0..16).map(unit).collect();
    header.front.recipients = addressees(&names);
    header.blocks.list[0].times.origin.stamp.dtg = dtg(minute as u32, 0);
    header.blocks.list[0].times.requests.requests.reply = true;
    Sample::new("message", &header, DATA)
}

fn table_of(messages: impl Iterator<Item = Sample>) -> Box<Table> {
    let mut table = Box::new(Table::empty());
    for m in messages {
        fast::post(&mut table, &m.header, 1, m.count).expect("a free line and a new key");
    }
    table
}

/// B alone, which C answers.
pub fn almost_empty() -> Box<Table> {
    table_of(std::iter::once(Sample::new("B", &record(&B, DATA), DATA)))
}

/// 31 rows with 16 recipients each by name; B's key would stand in their middle.
pub fn nearly_full() -> Box<Table> {
    table_of((12..43).map(message))
}

/// 32 such rows.
pub fn full() -> Box<Table> {
    table_of((12..44).map(message))
}

/// C by name: the receipt of a recipient of the row in the middle of the nearly full table.
pub fn named_receipt() -> Sample {
    let mut header = record(&C, 0);
    header.front.originator.address = unit(8);
    header.blocks.list[0].response.response.stamp.dtg = dtg(27, 0);
    Sample::new("receipt by name", &header, 0)
}

/// The key of B.
pub fn first_key() -> Key {
    Key { address: urn(207), stamp: record(&B, DATA).blocks.list[0].times.origin.stamp }
}

/// The key of the row in the middle of the nearly full table.
pub fn middle_key() -> Key {
    let mut key = first_key();
    key.stamp.dtg = dtg(27, 0);
    key
}
