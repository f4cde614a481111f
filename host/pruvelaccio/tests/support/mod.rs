//! Records with a value of its own in each used cell, and the octets of a record's header, put together here bit by
//! bit in the order of Table I.

use std::path::{Path, PathBuf};
use std::process::Command;

use pruvelaccio::*;

pub fn repository() -> PathBuf {
    Path::new(env!("CARGO_MANIFEST_DIR")).join("../..")
}

/// A program of host/c, compiled and linked with the proved library.
#[allow(dead_code)]
pub fn compiled_c(name: &str) -> PathBuf {
    let program = Path::new(env!("CARGO_TARGET_TMPDIR")).join(name);
    let compiled = Command::new("cc")
        .args(["-std=c11", "-O2", "-Wall", "-Wextra", "-Werror", "-I"])
        .arg(repository().join("include"))
        .arg(repository().join("host/c").join(name).with_extension("c"))
        .arg(repository().join("target/staticlib/libgateway.a"))
        .arg("-o")
        .arg(&program)
        .status()
        .expect("cc");
    assert!(compiled.success());
    program
}

/// The data that goes with `message`.
#[allow(dead_code)]
pub const MESSAGE_DATA: usize = 7;

pub fn number(value: u32) -> OptionalNumber {
    OptionalNumber { present: true, value }
}

pub fn text(words: &str) -> OptionalText {
    let mut text = Text { chars: [0; 64], len: words.len() as u32 };
    text.chars[..words.len()].copy_from_slice(words.as_bytes());
    OptionalText { present: true, text }
}

pub fn urn(value: u32) -> Address {
    Address { urn: number(value), name: Key::zero().address.name }
}

pub fn name(words: &str) -> Address {
    Address { urn: Key::zero().address.urn, name: text(words) }
}

pub fn dtg([year, month, day, hour, minute, second]: [u32; 6]) -> Dtg {
    Dtg { date: Date { year, month, day }, time: Time { hour, minute, second } }
}

pub fn stamp(parts: [u32; 6], extension: Option<u32>) -> Stamp {
    let extension = extension.map_or(Key::zero().stamp.extension, number);
    Stamp { dtg: dtg(parts), extension }
}

fn put_addresses(group: &mut OptionalAddresses, list: &[Address]) {
    group.present = true;
    group.addresses.list[..list.len()].copy_from_slice(list);
    group.addresses.count = list.len() as u32;
}

fn references() -> OptionalReferences {
    let mut all = Header::zero().blocks.list[0].references;
    all.present = true;
    all.references.count = 4;
    all.references.list = [
        Reference { address: urn(0x21), stamp: stamp([21, 1, 2, 3, 4, 5], Some(0x801)) },
        Reference { address: name("SECOND"), stamp: stamp([22, 2, 3, 4, 5, 6], None) },
        Reference { address: urn(0x23), stamp: stamp([23, 3, 4, 5, 6, 7], None) },
        Reference { address: name("FOURTH"), stamp: stamp([24, 4, 5, 6, 7, 8], Some(0x804)) },
    ];
    all
}

fn full_block() -> Block {
    let mut block = Header::zero().blocks.list[0];
    let identity = Identity { fad: 5, number: 77, subtype: number(33) };
    block.format.umf = 2;
    block.format.version = number(9);
    block.format.identity = OptionalIdentity { present: true, identity };
    block.format.file = text("ORDERS.TXT");
    block.handling.size = number(3);
    block.handling.codes = Codes { operation: 3, retransmit: 1, precedence: 5, classification: 2 };
    block.handling.marking = text("RELEASE TO ALL");
    block.times.origin =
        OptionalStamp { present: true, stamp: stamp([12, 11, 10, 9, 8, 7], Some(0x123)) };
    block.times.perish = OptionalDtg { present: true, dtg: dtg([13, 10, 9, 8, 7, 6]) };
    block.times.requests.present = true;
    block.times.requests.requests = Requests { machine: true, acknowledge: false, reply: true };
    block.references = references();
    block
}

/// Every group but G8; the second block owns the rest of the data.
pub fn message() -> Header {
    let mut header = Header::zero();
    header.front.version = 2;
    header.front.compression = number(1);
    header.front.originator = OptionalAddress { present: true, address: urn(0x0A_0B_0C) };
    put_addresses(&mut header.front.recipients, &[name("KILO"), urn(0x11)]);
    put_addresses(&mut header.front.information, &[name(&"N".repeat(64))]);
    header.sized = true;
    header.blocks.list[0] = full_block();
    header.blocks.list[1].format.umf = 8;
    header.blocks.list[1].handling.size = number(4);
    header.blocks.count = 2;
    header
}

fn answer(
    code: u32,
    cantco: OptionalNumber,
    cantpro: OptionalNumber,
    extension: Option<u32>,
) -> Block {
    let mut block = Header::zero().blocks.list[0];
    block.format.umf = 3;
    block.handling.size = number(0);
    block.response = OptionalResponse {
        present: true,
        response: Response {
            stamp: stamp([12, 11, 10, 9, 8, 7], extension),
            compliance: Compliance { code, cantco, cantpro },
            amplification: text("AS ORDERED"),
        },
    };
    block
}

/// Two receipts, one with a CANTCO reason and one with a CANTPRO reason; there is no data.
pub fn receipts() -> Header {
    let absent = Key::zero().address.urn;
    let mut header = Header::zero();
    header.front.version = 2;
    header.front.originator = OptionalAddress { present: true, address: name("KILO") };
    put_addresses(&mut header.front.recipients, &[urn(0x0A_0B_0C)]);
    header.sized = true;
    header.blocks.list[0] = answer(6, number(5), absent, Some(0x123));
    header.blocks.list[1] = answer(2, absent, number(44), Some(0x124));
    header.blocks.count = 2;
    header
}

/// Bits in the order in which they stand in the datagram.
struct Bits(Vec<bool>);

impl Bits {
    fn number(&mut self, value: u32, width: usize) {
        self.0.extend((0..width).map(|i| value >> i & 1 == 1));
    }

    fn flag(&mut self, flag: bool) -> bool {
        self.0.push(flag);
        flag
    }

    fn optional(&mut self, x: &OptionalNumber, width: usize) {
        if self.flag(x.present) {
            self.number(x.value, width);
        }
    }

    fn text(&mut self, x: &OptionalText, most: usize) {
        if self.flag(x.present) {
            let len = x.text.len as usize;
            x.text.chars[..len].iter().for_each(|c| self.number(u32::from(*c), 7));
            if len < most {
                self.number(127, 7);
            }
        }
    }

    fn address(&mut self, x: &Address) {
        self.optional(&x.urn, 24);
        self.text(&x.name, 64);
    }

    fn addresses(&mut self, x: &OptionalAddresses) {
        if self.flag(x.present) {
            let used = &x.addresses.list[..x.addresses.count as usize];
            for (i, address) in used.iter().enumerate() {
                self.flag(i + 1 < used.len());
                self.address(address);
            }
        }
    }

    fn dtg(&mut self, x: &Dtg) {
        let Dtg { date, time } = x;
        self.number(date.year, 7);
        self.number(date.month, 4);
        self.number(date.day, 5);
        self.number(time.hour, 5);
        self.number(time.minute, 6);
        self.number(time.second, 6);
    }

    fn stamp(&mut self, x: &Stamp) {
        self.dtg(&x.dtg);
        self.optional(&x.extension, 12);
    }

    fn format(&mut self, x: &Format, version: u32) {
        self.number(x.umf, 4);
        if version != 1 {
            self.optional(&x.version, 4);
        }
        if self.flag(x.identity.present) {
            self.number(x.identity.identity.fad, 4);
            self.number(x.identity.identity.number, 7);
            self.optional(&x.identity.identity.subtype, 7);
        }
        self.text(&x.file, 64);
    }

    fn handling(&mut self, x: &Handling) {
        self.optional(&x.size, 20);
        self.number(x.codes.operation, 2);
        self.number(x.codes.retransmit, 1);
        self.number(x.codes.precedence, 3);
        self.number(x.codes.classification, 2);
        self.text(&x.marking, 32);
    }

    fn times(&mut self, x: &Times) {
        if self.flag(x.origin.present) {
            self.stamp(&x.origin.stamp);
        }
        if self.flag(x.perish.present) {
            self.dtg(&x.perish.dtg);
        }
        if self.flag(x.requests.present) {
            self.flag(x.requests.requests.machine);
            self.flag(x.requests.requests.acknowledge);
            self.flag(x.requests.requests.reply);
        }
    }

    fn response(&mut self, x: &OptionalResponse) {
        if self.flag(x.present) {
            let Response { stamp, compliance, amplification } = &x.response;
            self.stamp(stamp);
            self.number(compliance.code, 3);
            self.optional(&compliance.cantco, 3);
            self.optional(&compliance.cantpro, 6);
            self.text(amplification, 50);
        }
    }

    fn references(&mut self, x: &OptionalReferences) {
        if self.flag(x.present) {
            let used = &x.references.list[..x.references.count as usize];
            for (i, reference) in used.iter().enumerate() {
                self.flag(i + 1 < used.len());
                self.address(&reference.address);
                self.stamp(&reference.stamp);
            }
        }
    }

    fn blocks(&mut self, x: &Blocks, version: u32) {
        let used = &x.list[..x.count as usize];
        for (i, block) in used.iter().enumerate() {
            self.flag(i + 1 < used.len());
            self.format(&block.format, version);
            self.handling(&block.handling);
            self.times(&block.times);
            self.response(&block.response);
            self.references(&block.references);
            self.flag(false);
        }
    }

    fn header(&mut self, x: &Header, size: u32) {
        self.number(x.front.version, 4);
        self.optional(&x.front.compression, 2);
        if self.flag(x.front.originator.present) {
            self.address(&x.front.originator.address);
        }
        self.addresses(&x.front.recipients);
        self.addresses(&x.front.information);
        self.optional(&OptionalNumber { present: x.sized, value: size }, 16);
        self.blocks(&x.blocks, x.front.version);
    }
}

/// The octets of a valid record's header. The first pass finds the size that the second fills in.
#[allow(dead_code)]
pub fn header_octets(header: &Header) -> Vec<u8> {
    let mut sizing = Bits(Vec::new());
    sizing.header(header, 0);
    let size = sizing.0.len().div_ceil(8);
    let mut bits = Bits(Vec::new());
    bits.header(header, size as u32);
    let octet =
        |eight: &[bool]| eight.iter().rev().fold(0, |octet, bit| 2 * octet + u8::from(*bit));
    bits.0.chunks(8).map(octet).collect()
}
