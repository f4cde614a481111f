//! Tests, and small helpers that they share.

mod board;
mod by_hand;
mod calendar;
mod listing;
mod program;
mod random;
mod reading;
mod version_1;
mod which_rule;
mod writing;

use crate::*;

/// The paper's worked header A; one octet of data must follow.
pub const A: [u8; 5] = [0x02, 0x08, 0x00, 0x00, 0x00];
/// Header B; data must follow.
pub const B: [u8; 16] = [
    0xE2, 0x67, 0x00, 0x00, 0x1D, 0x00, 0x00, 0x00, 0x01, 0x00, 0xC1, 0x37, 0xE0, 0x76, 0x33, 0x00,
];
/// Header C, a receipt, hence a whole datagram.
pub const C: [u8; 16] = [
    0xE2, 0x01, 0x00, 0x00, 0x7D, 0x06, 0x00, 0x00, 0x01, 0x00, 0x08, 0xBE, 0x01, 0xB7, 0x5B, 0x00,
];

/// A in version 1; one octet of data must follow. Bit 0 is the version's one.
/// Bits 4 to 9: no compression, G1, G2, G3, header size, no further block.
/// Bits 10 to 13 are UMF 2, so bit 11 is set. From there on all is zero: G4 14,
/// file name 15, message size 16, operation 17, retransmit 19, precedence 20,
/// classification 23, marking 25, G5 to G10 26 to 31. That is 32 bits, one less
/// than A has, and so four octets without any fill.
pub const A1: [u8; 4] = [0x01, 0x08, 0x00, 0x00];

/// B in version 1; data must follow. Up to bit 66, where UMF ends, it is B but
/// for the version; from there on each field stands one bit to the left:
/// G4 67, file name 68, message size 69, operation 70, retransmit 72,
/// precedence 73, classification 76, marking 78, all zero; G5 79 set (80);
/// year 80 to 86, 96 sets 85 and 86 (60); month 87 to 90, 7 sets 87 (80), 88
/// and 89 (03); day 91 to 95, 3 sets 91 and 92 (18); hour 96 to 100, 16 sets
/// 100 (10); minute 101 to 106, 27 sets 101, 102 (60), 104 and 105 (03); second
/// 107 to 112, 55 sets 107, 108, 109, 111 (B8) and 112 (01); extension 113, G6
/// 114; G7 115 and machine 116 set (18); the other requests 117 and 118, G8 to
/// G10 119 to 121; fill 122 to 127.
pub const B1: [u8; 16] = [
    0xE1, 0x67, 0x00, 0x00, 0x1D, 0x00, 0x00, 0x00, 0x01, 0x80, 0xE0, 0x1B, 0x70, 0xBB, 0x19, 0x00,
];

/// C in version 1, a whole datagram. As above up to the marking, bit 78; then
/// G5 79, G6 80, G7 81; G8 82 set (04); year 83 to 89, 96 sets 88 and 89 (03);
/// month 90 to 93, 7 sets 90, 91, 92 (1C); day 94 to 98, 3 sets 94 and 95 (C0);
/// hour 99 to 103, 16 sets 103 (80); minute 104 to 109, 27 sets 104, 105, 107,
/// 108 (1B); second 110 to 115, 55 sets 110, 111 (C0), 112, 114, 115 (0D);
/// extension 116; R/C 117 to 119, 1 sets 117 (20); CANTCO 120, CANTPRO 121,
/// amplification 122, G9 123, G10 124; fill 125 to 127.
pub const C1: [u8; 16] = [
    0xE1, 0x01, 0x00, 0x00, 0x7D, 0x06, 0x00, 0x00, 0x01, 0x00, 0x04, 0xDF, 0x80, 0xDB, 0x2D, 0x00,
];

/// Refusals as the tests expect them, put together without the library's help:
/// one with a number only, one at a bit, one for a block.
pub fn only(number: u32) -> Refusal {
    Refusal { number, place: 0, block: 0 }
}

pub fn at(number: u32, place: usize) -> Refusal {
    Refusal { number, place, block: 0 }
}

pub fn in_block(number: u32, block: u32) -> Refusal {
    Refusal { number, place: 0, block }
}

pub fn with_data(header: &[u8], data: &[u8]) -> Vec<u8> {
    let mut all = header.to_vec();
    all.extend_from_slice(data);
    all
}

/// Puts bits together without any help from the library, so that faulty
/// datagrams can be made and the library's packing isn't tested by itself.
pub struct Hand {
    pub bits: Vec<bool>,
}

impl Hand {
    pub fn new() -> Hand {
        Hand { bits: Vec::new() }
    }

    pub fn place(&self) -> usize {
        self.bits.len()
    }

    /// A number, lowest bit first. Wide runs of zero bits are made with it too.
    pub fn n(&mut self, value: u32, width: usize) -> &mut Hand {
        for i in 0..width {
            self.bits.push(i < 32 && (value >> i) & 1 == 1);
        }
        self
    }

    pub fn chars(&mut self, text: &[u8]) -> &mut Hand {
        for c in text {
            self.n(u32::from(*c), 7);
        }
        self
    }

    /// An address with a number.
    pub fn urn(&mut self, urn: u32) -> &mut Hand {
        self.n(1, 1).n(urn, 24).n(0, 1)
    }

    /// Version 2 without compression and addresses, up to G3's presence bit.
    pub fn start(&mut self) -> &mut Hand {
        self.n(2, 4).n(0, 1).n(0, 1).n(0, 1).n(0, 1)
    }

    /// The same in version 1.
    pub fn start_1(&mut self) -> &mut Hand {
        self.n(1, 4).n(0, 1).n(0, 1).n(0, 1).n(0, 1)
    }

    pub fn dtg(&mut self) -> &mut Hand {
        self.n(96, 7).n(7, 4).n(3, 5).n(16, 5).n(27, 6).n(55, 6)
    }

    /// The smallest block of version 2, with nothing after it: recurrence bit 0,
    /// UMF 2, then 19 zero bits.
    pub fn last_block(&mut self) -> &mut Hand {
        self.n(0, 1).n(2, 4).n(0, 19)
    }

    /// The same in version 1, which lacks one of the zero bits: the presence
    /// bit of the standard version.
    pub fn last_block_1(&mut self) -> &mut Hand {
        self.n(0, 1).n(2, 4).n(0, 18)
    }

    pub fn octets(&self) -> Vec<u8> {
        let mut octets = vec![0u8; (self.bits.len() + 7) / 8];
        for (k, bit) in self.bits.iter().enumerate() {
            if *bit {
                octets[k / 8] |= 1 << (k % 8);
            }
        }
        octets
    }

    /// With one octet of data behind.
    pub fn datagram(&self) -> Vec<u8> {
        with_data(&self.octets(), &[0xAA])
    }
}

pub fn urn(number: u32) -> Address {
    Address { urn: Some(number), name: None }
}

pub fn name(text: &[u8]) -> Address {
    Address { urn: None, name: Some(text.to_vec()) }
}

pub fn both() -> Address {
    Address { urn: Some(1), name: Some(b"X".to_vec()) }
}

pub fn neither() -> Address {
    Address { urn: None, name: None }
}

pub fn dtg() -> Dtg {
    Dtg { year: 96, month: 7, day: 3, hour: 16, minute: 27, second: 55 }
}

pub fn stamp() -> Stamp {
    Stamp { dtg: dtg(), extension: None }
}

pub fn extended(extension: u32) -> Stamp {
    Stamp { dtg: dtg(), extension: Some(extension) }
}

pub fn requests(machine: bool, acknowledge: bool, reply: bool) -> Requests {
    Requests { machine, acknowledge, reply }
}

pub fn plain_block() -> Block {
    Block {
        umf: 2,
        standard_version: None,
        identity: None,
        file_name: None,
        message_size: None,
        operation: 0,
        retransmit: 0,
        precedence: 0,
        classification: 0,
        marking: None,
        stamp: None,
        perishable: None,
        requests: None,
        response: None,
        references: None,
    }
}

pub fn plain_header() -> Header {
    Header {
        version: 2,
        compression: None,
        originator: None,
        recipients: None,
        information: None,
        sized: false,
        blocks: vec![plain_block()],
    }
}

/// The same record in version 1; only for records without standard versions.
pub fn old(h: &Header) -> Header {
    let mut h = h.clone();
    h.version = 1;
    h
}

/// An original message that asks; goes with a count of 1.
pub fn message(from: Address, to: Vec<Address>, stamp: Stamp, asks: Requests) -> Header {
    let mut h = plain_header();
    h.originator = Some(from);
    h.recipients = Some(to);
    h.blocks[0].stamp = Some(stamp);
    h.blocks[0].requests = Some(asks);
    h
}

pub fn response(stamp: Stamp, code: u32) -> Response {
    Response { stamp, code, cantco: None, cantpro: None, amplification: None }
}

/// A receipt; goes with a count of 0.
pub fn answer(from: Address, to: Address, stamp: Stamp, code: u32) -> Header {
    let mut h = plain_header();
    h.originator = Some(from);
    h.recipients = Some(vec![to]);
    h.blocks[0].response = Some(response(stamp, code));
    h
}

pub fn reference(from: u32) -> Reference {
    Reference { address: urn(from), stamp: stamp() }
}
