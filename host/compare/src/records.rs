//! Random records of the second program, valid with the count of user data beside them.

use reference::{
    Address, Block, Dtg, Header, Identity, Reference, Requests, Response, Stamp, MAX_ADDRESSEES,
    MAX_AMPLIFICATION, MAX_BLOCKS, MAX_FILE_NAME, MAX_MARKING, MAX_REFERENCES, MAX_UNIT_NAME,
};

use crate::calendar::days_in;
use crate::random::Random;

/// A record and the octets of user data that go with it.
#[derive(Clone, Debug)]
pub struct Case {
    pub record: Header,
    pub count: u64,
}

pub fn bare_block() -> Block {
    Block {
        umf: 2,
        standard_version: None,
        identity: None,
        file_name: None,
        message_size: None,
        operation: 0,
        retransmit: 0,
        precedence: 0,
        classification: 0,
        marking: None,
        stamp: None,
        perishable: None,
        requests: None,
        response: None,
        references: None,
    }
}

/// Both versions, in equal shares.
pub fn version(random: &mut Random) -> u32 {
    1 + random.below(2)
}

pub fn bare_header() -> Header {
    Header {
        version: 2,
        compression: None,
        originator: None,
        recipients: None,
        information: None,
        sized: false,
        blocks: vec![bare_block()],
    }
}

/// Mostly small records, since the second program goes bit by bit; every size comes up.
pub fn case(random: &mut Random) -> Case {
    let often = *random.pick(&[1, 2, 4, 6, 8]);
    let blocks = match random.below(64) {
        0 => MAX_BLOCKS,
        1..=2 => 1 + random.index(MAX_BLOCKS),
        3..=18 => 2 + random.index(3),
        _ => 1,
    };
    Maker { random, often }.case(blocks)
}

/// A record with most of its optional parts, for damage that needs one of them.
pub fn rich(random: &mut Random) -> Case {
    let blocks = if random.one_in(3) { 2 + random.index(2) } else { 1 };
    Maker { random, often: 6 }.case(blocks)
}

/// A record mostly of several blocks, for what is wrong between fields: the block that is told should not always be the
/// first.
pub fn several(random: &mut Random) -> Case {
    let blocks = match random.below(16) {
        0 => 2 + random.index(MAX_BLOCKS - 1),
        1..=11 => 2 + random.index(3),
        _ => 1,
    };
    Maker { random, often: 4 }.case(blocks)
}

/// Makes parts of records; of 8 optional ones `often` are present.
pub struct Maker<'a> {
    pub random: &'a mut Random,
    pub often: u32,
}

impl Maker<'_> {
    fn present(&mut self) -> bool {
        self.random.below(8) < self.often
    }

    fn maybe<T>(&mut self, make: impl FnOnce(&mut Self) -> T) -> Option<T> {
        if self.present() {
            Some(make(self))
        } else {
            None
        }
    }

    /// A number below a limit, often one of its ends.
    fn number(&mut self, limit: u32) -> u32 {
        match self.random.below(4) {
            0 => 0,
            1 => limit - 1,
            _ => self.random.below(limit),
        }
    }

    pub fn text(&mut self, maximum: usize) -> Vec<u8> {
        let length = match self.random.below(8) {
            0 => maximum,
            1 => maximum - 1,
            2 => 1,
            _ => 1 + self.random.index(12),
        };
        (0..length).map(|_| self.number(127) as u8).collect()
    }

    pub fn address(&mut self) -> Address {
        if self.random.coin() {
            Address { urn: Some(self.number(1 << 24)), name: None }
        } else {
            Address { urn: None, name: Some(self.text(MAX_UNIT_NAME)) }
        }
    }

    /// Any year, and every other time one that divides by four or stands beside such a one.
    fn year(&mut self) -> u32 {
        match self.random.coin() {
            true => *self.random.pick(&[0, 1, 4, 96, 99]),
            false => self.random.below(100),
        }
    }

    /// Often February.
    fn month(&mut self) -> u32 {
        match self.random.below(3) {
            0 => 2,
            _ => 1 + self.number(12),
        }
    }

    /// A day that the month has, every other time its last.
    fn day(&mut self, year: u32, month: u32) -> u32 {
        let last = days_in(year, month);
        match self.random.coin() {
            true => last,
            false => 1 + self.number(last),
        }
    }

    pub fn dtg(&mut self) -> Dtg {
        let (year, month) = (self.year(), self.month());
        Dtg {
            year,
            month,
            day: self.day(year, month),
            hour: self.number(24),
            minute: self.number(60),
            second: self.number(60),
        }
    }

    pub fn stamp(&mut self) -> Stamp {
        Stamp { dtg: self.dtg(), extension: self.maybe(|m| m.number(4096)) }
    }

    pub fn identity(&mut self) -> Identity {
        Identity {
            fad: self.number(16),
            number: self.number(128),
            subtype: self.maybe(|m| m.number(128)),
        }
    }

    /// One to `room` addresses, mostly few.
    fn addresses(&mut self, room: usize) -> Vec<Address> {
        let length = match self.random.below(12) {
            0 => room,
            1 => 1 + self.random.index(room),
            _ => 1 + self.random.index(room.min(3)),
        };
        (0..length).map(|_| self.address()).collect()
    }

    pub fn response(&mut self) -> Response {
        let code = 1 + self.random.below(6);
        let reasons = (self.maybe(|m| m.number(8)), self.maybe(|m| m.number(64)));
        Response {
            stamp: self.stamp(),
            code,
            cantco: reasons.0.filter(|_| code == 6),
            cantpro: reasons.1.filter(|_| code == 2),
            amplification: self.maybe(|m| m.text(MAX_AMPLIFICATION)),
        }
    }

    fn references(&mut self) -> Vec<Reference> {
        let length = 1 + self.random.index(MAX_REFERENCES);
        (0..length).map(|_| Reference { address: self.address(), stamp: self.stamp() }).collect()
    }

    /// What a block asks; without an origin stamp, nothing.
    fn requests(&mut self, may_ask: bool) -> Requests {
        Requests {
            machine: may_ask && self.random.coin(),
            acknowledge: may_ask && self.random.coin(),
            reply: may_ask && self.random.coin(),
        }
    }

    /// A block without a message size that keeps every rule beside this front.
    fn block(&mut self, front: &Header) -> Block {
        let umf = self.number(9);
        let no_identity = umf == 1 || umf == 4;
        let answers = front.compression.is_none() && umf != 4 && self.random.one_in(3);
        let mut block = Block {
            umf,
            standard_version: self.maybe(|m| m.number(16)).filter(|_| front.version != 1),
            identity: self.maybe(|m| m.identity()).filter(|_| !no_identity),
            file_name: self.maybe(|m| m.text(MAX_FILE_NAME)),
            message_size: None,
            operation: self.number(4),
            retransmit: self.number(2),
            precedence: self.number(8),
            classification: self.number(4),
            marking: self.maybe(|m| m.text(MAX_MARKING)),
            stamp: self.maybe(|m| m.stamp()),
            perishable: None,
            requests: None,
            response: None,
            references: self.maybe(|m| m.references()),
        };
        if answers {
            block.response = Some(self.response());
        } else {
            block.perishable = self.maybe(|m| m.dtg());
            let may_ask = block.stamp.is_some();
            block.requests = self.maybe(|m| m.requests(may_ask));
            block.requests = block.requests.filter(|_| front.originator.is_some());
        }
        block
    }

    fn front(&mut self) -> Header {
        let recipients = self.maybe(|m| m.addresses(MAX_ADDRESSEES));
        let room = MAX_ADDRESSEES - recipients.as_ref().map_or(0, Vec::len);
        Header {
            version: version(self.random),
            compression: self.maybe(|m| m.number(2)).filter(|_| self.random.coin()),
            originator: self.maybe(|m| m.address()),
            recipients,
            information: self.maybe(|m| m.addresses(room.max(1))).filter(|_| room > 0),
            sized: self.present(),
            blocks: Vec::new(),
        }
    }

    pub fn case(&mut self, blocks: usize) -> Case {
        let mut record = self.front();
        record.blocks = (0..blocks).map(|_| self.block(&record)).collect();
        let told = blocks > 1 || self.present();
        let count = give_sizes(&mut record, told, self.random);
        Case { record, count }
    }
}

/// Shares out user data, at least an octet for each block that is no answer. `told` puts the sizes into the record,
/// which several blocks need.
pub fn give_sizes(record: &mut Header, told: bool, random: &mut Random) -> u64 {
    record.sized |= record.blocks.len() > 1;
    let mut count = 0;
    for block in &mut record.blocks {
        let size = if block.response.is_some() { 0 } else { 1 + random.below(40) };
        block.message_size = told.then_some(size);
        count += u64::from(size);
    }
    count
}
