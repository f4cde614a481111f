//! Constructors, so that a host says what a record has and nothing else: everything that is not said is absent, and
//! every unused cell is 0.
//!
//! They only compose. Whether a record is valid is for the library to say (`check`, and every call that is lent one): a
//! number may be too large for its field, and a list longer than its array is held by its count and the entries that
//! fit, which every call refuses with 5. Only a text that cannot be held at all is a fault here.

use std::fmt;

use crate::record::*;

/// Why words are no text.
#[derive(Clone, Copy, Debug, PartialEq, Eq)]
pub enum TextFault {
    /// A text has at most 64 characters.
    TooLong { characters: usize },
    /// A character, counted from 0, that has no 7 bits or is the mark of a text's end.
    Character { at: usize, character: char },
}

impl fmt::Display for TextFault {
    fn fmt(&self, f: &mut fmt::Formatter<'_>) -> fmt::Result {
        match self {
            TextFault::TooLong { characters } => {
                write!(f, "{characters} characters where a text has at most 64")
            }
            TextFault::Character { at, character } => {
                write!(f, "the character {character:?} at {at} is none of 0 to 126")
            }
        }
    }
}

impl std::error::Error for TextFault {}

impl Text {
    /// The characters of some words. A text of a header has at least one.
    pub fn new(words: &str) -> Result<Text, TextFault> {
        let mut text = Text { chars: [0; 64], len: 0 };
        let characters = words.chars().count();
        if characters > text.chars.len() {
            return Err(TextFault::TooLong { characters });
        }
        for (at, (cell, character)) in text.chars.iter_mut().zip(words.chars()).enumerate() {
            let octet = u8::try_from(character).ok().filter(|octet| *octet < 127);
            *cell = octet.ok_or(TextFault::Character { at, character })?;
        }
        text.len = characters as u32;
        Ok(text)
    }
}

impl OptionalNumber {
    pub const NONE: OptionalNumber = OptionalNumber { present: false, value: 0 };

    pub const fn some(value: u32) -> OptionalNumber {
        OptionalNumber { present: true, value }
    }
}

impl OptionalText {
    pub const NONE: OptionalText =
        OptionalText { present: false, text: Text { chars: [0; 64], len: 0 } };

    pub const fn some(text: Text) -> OptionalText {
        OptionalText { present: true, text }
    }
}

impl Address {
    pub const fn urn(number: u32) -> Address {
        Address { urn: OptionalNumber::some(number), name: OptionalText::NONE }
    }

    pub fn name(words: &str) -> Result<Address, TextFault> {
        Ok(Address { urn: OptionalNumber::NONE, name: OptionalText::some(Text::new(words)?) })
    }
}

impl Dtg {
    /// Year, month and day; hour, minute and second.
    pub const fn new([year, month, day]: [u32; 3], [hour, minute, second]: [u32; 3]) -> Dtg {
        Dtg { date: Date { year, month, day }, time: Time { hour, minute, second } }
    }
}

impl Stamp {
    /// A DTG without an extension.
    pub const fn new(dtg: Dtg) -> Stamp {
        Stamp { dtg, extension: OptionalNumber::NONE }
    }

    pub const fn with_extension(mut self, number: u32) -> Stamp {
        self.extension = OptionalNumber::some(number);
        self
    }
}

impl Key {
    pub const fn new(address: Address, stamp: Stamp) -> Key {
        Key { address, stamp }
    }
}

impl Reference {
    pub const fn new(address: Address, stamp: Stamp) -> Reference {
        Reference { address, stamp }
    }
}

impl Identity {
    /// Functional area designator and message number.
    pub const fn new(fad: u32, number: u32) -> Identity {
        Identity { fad, number, subtype: OptionalNumber::NONE }
    }

    pub const fn with_subtype(mut self, number: u32) -> Identity {
        self.subtype = OptionalNumber::some(number);
        self
    }
}

impl Response {
    /// The stamp of the message that is answered, and the receipt/compliance code.
    pub const fn new(stamp: Stamp, code: u32) -> Response {
        let none = OptionalNumber::NONE;
        let compliance = Compliance { code, cantco: none, cantpro: none };
        Response { stamp, compliance, amplification: OptionalText::NONE }
    }

    pub const fn with_cantco(mut self, reason: u32) -> Response {
        self.compliance.cantco = OptionalNumber::some(reason);
        self
    }

    pub const fn with_cantpro(mut self, reason: u32) -> Response {
        self.compliance.cantpro = OptionalNumber::some(reason);
        self
    }

    pub const fn with_amplification(mut self, text: Text) -> Response {
        self.amplification = OptionalText::some(text);
        self
    }
}

/// Puts the entries that fit into an array, and tells how many there are.
fn put<T: Copy>(entries: &[T], list: &mut [T]) -> u32 {
    list.iter_mut().zip(entries).for_each(|(cell, entry)| *cell = *entry);
    u32::try_from(entries.len()).unwrap_or(u32::MAX)
}

fn put_addresses(addresses: &[Address], group: &mut OptionalAddresses) {
    group.present = true;
    group.addresses.count = put(addresses, &mut group.addresses.list);
}

/// A block of which nothing is said.
const BARE: Block = Header::zero().blocks.list[0];

impl Block {
    /// A block with its user message format; the four codes are 0.
    pub const fn new(umf: u32) -> Block {
        let mut block = BARE;
        block.format.umf = umf;
        block
    }

    /// The message standard version, which a record of version 1 does not have.
    pub const fn with_version(mut self, number: u32) -> Block {
        self.format.version = OptionalNumber::some(number);
        self
    }

    /// G4
    pub const fn with_identity(mut self, identity: Identity) -> Block {
        self.format.identity = OptionalIdentity { present: true, identity };
        self
    }

    pub const fn with_file(mut self, name: Text) -> Block {
        self.format.file = OptionalText::some(name);
        self
    }

    /// The message size. Of several blocks each needs one.
    pub const fn with_size(mut self, octets: u32) -> Block {
        self.handling.size = OptionalNumber::some(octets);
        self
    }

    pub const fn with_codes(mut self, codes: Codes) -> Block {
        self.handling.codes = codes;
        self
    }

    /// The control and release marking.
    pub const fn with_marking(mut self, text: Text) -> Block {
        self.handling.marking = OptionalText::some(text);
        self
    }

    /// G5: when the message was made.
    pub const fn with_origin(mut self, stamp: Stamp) -> Block {
        self.times.origin = OptionalStamp { present: true, stamp };
        self
    }

    /// G6: when it loses its worth.
    pub const fn with_perish(mut self, dtg: Dtg) -> Block {
        self.times.perish = OptionalDtg { present: true, dtg };
        self
    }

    /// G7
    pub const fn with_requests(mut self, requests: Requests) -> Block {
        self.times.requests = OptionalRequests { present: true, requests };
        self
    }

    /// G8
    pub const fn with_response(mut self, response: Response) -> Block {
        self.response = OptionalResponse { present: true, response };
        self
    }

    /// G9, at most 4.
    pub fn with_references(mut self, list: &[Reference]) -> Block {
        self.references.present = true;
        self.references.references.count = put(list, &mut self.references.references.list);
        self
    }
}

impl Header {
    /// A record of version 2 with its blocks, 1 to 16, and nothing else.
    pub fn new(blocks: &[Block]) -> Header {
        let mut header = Header::zero();
        header.front.version = 2;
        header.blocks.count = put(blocks, &mut header.blocks.list);
        header
    }

    /// Another version: 1 is the one of old terminals, whose blocks have no message standard version.
    pub const fn with_version(mut self, number: u32) -> Header {
        self.front.version = number;
        self
    }

    pub const fn with_compression(mut self, code: u32) -> Header {
        self.front.compression = OptionalNumber::some(code);
        self
    }

    /// G1
    pub const fn with_originator(mut self, address: Address) -> Header {
        self.front.originator = OptionalAddress { present: true, address };
        self
    }

    /// G2. G2 and G3 hold at most 16 together.
    pub fn with_recipients(mut self, list: &[Address]) -> Header {
        put_addresses(list, &mut self.front.recipients);
        self
    }

    /// G3
    pub fn with_information(mut self, list: &[Address]) -> Header {
        put_addresses(list, &mut self.front.information);
        self
    }

    /// The header size is sent. Several blocks need it; its number is the writer's.
    pub const fn with_header_size(mut self) -> Header {
        self.sized = true;
        self
    }
}
