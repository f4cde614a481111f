//! The header record. Numbers are held wide (u32) so that a record can carry a
//! value that does not fit its field; finding that out is the writer's task.

/// A station, by number or by name. Both or neither can be put down here,
/// because a record may be wrong in exactly that way (refusal 6).
#[derive(Clone, Debug, PartialEq, Eq)]
pub struct Address {
    pub urn: Option<u32>,
    pub name: Option<Vec<u8>>,
}

/// A date and time to the second.
#[derive(Clone, Debug, PartialEq, Eq)]
pub struct Dtg {
    pub year: u32,
    pub month: u32,
    pub day: u32,
    pub hour: u32,
    pub minute: u32,
    pub second: u32,
}

/// A date and time with the number that tells messages of one second apart.
/// No number is not the same as number 0.
#[derive(Clone, Debug, PartialEq, Eq)]
pub struct Stamp {
    pub dtg: Dtg,
    pub extension: Option<u32>,
}

/// The whole header. `sized` only tells whether the header's own size is sent;
/// its number follows from the rest.
#[derive(Clone, Debug, PartialEq, Eq)]
pub struct Header {
    pub version: u32,
    pub compression: Option<u32>,
    /// G1
    pub originator: Option<Address>,
    /// G2
    pub recipients: Option<Vec<Address>>,
    /// G3
    pub information: Option<Vec<Address>>,
    pub sized: bool,
    pub blocks: Vec<Block>,
}

/// One message's part of the header, in the order of the bits.
#[derive(Clone, Debug, PartialEq, Eq)]
pub struct Block {
    pub umf: u32,
    /// Has no room in version 1, but a record can hold it there all the same,
    /// because a record may be wrong in that way too (refusal 3).
    pub standard_version: Option<u32>,
    /// G4
    pub identity: Option<Identity>,
    pub file_name: Option<Vec<u8>>,
    pub message_size: Option<u32>,
    pub operation: u32,
    pub retransmit: u32,
    pub precedence: u32,
    pub classification: u32,
    pub marking: Option<Vec<u8>>,
    /// G5: when the message was made
    pub stamp: Option<Stamp>,
    /// G6: when it loses its worth
    pub perishable: Option<Dtg>,
    /// G7
    pub requests: Option<Requests>,
    /// G8
    pub response: Option<Response>,
    /// G9
    pub references: Option<Vec<Reference>>,
}

/// G4: which message of which functional area.
#[derive(Clone, Debug, PartialEq, Eq)]
pub struct Identity {
    pub fad: u32,
    pub number: u32,
    pub subtype: Option<u32>,
}

/// G7: the three answers a message can ask for.
#[derive(Clone, Debug, PartialEq, Eq)]
pub struct Requests {
    pub machine: bool,
    pub acknowledge: bool,
    pub reply: bool,
}

/// G8: an answer to the message that carried this stamp.
#[derive(Clone, Debug, PartialEq, Eq)]
pub struct Response {
    pub stamp: Stamp,
    pub code: u32,
    pub cantco: Option<u32>,
    pub cantpro: Option<u32>,
    pub amplification: Option<Vec<u8>>,
}

/// One entry of G9: another message, named by its sender and stamp.
#[derive(Clone, Debug, PartialEq, Eq)]
pub struct Reference {
    pub address: Address,
    pub stamp: Stamp,
}
