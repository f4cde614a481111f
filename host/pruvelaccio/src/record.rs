//! The structs that the proved library is lent and works on where they lie, laid out as it lays them out.
//!
//! Numbers are `u32` so that a record can hold a value that does not fit its field: finding that out is
//! the writer's task. What is not present, or lies behind a count, is an unused cell.

/// A number that may be absent.
#[repr(C)]
#[derive(Clone, Copy, Debug)]
pub struct OptionalNumber {
    pub present: bool,
    pub value: u32,
}

/// The characters of a text, and how many of them are used.
#[repr(C)]
#[derive(Clone, Copy, Debug)]
pub struct Text {
    pub chars: [u8; 64],
    pub len: u32,
}

#[repr(C)]
#[derive(Clone, Copy, Debug)]
pub struct OptionalText {
    pub present: bool,
    pub text: Text,
}

/// A URN or a unit name, exactly one of them.
#[repr(C)]
#[derive(Clone, Copy, Debug)]
pub struct Address {
    pub urn: OptionalNumber,
    pub name: OptionalText,
}

#[repr(C)]
#[derive(Clone, Copy, Debug)]
pub struct OptionalAddress {
    pub present: bool,
    pub address: Address,
}

#[repr(C)]
#[derive(Clone, Copy, Debug)]
pub struct Addresses {
    pub list: [Address; 16],
    pub count: u32,
}

#[repr(C)]
#[derive(Clone, Copy, Debug)]
pub struct OptionalAddresses {
    pub present: bool,
    pub addresses: Addresses,
}

/// The fields up to the end of G3.
#[repr(C)]
#[derive(Clone, Copy, Debug)]
pub struct Front {
    /// 1 or 2
    pub version: u32,
    pub compression: OptionalNumber,
    /// G1
    pub originator: OptionalAddress,
    /// G2
    pub recipients: OptionalAddresses,
    /// G3
    pub information: OptionalAddresses,
}

/// A day that its month has: April, June, September and November have 30, February has 29 in a year that divides by
/// four and 28 in any other, the rest have 31. A record or a key with another day is refused with 3, a table with one
/// in a row with 30.
#[repr(C)]
#[derive(Clone, Copy, Debug)]
pub struct Date {
    /// Its last two digits, 0 to 99; 0 is 2000
    pub year: u32,
    /// 1 to 12
    pub month: u32,
    /// From 1 on
    pub day: u32,
}

#[repr(C)]
#[derive(Clone, Copy, Debug)]
pub struct Time {
    pub hour: u32,
    pub minute: u32,
    pub second: u32,
}

/// A date-time group.
#[repr(C)]
#[derive(Clone, Copy, Debug)]
pub struct Dtg {
    pub date: Date,
    pub time: Time,
}

#[repr(C)]
#[derive(Clone, Copy, Debug)]
pub struct OptionalDtg {
    pub present: bool,
    pub dtg: Dtg,
}

/// A DTG with its extension.
#[repr(C)]
#[derive(Clone, Copy, Debug)]
pub struct Stamp {
    pub dtg: Dtg,
    pub extension: OptionalNumber,
}

#[repr(C)]
#[derive(Clone, Copy, Debug)]
pub struct OptionalStamp {
    pub present: bool,
    pub stamp: Stamp,
}

/// G4: functional area designator, message number and subtype.
#[repr(C)]
#[derive(Clone, Copy, Debug)]
pub struct Identity {
    pub fad: u32,
    pub number: u32,
    pub subtype: OptionalNumber,
}

#[repr(C)]
#[derive(Clone, Copy, Debug)]
pub struct OptionalIdentity {
    pub present: bool,
    pub identity: Identity,
}

/// User message format, message standard version, G4, file name.
#[repr(C)]
#[derive(Clone, Copy, Debug)]
pub struct Format {
    pub umf: u32,
    /// The message standard version, absent in a record of version 1
    pub version: OptionalNumber,
    pub identity: OptionalIdentity,
    pub file: OptionalText,
}

#[repr(C)]
#[derive(Clone, Copy, Debug)]
pub struct Codes {
    pub operation: u32,
    pub retransmit: u32,
    pub precedence: u32,
    pub classification: u32,
}

/// Message size, the four codes, control and release marking.
#[repr(C)]
#[derive(Clone, Copy, Debug)]
pub struct Handling {
    pub size: OptionalNumber,
    pub codes: Codes,
    pub marking: OptionalText,
}

/// G7: the three answers that a message can ask for.
#[repr(C)]
#[derive(Clone, Copy, Debug)]
pub struct Requests {
    pub machine: bool,
    pub acknowledge: bool,
    pub reply: bool,
}

#[repr(C)]
#[derive(Clone, Copy, Debug)]
pub struct OptionalRequests {
    pub present: bool,
    pub requests: Requests,
}

/// G5 originator's DTG, G6 perishability DTG, G7 requests.
#[repr(C)]
#[derive(Clone, Copy, Debug)]
pub struct Times {
    pub origin: OptionalStamp,
    pub perish: OptionalDtg,
    pub requests: OptionalRequests,
}

/// Receipt/compliance with its CANTCO and CANTPRO reasons.
#[repr(C)]
#[derive(Clone, Copy, Debug)]
pub struct Compliance {
    pub code: u32,
    pub cantco: OptionalNumber,
    pub cantpro: OptionalNumber,
}

/// G8: the DTG of the message answered, the answer, and its amplification.
#[repr(C)]
#[derive(Clone, Copy, Debug)]
pub struct Response {
    pub stamp: Stamp,
    pub compliance: Compliance,
    pub amplification: OptionalText,
}

#[repr(C)]
#[derive(Clone, Copy, Debug)]
pub struct OptionalResponse {
    pub present: bool,
    pub response: Response,
}

/// An entry of G9: a message referred to.
#[repr(C)]
#[derive(Clone, Copy, Debug)]
pub struct Reference {
    pub address: Address,
    pub stamp: Stamp,
}

#[repr(C)]
#[derive(Clone, Copy, Debug)]
pub struct References {
    pub list: [Reference; 4],
    pub count: u32,
}

#[repr(C)]
#[derive(Clone, Copy, Debug)]
pub struct OptionalReferences {
    pub present: bool,
    pub references: References,
}

/// A message block.
#[repr(C)]
#[derive(Clone, Copy, Debug)]
pub struct Block {
    pub format: Format,
    pub handling: Handling,
    pub times: Times,
    /// G8
    pub response: OptionalResponse,
    /// G9
    pub references: OptionalReferences,
}

#[repr(C)]
#[derive(Clone, Copy, Debug)]
pub struct Blocks {
    pub list: [Block; 16],
    pub count: u32,
}

/// The record of a header. Of the header size it holds the presence only: its number is the header's own octets.
#[repr(C)]
#[derive(Clone, Copy, Debug)]
pub struct Header {
    pub front: Front,
    pub sized: bool,
    pub blocks: Blocks,
}

/// What names a message: its originator's address, its DTG and extension.
#[repr(C)]
#[derive(Clone, Copy, Debug)]
pub struct Key {
    pub address: Address,
    pub stamp: Stamp,
}

/// A recipient of a row, with the code that settled each request; 0 where there is none.
#[repr(C)]
#[derive(Clone, Copy, Debug)]
pub struct Recipient {
    pub address: Address,
    pub machine: u32,
    pub acknowledge: u32,
    pub reply: u32,
}

/// A message that was posted.
#[repr(C)]
#[derive(Clone, Copy, Debug)]
pub struct Row {
    pub key: Key,
    pub asked: Requests,
    pub recipients: [Recipient; 16],
    pub count: u32,
}

/// The table of pending messages, document 01's board.
#[repr(C)]
#[derive(Clone, Copy, Debug)]
pub struct Table {
    pub rows: [Row; 32],
    pub count: u32,
}

/// Hands every struct of this module with its fields, in the order of their octets, to a macro. What walks the
/// structs field by field takes them from here; a field left out would not compile there.
#[macro_export]
macro_rules! each_struct {
    ($walk:ident) => {
        $walk! {
            OptionalNumber { present, value }
            Text { chars, len }
            OptionalText { present, text }
            Address { urn, name }
            OptionalAddress { present, address }
            Addresses { list, count }
            OptionalAddresses { present, addresses }
            Front { version, compression, originator, recipients, information }
            Date { year, month, day }
            Time { hour, minute, second }
            Dtg { date, time }
            OptionalDtg { present, dtg }
            Stamp { dtg, extension }
            OptionalStamp { present, stamp }
            Identity { fad, number, subtype }
            OptionalIdentity { present, identity }
            Format { umf, version, identity, file }
            Codes { operation, retransmit, precedence, classification }
            Handling { size, codes, marking }
            Requests { machine, acknowledge, reply }
            OptionalRequests { present, requests }
            Times { origin, perish, requests }
            Compliance { code, cantco, cantpro }
            Response { stamp, compliance, amplification }
            OptionalResponse { present, response }
            Reference { address, stamp }
            References { list, count }
            OptionalReferences { present, references }
            Block { format, handling, times, response, references }
            Blocks { list, count }
            Header { front, sized, blocks }
            Key { address, stamp }
            Recipient { address, machine, acknowledge, reply }
            Row { key, asked, recipients, count }
            Table { rows, count }
        }
    };
}
