//! The proved gateway for Rust: reading and writing the application header of MIL-STD-2045-47001C, and the table
//! of messages that still owe answers. Link `libgateway.a` (`host/build`).
//!
//! Every call takes any input and answers with a result or one of the numbered refusals, which tells its bit place and
//! its message block. A refusal changes nothing that was lent.
//!
//! A record, a table and a key are lent to the library and stay where they lie. A host has each of them as a struct
//! (`Header`, `Table`, `Key`) or as octets, which may be any octets at all (`RecordOctets`, `TableOctets`, `KeyOctets`).

mod call;
mod compose;
mod layout;
mod load;
mod octets;
pub mod raw;
mod record;
mod refusal;

pub use call::{
    check, check_octets, read, read_into, read_octets, user_data, write, write_octets, HeaderRead,
};
pub use compose::TextFault;
pub use layout::{KEY, LAYOUT, RECORD, TABLE};
pub use load::LoadFault;
pub use octets::{KeyOctets, RecordOctets, TableOctets};
pub use record::*;
pub use refusal::Refusal;
