//! The calls. Everything is lent and stays where it lies, as a struct or as its octets; a refusal leaves every octet as
//! it was.

use crate::octets::{KeyOctets, Lent, RecordOctets, TableOctets};
use crate::raw;
use crate::record::{Header, Key, Table};
use crate::refusal::Refusal;

/// A record that was read, and the octets that its header has.
#[derive(Clone, Copy, Debug)]
pub struct HeaderRead {
    pub header: Header,
    pub length: usize,
}

fn done(answer: raw::Answer) -> Result<(), Refusal> {
    let raw::Answer { number, block, place } = answer;
    if number == 0 {
        Ok(())
    } else {
        Err(Refusal { number, place, block })
    }
}

fn size(answer: raw::SizeAnswer) -> Result<usize, Refusal> {
    let raw::SizeAnswer { number, block, place, length } = answer;
    done(raw::Answer { number, block, place }).map(|()| length)
}

/// Reads a datagram into a new record; unused cells are 0.
pub fn read(datagram: &[u8]) -> Result<HeaderRead, Refusal> {
    let mut read = HeaderRead { header: Header::zero(), length: 0 };
    read.length = read_into(datagram, &mut read.header)?;
    Ok(read)
}

/// Reads a datagram into a record where it lies: the octets that its header has. Done, unused cells are 0; refused, the
/// record is as it was.
pub fn read_into(datagram: &[u8], header: &mut Header) -> Result<usize, Refusal> {
    // SAFETY: pointer and length are those of a slice that outlives the call, and the record is lent for the call
    // alone. Done, every flag of it holds 0 or 1; refused, it is as it was: a `Header` either way.
    size(unsafe {
        raw::pruvelaccio_read_octets(datagram.as_ptr(), datagram.len(), header.pointer_mut())
    })
}

/// The same into octets. Done, those of unused cells and those between the cells are 0 as well.
pub fn read_octets(datagram: &[u8], record: &mut RecordOctets) -> Result<usize, Refusal> {
    // SAFETY: as in `read_into`; any octets may be left there.
    size(unsafe {
        raw::pruvelaccio_read_octets(datagram.as_ptr(), datagram.len(), record.pointer_mut())
    })
}

/// What lies behind the header, as a part of the datagram itself; nothing where the datagram is refused.
pub fn user_data(datagram: &[u8]) -> &[u8] {
    // SAFETY: the pointer and the length are those of a slice that outlives the call.
    let start = unsafe { raw::pruvelaccio_data_start(datagram.as_ptr(), datagram.len()) };
    &datagram[start..]
}

/// Whether a record is valid with so many octets of user data: the octets that its header has.
pub fn check(header: &Header, count: usize) -> Result<usize, Refusal> {
    // SAFETY: the pointer is that of a whole record, which the call only reads; any octets are some record.
    size(unsafe { raw::pruvelaccio_check_octets(header.pointer(), count) })
}

/// The same of any octets.
pub fn check_octets(record: &RecordOctets, count: usize) -> Result<usize, Refusal> {
    // SAFETY: as in `check`.
    size(unsafe { raw::pruvelaccio_check_octets(record.pointer(), count) })
}

/// Writes a record's header to the beginning of the output: the octets written. No other octet changes.
pub fn write(header: &Header, count: usize, out: &mut [u8]) -> Result<usize, Refusal> {
    // SAFETY: as in `check`; pointer and length are those of a slice lent for the call alone.
    size(unsafe {
        raw::pruvelaccio_write_octets(header.pointer(), count, out.as_mut_ptr(), out.len())
    })
}

/// The same from any octets.
pub fn write_octets(record: &RecordOctets, count: usize, out: &mut [u8]) -> Result<usize, Refusal> {
    // SAFETY: as in `write`.
    size(unsafe {
        raw::pruvelaccio_write_octets(record.pointer(), count, out.as_mut_ptr(), out.len())
    })
}

/// The calls on a table, for either form of it. Of a `Table` every flag holds 0 or 1, and a call leaves it so: rows are
/// moved whole, a new row's flags are 0 or 1, a freed place is 0, a receipt changes numbers, a refusal nothing.
macro_rules! table_calls {
    ($($table:ident)+) => { $(
        impl $table {
            /// A table with no row: every octet 0.
            pub fn empty() -> $table {
                let mut table = $table::zero();
                table.clear();
                table
            }

            /// Makes the table one with no row, where it lies.
            pub fn clear(&mut self) {
                // SAFETY: the pointer is that of a whole table, lent for the call alone; 0 is an octet of each cell.
                unsafe { raw::pruvelaccio_empty_octets(self.pointer_mut()) }
            }

            /// Posts a block of a record, counted from 1. `count` is the datagram's octets of user data.
            pub fn post(&mut self, header: &Header, number: u32, count: usize) -> Result<(), Refusal> {
                let (table, header) = (self.pointer_mut(), header.pointer());
                // SAFETY: pointers to a whole table, lent for the call alone, and to a whole record; any octets are
                // some table and some record.
                done(unsafe { raw::pruvelaccio_post_octets(table, header, number, count) })
            }

            /// The same from any octets.
            pub fn post_octets(
                &mut self,
                record: &RecordOctets,
                number: u32,
                count: usize,
            ) -> Result<(), Refusal> {
                let (table, record) = (self.pointer_mut(), record.pointer());
                // SAFETY: as in `post`.
                done(unsafe { raw::pruvelaccio_post_octets(table, record, number, count) })
            }

            /// Settles what a block of a record answers.
            pub fn receipt(
                &mut self,
                header: &Header,
                number: u32,
                count: usize,
            ) -> Result<(), Refusal> {
                let (table, header) = (self.pointer_mut(), header.pointer());
                // SAFETY: as in `post`.
                done(unsafe { raw::pruvelaccio_receipt_octets(table, header, number, count) })
            }

            /// The same from any octets.
            pub fn receipt_octets(
                &mut self,
                record: &RecordOctets,
                number: u32,
                count: usize,
            ) -> Result<(), Refusal> {
                let (table, record) = (self.pointer_mut(), record.pointer());
                // SAFETY: as in `post`.
                done(unsafe { raw::pruvelaccio_receipt_octets(table, record, number, count) })
            }

            /// Takes the row with a key out.
            pub fn release(&mut self, key: &Key) -> Result<(), Refusal> {
                // SAFETY: as in `post`; the key is a whole one, and any octets are some key.
                done(unsafe { raw::pruvelaccio_release_octets(self.pointer_mut(), key.pointer()) })
            }

            /// The same by any octets.
            pub fn release_octets(&mut self, key: &KeyOctets) -> Result<(), Refusal> {
                // SAFETY: as in `release`.
                done(unsafe { raw::pruvelaccio_release_octets(self.pointer_mut(), key.pointer()) })
            }

            /// Writes a row of the listing to the beginning of the output: the octets written. Row 0 counts the rows.
            pub fn list_row(&self, number: u32, out: &mut [u8]) -> Result<usize, Refusal> {
                let (table, room) = (self.pointer(), out.len());
                // SAFETY: as in `write`; the call only reads the table.
                size(unsafe {
                    raw::pruvelaccio_list_row_octets(table, number, out.as_mut_ptr(), room)
                })
            }
        }
    )+ };
}

table_calls! { Table TableOctets }
