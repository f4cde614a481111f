//! The proved library, asked twice each time: by the exported function itself and through the safe wrapper. The wrapper
//! leaves out what stands beside a refusal (length 0), so what is compared are the function's own answers; here the
//! wrapper is held against them. The exported function gets the caller's own memory, the wrapper copies of it.

use pruvelaccio::raw::{self, Answer, SizeAnswer};
use pruvelaccio::{Header, KeyOctets, RecordOctets, Refusal, Table, TableOctets, RECORD};

use crate::cells::Cells;

/// An answer of the exported function as the wrapper hands it on.
fn told(own: Answer) -> Result<(), Refusal> {
    let Answer { number, block, place } = own;
    if number == 0 {
        Ok(())
    } else {
        Err(Refusal { number, place, block })
    }
}

fn told_size(own: SizeAnswer) -> Result<usize, Refusal> {
    let SizeAnswer { number, block, place, length } = own;
    told(Answer { number, block, place }).map(|()| length)
}

fn agree<T: PartialEq + std::fmt::Debug>(call: &str, own: T, wrapper: T) -> Result<(), String> {
    if own == wrapper {
        return Ok(());
    }
    Err(format!("{call}: the exported function gives {own:?}, the wrapper {wrapper:?}"))
}

/// A record in one of the two forms in which a host lends it, with the wrapper's calls for that form.
pub trait Lent {
    fn pointer(&self) -> *const [u8; RECORD];
    fn check(&self, count: usize) -> Result<usize, Refusal>;
    fn write(&self, count: usize, out: &mut [u8]) -> Result<usize, Refusal>;
    fn post(&self, table: &mut TableOctets, number: u32, count: usize) -> Result<(), Refusal>;
    fn receipt(&self, table: &mut TableOctets, number: u32, count: usize) -> Result<(), Refusal>;
}

impl Lent for Header {
    fn pointer(&self) -> *const [u8; RECORD] {
        std::ptr::from_ref(self).cast()
    }

    fn check(&self, count: usize) -> Result<usize, Refusal> {
        pruvelaccio::check(self, count)
    }

    fn write(&self, count: usize, out: &mut [u8]) -> Result<usize, Refusal> {
        pruvelaccio::write(self, count, out)
    }

    fn post(&self, table: &mut TableOctets, number: u32, count: usize) -> Result<(), Refusal> {
        table.post(self, number, count)
    }

    fn receipt(&self, table: &mut TableOctets, number: u32, count: usize) -> Result<(), Refusal> {
        table.receipt(self, number, count)
    }
}

impl Lent for RecordOctets {
    fn pointer(&self) -> *const [u8; RECORD] {
        self.octets()
    }

    fn check(&self, count: usize) -> Result<usize, Refusal> {
        pruvelaccio::check_octets(self, count)
    }

    fn write(&self, count: usize, out: &mut [u8]) -> Result<usize, Refusal> {
        pruvelaccio::write_octets(self, count, out)
    }

    fn post(&self, table: &mut TableOctets, number: u32, count: usize) -> Result<(), Refusal> {
        table.post_octets(self, number, count)
    }

    fn receipt(&self, table: &mut TableOctets, number: u32, count: usize) -> Result<(), Refusal> {
        table.receipt_octets(self, number, count)
    }
}

pub fn read(datagram: &[u8], record: &mut RecordOctets) -> Result<SizeAnswer, String> {
    let mut second = *record;
    let pointer = record.octets_mut();
    // SAFETY: pointer and length are those of one slice, and the record is lent for this call alone.
    let own = unsafe { raw::pruvelaccio_read_octets(datagram.as_ptr(), datagram.len(), pointer) };
    let told = told_size(own);
    agree("read_octets", told, pruvelaccio::read_octets(datagram, &mut second))?;
    agree("read_octets", &*record, &second)?;
    let wrapper = pruvelaccio::read(datagram);
    agree("read", told, wrapper.map(|read| read.length))?;
    let difference = wrapper.ok().and_then(|read| Header::from(&*record).difference(&read.header));
    agree("read", difference, None)?;
    Ok(own)
}

/// Where the user data starts, and how many octets it has.
pub fn user_data(datagram: &[u8]) -> Result<(usize, usize), String> {
    // SAFETY: as in `read`.
    let start = unsafe { raw::pruvelaccio_data_start(datagram.as_ptr(), datagram.len()) };
    let part = pruvelaccio::user_data(datagram);
    let offset = part.as_ptr() as usize - datagram.as_ptr() as usize;
    agree("user_data", (start, datagram.len().wrapping_sub(start)), (offset, part.len()))?;
    Ok((offset, part.len()))
}

pub fn check(record: &impl Lent, count: usize) -> Result<SizeAnswer, String> {
    // SAFETY: the pointer is that of a whole record; any octets are some record.
    let own = unsafe { raw::pruvelaccio_check_octets(record.pointer(), count) };
    agree("check", told_size(own), record.check(count))?;
    Ok(own)
}

pub fn write(record: &impl Lent, count: usize, out: &mut [u8]) -> Result<SizeAnswer, String> {
    let mut second = out.to_vec();
    let room = out.len();
    // SAFETY: as in `check`; pointer and length are those of a slice lent for this call alone.
    let own =
        unsafe { raw::pruvelaccio_write_octets(record.pointer(), count, out.as_mut_ptr(), room) };
    agree("write", told_size(own), record.write(count, &mut second))?;
    agree("write", &*out, &second)?;
    Ok(own)
}

/// Makes a table empty, whatever it was.
pub fn empty(table: &mut TableOctets) -> Result<(), String> {
    // SAFETY: the pointer is that of a whole table, lent for this call alone.
    unsafe { raw::pruvelaccio_empty_octets(table.octets_mut()) };
    agree("empty", &*table, &TableOctets::empty())?;
    agree("empty", &*table, &TableOctets::from(&Table::empty()))
}

/// The wrapper's answer, and what it made of its own copy of the table.
fn changed(
    call: &str,
    (own, table): (Answer, &TableOctets),
    (wrapper, second): (Result<(), Refusal>, &TableOctets),
) -> Result<Answer, String> {
    agree(call, told(own), wrapper)?;
    agree(call, table, second)?;
    Ok(own)
}

pub fn post(
    table: &mut TableOctets,
    h: &impl Lent,
    number: u32,
    count: usize,
) -> Result<Answer, String> {
    let mut second = *table;
    let pointer = table.octets_mut();
    // SAFETY: as in `check`; the pointer is that of a whole table, lent for this call alone.
    let own = unsafe { raw::pruvelaccio_post_octets(pointer, h.pointer(), number, count) };
    let wrapper = h.post(&mut second, number, count);
    changed("post", (own, table), (wrapper, &second))
}

pub fn receipt(
    table: &mut TableOctets,
    h: &impl Lent,
    number: u32,
    count: usize,
) -> Result<Answer, String> {
    let mut second = *table;
    let pointer = table.octets_mut();
    // SAFETY: as in `post`.
    let own = unsafe { raw::pruvelaccio_receipt_octets(pointer, h.pointer(), number, count) };
    let wrapper = h.receipt(&mut second, number, count);
    changed("receipt", (own, table), (wrapper, &second))
}

pub fn release(table: &mut TableOctets, key: &KeyOctets) -> Result<Answer, String> {
    let mut second = *table;
    let pointer = table.octets_mut();
    // SAFETY: as in `post`; the pointer is that of a whole key, and any octets are some key.
    let own = unsafe { raw::pruvelaccio_release_octets(pointer, key.octets()) };
    let wrapper = second.release_octets(key);
    changed("release", (own, table), (wrapper, &second))
}

pub fn list_row(t: &TableOctets, number: u32, out: &mut [u8]) -> Result<SizeAnswer, String> {
    let mut second = out.to_vec();
    let (pointer, room) = (out.as_mut_ptr(), out.len());
    // SAFETY: as in `write`; the pointer is that of a whole table, which the call only reads.
    let own = unsafe { raw::pruvelaccio_list_row_octets(t.octets(), number, pointer, room) };
    agree("list_row", told_size(own), t.list_row(number, &mut second))?;
    agree("list_row", &*out, &second)?;
    Ok(own)
}

/// The wrapper for a table as a struct, held against what was answered and left for the same table as octets.
pub fn same_struct(
    call: &str,
    before: &TableOctets,
    (own, after): (Answer, &TableOctets),
    wrapper: impl FnOnce(&mut Table) -> Result<(), Refusal>,
) -> Result<(), String> {
    let mut table = Table::from(before);
    agree(call, told(own), wrapper(&mut table))?;
    agree(call, Table::from(after).difference(&table), None)
}

/// The same for a row of the listing.
pub fn same_struct_row(t: &TableOctets, number: u32, room: usize) -> Result<(), String> {
    let (mut one, mut two) = (vec![0xA5; room], vec![0xA5; room]);
    agree("list_row", t.list_row(number, &mut one), Table::from(t).list_row(number, &mut two))?;
    agree("list_row", one, two)
}
