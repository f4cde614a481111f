//! The same table calls behind signatures by value: record and table come by value, the table goes back by value, and
//! the host stores it. What this costs beside the calls in place is copying alone. The exported calls were so once; now
//! they are lent both.

use super::refusals::only;
use pruvelaccio::{Header, Key, Refusal, Table};

#[repr(C)]
struct TableAnswer {
    number: u32,
    block: u32,
    place: usize,
    table: Table,
}

fn answer(table: Table, done: Result<(), Refusal>) -> TableAnswer {
    let Refusal { number, place, block } = done.err().unwrap_or(only(0));
    TableAnswer { number, block, place, table }
}

#[inline(never)]
extern "C" fn post_value(mut t: Table, h: Header, number: u32, count: usize) -> TableAnswer {
    let done = super::post(&mut t, &h, number, count);
    answer(t, done)
}

#[inline(never)]
extern "C" fn receipt_value(mut t: Table, h: Header, number: u32, count: usize) -> TableAnswer {
    let done = super::receipt(&mut t, &h, number, count);
    answer(t, done)
}

#[inline(never)]
extern "C" fn release_value(mut t: Table, key: Key) -> TableAnswer {
    let done = super::release(&mut t, &key);
    answer(t, done)
}

/// As the wrapper of the exported calls did it with the table.
fn take(t: &mut Table, answer: TableAnswer) -> Result<(), Refusal> {
    let TableAnswer { number, block, place, .. } = answer;
    if number != 0 {
        return Err(Refusal { number, place, block });
    }
    *t = answer.table;
    Ok(())
}

pub fn post(t: &mut Table, h: &Header, number: u32, count: usize) -> Result<(), Refusal> {
    let answer = post_value(*t, *h, number, count);
    take(t, answer)
}

pub fn receipt(t: &mut Table, h: &Header, number: u32, count: usize) -> Result<(), Refusal> {
    let answer = receipt_value(*t, *h, number, count);
    take(t, answer)
}

pub fn release(t: &mut Table, key: &Key) -> Result<(), Refusal> {
    let answer = release_value(*t, *key);
    take(t, answer)
}
