//! Posting, receipt and release on the table where it stands.

use super::check;
use super::limits::{ADDRESSEES, ROWS};
use super::order::{by_address, find_row};
use super::refusals::only;
use super::rules::any_asked;
use super::well::{answers_acknowledge, answers_machine, answers_reply, well_formed};
use super::zero::NO_ROW;
use pruvelaccio::*;

/// What posting and receipt judge first: the table (30), the record, the block's number (29).
fn block_of<'a>(t: &Table, h: &'a Header, number: u32, count: usize) -> Result<&'a Block, Refusal> {
    if !well_formed(t) {
        return Err(only(30));
    }
    check::check(h, count)?;
    let used = &h.blocks.list[..h.blocks.count as usize];
    let index = (number as usize).checked_sub(1).ok_or(only(29))?;
    used.get(index).ok_or(only(29))
}

/// Posts a block of a record, counted from 1.
#[inline(never)]
pub fn post(t: &mut Table, h: &Header, number: u32, count: usize) -> Result<(), Refusal> {
    let block = block_of(t, h, number, count)?;
    if !any_asked(&block.times.requests) {
        return Err(only(20));
    }
    if !h.front.recipients.present {
        return Err(only(21));
    }
    let rows = t.count as usize;
    // What asks has an originator and a DTG, by rules (a) and (i).
    let (from, stamp) = (&h.front.originator.address, &block.times.origin.stamp);
    let Err(at) = find_row(&t.rows[..rows], from, stamp) else {
        return Err(only(22));
    };
    if rows == ROWS {
        return Err(only(23));
    }
    t.rows.copy_within(at..rows, at + 1);
    t.count += 1;
    let row = &mut t.rows[at];
    row.key = Key { address: *from, stamp: *stamp };
    row.asked = block.times.requests.requests;
    fill_recipients(row, &h.front.recipients.addresses);
    Ok(())
}

/// The recipients in address order, each once, without codes. Only references are sorted.
fn fill_recipients(row: &mut Row, to: &Addresses) {
    let list = &to.list[..to.count as usize];
    let mut sorted = [&list[0]; ADDRESSEES];
    let mut count = 0;
    for address in list {
        if let Err(at) = sorted[..count].binary_search_by(|x| by_address(x, address)) {
            sorted.copy_within(at..count, at + 1);
            sorted[at] = address;
            count += 1;
        }
    }
    for (recipient, address) in row.recipients.iter_mut().zip(&sorted[..count]) {
        *recipient = Recipient { address: **address, machine: 0, acknowledge: 0, reply: 0 };
    }
    row.count = count as u32;
}

/// Settles what a block of a record answers.
#[inline(never)]
pub fn receipt(t: &mut Table, h: &Header, number: u32, count: usize) -> Result<(), Refusal> {
    let block = block_of(t, h, number, count)?;
    if !block.response.present {
        return Err(only(24));
    }
    let to = &h.front.recipients;
    if !h.front.originator.present || !to.present || to.addresses.count != 1 {
        return Err(only(25));
    }
    let response = &block.response.response;
    let rows = &mut t.rows[..t.count as usize];
    let Ok(at) = find_row(rows, &to.addresses.list[0], &response.stamp) else {
        return Err(only(26));
    };
    let row = &mut rows[at];
    let recipients = &mut row.recipients[..row.count as usize];
    let answerer = &h.front.originator.address;
    let Ok(at) = recipients.binary_search_by(|r| by_address(&r.address, answerer)) else {
        return Err(only(27));
    };
    if !settle(&row.asked, response.compliance.code, &mut recipients[at]) {
        return Err(only(28));
    }
    Ok(())
}

/// Writes the code to each open request that it answers; whether there was one.
fn settle(asked: &Requests, code: u32, r: &mut Recipient) -> bool {
    let cells = [
        (asked.machine && answers_machine(code), &mut r.machine),
        (asked.acknowledge && answers_acknowledge(code), &mut r.acknowledge),
        (asked.reply && answers_reply(code), &mut r.reply),
    ];
    let mut settled = false;
    for (answered, cell) in cells {
        if answered && *cell == 0 {
            *cell = code;
            settled = true;
        }
    }
    settled
}

/// Takes the row with a key out. The place that the last row leaves has 0 in every cell.
#[inline(never)]
pub fn release(t: &mut Table, key: &Key) -> Result<(), Refusal> {
    if !well_formed(t) {
        return Err(only(30));
    }
    check::address(&key.address).map_err(only)?;
    check::stamp(&key.stamp).map_err(only)?;
    let rows = t.count as usize;
    let Ok(at) = find_row(&t.rows[..rows], &key.address, &key.stamp) else {
        return Err(only(26));
    };
    t.rows.copy_within(at + 1..rows, at);
    t.rows[rows - 1] = NO_ROW;
    t.count -= 1;
    Ok(())
}
