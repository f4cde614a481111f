//! Whether a table is well formed, and which code answers which request.

use super::check;
use super::limits::{ADDRESSEES, ROWS};
use super::order::{by_address, by_key};
use pruvelaccio::{Recipient, Requests, Row, Table};

pub fn well_formed(t: &Table) -> bool {
    let count = t.count as usize;
    if count > ROWS {
        return false;
    }
    let rows = &t.rows[..count];
    rows.iter().all(row_fine) && rows.windows(2).all(|w| by_key(&w[0].key, &w[1].key).is_lt())
}

fn row_fine(row: &Row) -> bool {
    let count = row.count as usize;
    if count == 0 || count > ADDRESSEES || !any(&row.asked) {
        return false;
    }
    if check::address(&row.key.address).is_err() || check::stamp(&row.key.stamp).is_err() {
        return false;
    }
    let recipients = &row.recipients[..count];
    recipients.iter().all(|r| recipient_fine(&row.asked, r))
        && recipients.windows(2).all(|w| by_address(&w[0].address, &w[1].address).is_lt())
}

fn any(asked: &Requests) -> bool {
    asked.machine || asked.acknowledge || asked.reply
}

/// Codes only at asked requests that they answer; beside a 2 nothing is open.
fn recipient_fine(asked: &Requests, r: &Recipient) -> bool {
    let pairs = [
        (asked.machine, r.machine, answers_machine(r.machine)),
        (asked.acknowledge, r.acknowledge, answers_acknowledge(r.acknowledge)),
        (asked.reply, r.reply, answers_reply(r.reply)),
    ];
    let (mut fit, mut refused, mut open) = (true, false, false);
    for (asked, code, answers) in pairs {
        fit &= code == 0 || (asked && answers);
        refused |= code == 2;
        open |= asked && code == 0;
    }
    fit && !(refused && open) && check::address(&r.address).is_ok()
}

pub fn answers_machine(code: u32) -> bool {
    matches!(code, 1 | 2)
}

pub fn answers_acknowledge(code: u32) -> bool {
    matches!(code, 2 | 3)
}

pub fn answers_reply(code: u32) -> bool {
    matches!(code, 2 | 4 | 5 | 6)
}
