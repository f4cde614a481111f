//! The board in words, a row at a time.

use crate::board::{well_formed, Board, Recipient, Row};
use crate::refusal::Refusal;
use crate::types::{Address, Dtg, Requests};

/// The text of one row of the listing: number 0 is the count, 1 and up are the
/// board's rows, and past the last one there is nothing to say.
pub fn listing(board: &Board, row: u32) -> Result<Vec<u8>, Refusal> {
    if !well_formed(board) {
        return Err(Refusal::new(30));
    }
    let number = row as usize;
    let mut text: Vec<u8> = Vec::new();
    if number == 0 {
        put(&mut text, "rows ");
        put_decimal(&mut text, board.rows.len() as u32);
        put(&mut text, "\n");
    } else if number <= board.rows.len() {
        put_row(&mut text, &board.rows[number - 1]);
    }
    Ok(text)
}

/// The same, into the front of lent octets. Nothing fits everywhere, so a
/// number past the last row is never too long.
pub fn list_row(board: &Board, row: u32, out: &mut [u8]) -> Result<usize, Refusal> {
    let text = listing(board, row)?;
    if out.len() < text.len() {
        return Err(Refusal::new(11));
    }
    for i in 0..text.len() {
        out[i] = text[i];
    }
    Ok(text.len())
}

fn put_row(text: &mut Vec<u8>, row: &Row) {
    put_address(text, &row.key.address);
    put(text, " ");
    put_dtg(text, &row.key.stamp.dtg);
    put(text, " ");
    match row.key.stamp.extension {
        Some(extension) => put_decimal(text, extension),
        None => put(text, "-"),
    }
    put(text, " asked ");
    if row.asked.machine {
        put(text, "m");
    }
    if row.asked.acknowledge {
        put(text, "o");
    }
    if row.asked.reply {
        put(text, "r");
    }
    put(text, "\n");
    for recipient in &row.recipients {
        put_recipient(text, &row.asked, recipient);
    }
}

fn put_recipient(text: &mut Vec<u8>, asked: &Requests, recipient: &Recipient) {
    put(text, "  ");
    put_address(text, &recipient.address);
    if asked.machine {
        put(text, " m=");
        put_cell(text, recipient.machine);
    }
    if asked.acknowledge {
        put(text, " o=");
        put_cell(text, recipient.acknowledge);
    }
    if asked.reply {
        put(text, " r=");
        put_cell(text, recipient.reply);
    }
    put(text, "\n");
}

fn put_cell(text: &mut Vec<u8>, code: u32) {
    if code == 0 {
        put(text, "?");
    } else {
        put_decimal(text, code);
    }
}

fn put_dtg(text: &mut Vec<u8>, d: &Dtg) {
    put_two_digits(text, d.year);
    put(text, "-");
    put_two_digits(text, d.month);
    put(text, "-");
    put_two_digits(text, d.day);
    put(text, " ");
    put_two_digits(text, d.hour);
    put(text, ":");
    put_two_digits(text, d.minute);
    put(text, ":");
    put_two_digits(text, d.second);
}

/// A number as it is, a name in quotes. Characters that would break the line
/// or the quotes are shown by their code.
fn put_address(text: &mut Vec<u8>, a: &Address) {
    if let Some(urn) = a.urn {
        put_decimal(text, urn);
    }
    if let Some(name) = &a.name {
        put(text, "\"");
        for character in name {
            if *character < 32 || *character == b'"' || *character == b'\\' {
                put(text, "\\");
                put_hex_digit(text, character / 16);
                put_hex_digit(text, character % 16);
            } else {
                text.push(*character);
            }
        }
        put(text, "\"");
    }
}

fn put(text: &mut Vec<u8>, words: &str) {
    for octet in words.bytes() {
        text.push(octet);
    }
}

fn put_decimal(text: &mut Vec<u8>, value: u32) {
    put(text, &value.to_string());
}

fn put_two_digits(text: &mut Vec<u8>, value: u32) {
    text.push(b'0' + (value / 10) as u8);
    text.push(b'0' + (value % 10) as u8);
}

fn put_hex_digit(text: &mut Vec<u8>, value: u8) {
    if value < 10 {
        text.push(b'0' + value);
    } else {
        text.push(b'a' + (value - 10));
    }
}
