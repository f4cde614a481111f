//! The listing, a row at a time.

use super::order::characters;
use super::refusals::only;
use super::well::well_formed;
use pruvelaccio::{Address, Key, Recipient, Refusal, Requests, Row, Stamp, Table};

/// No row's text is longer.
const LONGEST: usize = 4096;

/// The front of the output, filled from the left.
struct Line<'a> {
    out: &'a mut [u8],
    at: usize,
}

/// Writes a row of the listing to the beginning of the output: the octets written. Room for any row needs no second
/// look; with less the text is made aside, because a refusal leaves the output as it was.
#[inline(never)]
pub fn list_row(t: &Table, number: u32, out: &mut [u8]) -> Result<usize, Refusal> {
    if !well_formed(t) {
        return Err(only(30));
    }
    if out.len() >= LONGEST {
        return Ok(put_listed(t, number, out));
    }
    let mut aside = [0; LONGEST];
    let octets = put_listed(t, number, &mut aside);
    if octets > out.len() {
        return Err(only(11));
    }
    out[..octets].copy_from_slice(&aside[..octets]);
    Ok(octets)
}

fn put_listed(t: &Table, number: u32, out: &mut [u8]) -> usize {
    let mut line = Line { out, at: 0 };
    let rows = &t.rows[..t.count as usize];
    if number == 0 {
        line.text(b"rows ");
        line.decimal(t.count);
        line.text(b"\n");
    } else if let Some(row) = rows.get(number as usize - 1) {
        line.row(row);
    }
    line.at
}

impl Line<'_> {
    fn text(&mut self, text: &[u8]) {
        self.out[self.at..self.at + text.len()].copy_from_slice(text);
        self.at += text.len();
    }

    /// The digits from the right, into cells aside.
    fn decimal(&mut self, value: u32) {
        let mut digits = [0; 10];
        let mut first = digits.len();
        let mut rest = value;
        loop {
            first -= 1;
            digits[first] = b'0' + (rest % 10) as u8;
            rest /= 10;
            if rest == 0 {
                break;
            }
        }
        self.text(&digits[first..]);
    }

    fn row(&mut self, row: &Row) {
        self.key(&row.key);
        self.text(b" asked ");
        let asked = &row.asked;
        let letters = [(asked.machine, b"m"), (asked.acknowledge, b"o"), (asked.reply, b"r")];
        for (_, letter) in letters.iter().filter(|(asked, _)| *asked) {
            self.text(*letter);
        }
        self.text(b"\n");
        for recipient in &row.recipients[..row.count as usize] {
            self.recipient(asked, recipient);
        }
    }

    fn key(&mut self, key: &Key) {
        self.address(&key.address);
        self.dtg(&key.stamp);
        if key.stamp.extension.present {
            self.decimal(key.stamp.extension.value);
        } else {
            self.text(b"-");
        }
    }

    fn dtg(&mut self, s: &Stamp) {
        let (date, time) = (&s.dtg.date, &s.dtg.time);
        let mut text = *b" 00-00-00 00:00:00 ";
        let fields = [date.year, date.month, date.day, time.hour, time.minute, time.second];
        for (i, &field) in fields.iter().enumerate() {
            text[3 * i + 1] = b'0' + (field / 10) as u8;
            text[3 * i + 2] = b'0' + (field % 10) as u8;
        }
        self.text(&text);
    }

    fn address(&mut self, a: &Address) {
        if a.urn.present {
            return self.decimal(a.urn.value);
        }
        let name = characters(&a.name.text);
        self.text(b"\"");
        // Most names have nothing to escape and go over whole.
        if name.iter().fold(false, |any, &c| any | escapes(c)) {
            name.iter().for_each(|&c| self.escaped(c));
        } else {
            self.text(name);
        }
        self.text(b"\"");
    }

    fn escaped(&mut self, c: u8) {
        const HEX: &[u8; 16] = b"0123456789abcdef";
        if escapes(c) {
            self.text(&[b'\\', HEX[usize::from(c / 16)], HEX[usize::from(c % 16)]]);
        } else {
            self.text(&[c]);
        }
    }

    fn recipient(&mut self, asked: &Requests, r: &Recipient) {
        self.text(b"  ");
        self.address(&r.address);
        let cells = [
            (asked.machine, b'm', r.machine),
            (asked.acknowledge, b'o', r.acknowledge),
            (asked.reply, b'r', r.reply),
        ];
        for (_, letter, code) in cells.iter().filter(|(asked, _, _)| *asked) {
            // A code is one digit in a well-formed table.
            let shown = if *code == 0 { b'?' } else { b'0' + *code as u8 };
            self.text(&[b' ', *letter, b'=', shown]);
        }
        self.text(b"\n");
    }
}

fn escapes(c: u8) -> bool {
    c < 32 || c == b'"' || c == b'\\'
}
