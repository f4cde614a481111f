//! The whole program as a function from its input to its output.

use crate::board::{post, receipt, Board};
use crate::legal::MAX_DIGITS;
use crate::listing::listing;
use crate::reader::{read, user_data};

/// Takes lines of hexadecimal, feeds an empty board with what can be read, and
/// gives the board's listing. The board's own refusals are not shown: a refused
/// message simply leaves no trace.
pub fn program(input: &[u8]) -> Vec<u8> {
    let mut board = Board::new();

    // A line feed at the very end leaves an empty last piece here. It holds no
    // datagram, just as an empty line does not.
    for line in input.split(|octet| *octet == b'\n') {
        if let Some(datagram) = decode_line(line) {
            take_datagram(&mut board, &datagram);
        }
    }

    let mut output: Vec<u8> = Vec::new();
    for number in 0..=board.rows.len() {
        let text = listing(&board, number as u32).expect("calls keep the board well formed");
        for octet in text {
            output.push(octet);
        }
    }
    output
}

/// The octets of a line, or nothing if it isn't pairs of digits or is too long.
fn decode_line(line: &[u8]) -> Option<Vec<u8>> {
    if line.len() > MAX_DIGITS || line.len() % 2 != 0 {
        return None;
    }
    let mut octets: Vec<u8> = Vec::new();
    let mut i = 0;
    while i < line.len() {
        let high = digit_value(line[i])?;
        let low = digit_value(line[i + 1])?;
        octets.push(high * 16 + low);
        i += 2;
    }
    Some(octets)
}

fn digit_value(character: u8) -> Option<u8> {
    match character {
        b'0'..=b'9' => Some(character - b'0'),
        b'a'..=b'f' => Some(character - b'a' + 10),
        b'A'..=b'F' => Some(character - b'A' + 10),
        _ => None,
    }
}

/// Each block goes to the board by itself, the first one first. What the board
/// answers is dropped on purpose.
fn take_datagram(board: &mut Board, datagram: &[u8]) {
    let header = match read(datagram) {
        Ok((header, _)) => header,
        Err(_) => return,
    };
    let count = user_data(datagram).len() as u64;
    for (i, b) in header.blocks.iter().enumerate() {
        let number = i as u32 + 1;
        if b.response.is_some() {
            let _ = receipt(board, &header, number, count);
        } else {
            let _ = post(board, &header, number, count);
        }
    }
}
