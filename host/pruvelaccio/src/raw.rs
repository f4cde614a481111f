//! The exported functions as the static library has them: a record, a table and a key as a pointer to their octets, which
//! need not be aligned, another slice as a pointer and a length. The safe calls of this crate stand over them; a host
//! needs them only for what a safe call leaves out beside a refusal.
//!
//! What a function stores to lies apart from everything else that is lent to the same call.

use crate::layout::{KEY, RECORD, TABLE};

/// Number 0: done, with 0 in block and place. Otherwise a refusal with its message block and its bit place.
#[repr(C)]
#[derive(Clone, Copy, Debug, PartialEq, Eq)]
pub struct Answer {
    pub number: u32,
    pub block: u32,
    pub place: usize,
}

/// The same with a length, which is 0 beside a refusal.
#[repr(C)]
#[derive(Clone, Copy, Debug, PartialEq, Eq)]
pub struct SizeAnswer {
    pub number: u32,
    pub block: u32,
    pub place: usize,
    pub length: usize,
}

extern "C" {
    pub fn pruvelaccio_read_octets(
        datagram: *const u8,
        length: usize,
        header: *mut [u8; RECORD],
    ) -> SizeAnswer;
    pub fn pruvelaccio_data_start(datagram: *const u8, length: usize) -> usize;
    pub fn pruvelaccio_check_octets(header: *const [u8; RECORD], count: usize) -> SizeAnswer;
    pub fn pruvelaccio_write_octets(
        header: *const [u8; RECORD],
        count: usize,
        out: *mut u8,
        room: usize,
    ) -> SizeAnswer;
    pub fn pruvelaccio_empty_octets(table: *mut [u8; TABLE]);
    pub fn pruvelaccio_post_octets(
        table: *mut [u8; TABLE],
        header: *const [u8; RECORD],
        number: u32,
        count: usize,
    ) -> Answer;
    pub fn pruvelaccio_receipt_octets(
        table: *mut [u8; TABLE],
        header: *const [u8; RECORD],
        number: u32,
        count: usize,
    ) -> Answer;
    pub fn pruvelaccio_release_octets(table: *mut [u8; TABLE], key: *const [u8; KEY]) -> Answer;
    pub fn pruvelaccio_list_row_octets(
        table: *const [u8; TABLE],
        number: u32,
        out: *mut u8,
        room: usize,
    ) -> SizeAnswer;
}
