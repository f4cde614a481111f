//! What C saves Rust loads, and the reverse: the octets are the same.

#[allow(dead_code)]
mod support;

use std::io::Write;
use std::path::PathBuf;
use std::process::{Command, Output, Stdio};
use std::sync::OnceLock;

use pruvelaccio::*;
use support::*;

/// Runs host/c/saved.c, which is compiled once, with octets on its standard input.
fn saved_in_c(word: &str, octets: &[u8]) -> Output {
    static PROGRAM: OnceLock<PathBuf> = OnceLock::new();
    let mut child = Command::new(PROGRAM.get_or_init(|| compiled_c("saved")))
        .arg(word)
        .stdin(Stdio::piped())
        .stdout(Stdio::piped())
        .stderr(Stdio::piped())
        .spawn()
        .expect("the program just compiled");
    child.stdin.take().expect("was asked for").write_all(octets).expect("a program that reads");
    child.wait_with_output().expect("a program that ends")
}

/// The record that is read from a datagram, and the table after it was posted.
fn both() -> (Header, Table, Vec<u8>) {
    let mut datagram = header_octets(&message());
    datagram.resize(datagram.len() + MESSAGE_DATA, 0x5A);
    let header = read(&datagram).expect("a valid record").header;
    let mut table = Table::empty();
    table.post(&header, 1, MESSAGE_DATA).expect("a message with requests");
    (header, table, datagram)
}

#[test]
fn c_saves_the_same_octets() {
    let (header, table, datagram) = both();
    let said = saved_in_c("save", &datagram);
    assert!(said.status.success());
    assert_eq!(said.stdout, [header.to_octets(), table.to_octets()].concat());
}

#[test]
fn c_loads_what_rust_saved() {
    let (header, table, _) = both();
    let octets = [header.to_octets(), table.to_octets()].concat();
    let said = saved_in_c("load", &octets);
    assert!(said.status.success());
    assert_eq!(said.stdout, octets);
}

#[test]
fn c_refuses_another_layout() {
    let (header, table, _) = both();
    let mut octets = [header.to_octets(), table.to_octets()].concat();
    octets[0] ^= 2;
    let said = saved_in_c("load", &octets);
    assert!(!said.status.success() && said.stdout.is_empty());
    assert_eq!(said.stderr, b"the octets were saved with another layout\n");
}
