//! The program `pending_list`: what it prints against what the second program's function gives.

use std::io::{Read, Write};
use std::path::PathBuf;
use std::process::{Child, Command, Stdio};

use reference::{Address, Key};

use crate::damage::misdate;
use crate::datagrams;
use crate::emit::Extra;
use crate::pool::{self, Pool};
use crate::random::Random;
use crate::records::{self, Case};
use crate::run::{caught, Run};

pub fn path() -> PathBuf {
    PathBuf::from(env!("CARGO_MANIFEST_DIR")).join("../../target/bin/pending_list")
}

/// Runs the program. The input goes in beside the reading, so that neither waits for the other.
fn printed(input: &[u8]) -> std::io::Result<Vec<u8>> {
    let mut command = Command::new(path());
    let mut child: Child = command.stdin(Stdio::piped()).stdout(Stdio::piped()).spawn()?;
    let mut stdin = child.stdin.take().expect("was asked for");
    let mut stdout = child.stdout.take().expect("was asked for");
    let mut output = Vec::new();
    let sent = std::thread::scope(|scope| {
        let sending = scope.spawn(move || stdin.write_all(input));
        let read = stdout.read_to_end(&mut output);
        sending.join().expect("writing does not panic").and(read)
    });
    let status = child.wait()?;
    sent?;
    if !status.success() {
        return Err(std::io::Error::other(format!("ended with {status}")));
    }
    Ok(output)
}

pub fn same_output(what: &str, expected: &[u8], got: &[u8]) -> Result<(), String> {
    if expected == got {
        return Ok(());
    }
    let texts = (String::from_utf8_lossy(expected), String::from_utf8_lossy(got));
    Err(format!("pending_list\n{what}:\n{}\npending_list:\n{}", texts.0, texts.1))
}

/// Against the second program and, where there is one, against a text worked out beforehand.
pub fn compare(run: &mut Run, input: &[u8], worked: Option<&str>) -> Result<(), String> {
    run.tally.programs += 1;
    let shown = |text| format!("{text}\ninput: {}", String::from_utf8_lossy(input));
    caught(|| print_and_compare(input, worked)).map_err(shown)
}

fn print_and_compare(input: &[u8], worked: Option<&str>) -> Result<(), String> {
    let got = printed(input).map_err(|fault| format!("{}: {fault}", path().display()))?;
    same_output("second program", &reference::program(input), &got)?;
    worked.map_or(Ok(()), |text| same_output("worked out", text.as_bytes(), &got))
}

// ---------------------------------------------------------------------------
// Inputs made at random

pub fn digits(octets: &[u8], random: &mut Random) -> Vec<u8> {
    let way = random.below(3);
    let mut line = Vec::with_capacity(octets.len() * 2 + 1);
    for octet in octets {
        for value in [octet >> 4, octet & 15] {
            let upper = way == 0 || (way == 2 && random.coin());
            let set = if upper { b"0123456789ABCDEF" } else { b"0123456789abcdef" };
            line.push(set[value as usize]);
        }
    }
    line
}

/// A line made into one that must be skipped, or a blank one.
fn spoiled(mut line: Vec<u8>, random: &mut Random) -> Vec<u8> {
    let at = random.index(line.len());
    match random.below(7) {
        0 => line.push(b'\r'),
        1 => line.insert(at, b' '),
        2 => drop(line.remove(at)),
        3 => line[at] = *random.pick(b"gG/:@`x\0\x7F\xFF"),
        4 => line.push(b'0'),
        5 => line.insert(0, b'\t'),
        _ => line.clear(),
    }
    line
}

/// What was posted so far, so that receipts can answer it.
struct Sent {
    key: Key,
    recipients: Vec<Address>,
}

fn remember(sent: &mut Vec<Sent>, case: &Case) {
    let Some(address) = &case.record.originator else { return };
    for stamp in case.record.blocks.iter().filter_map(|block| block.stamp.clone()) {
        let key = Key { address: address.clone(), stamp };
        let recipients = case.record.recipients.clone().unwrap_or_default();
        sent.push(Sent { key, recipients });
    }
}

fn answer(pool: &Pool, sent: &[Sent], random: &mut Random) -> Case {
    let mut key = pool.key(random);
    let mut answerer = pool.address(random);
    if !sent.is_empty() {
        let sent = random.pick(sent);
        key = sent.key.clone();
        if !sent.recipients.is_empty() && random.below(8) > 0 {
            answerer = random.pick(&sent.recipients).clone();
        }
    }
    pool::receipt(key, answerer, random)
}

fn line(pool: &Pool, sent: &mut Vec<Sent>, random: &mut Random) -> Vec<u8> {
    let kind = random.below(16);
    let case = match kind {
        0..=4 => answer(pool, sent, random),
        5 => records::case(random),
        6 => misdate(pool::message(pool, random), random),
        _ => pool::message(pool, random),
    };
    remember(sent, &case);
    let mut datagram = datagrams::of_record(&case, Extra::default(), random);
    if kind == 15 {
        datagram = datagrams::changed(&datagram, random);
    }
    let line = digits(&datagram, random);
    if kind == 14 {
        return spoiled(line, random);
    }
    line
}

pub fn generated(random: &mut Random) -> Vec<u8> {
    let pool = Pool::new(random);
    let mut sent = Vec::new();
    let mut input = Vec::new();
    for _ in 0..*random.pick(&[1, 5, 20, 40, 80, 120]) {
        input.extend(line(&pool, &mut sent, random));
        input.push(b'\n');
    }
    if random.coin() {
        input.pop();
    }
    input
}
