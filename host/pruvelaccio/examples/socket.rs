//! A host on a UDP socket that keeps its table in a file.
//!
//! `socket 127.0.0.1:4700 pending.table` waits at that address. Each block of a datagram goes into the table: as a
//! receipt where it has G8, as a posting otherwise. What is refused changes nothing. Standard input takes the lines
//! `list` (prints the listing), `release N` (takes the N-th row out) and `end`.
//!
//! The log is standard error. What a call did is logged once the file holds it, so that whatever the log says is still
//! there after the host was killed: the table is written to a new file, which then takes the place of the old one. The
//! host starts from the file if there is one; octets of another layout are refused and left alone. Without a file the
//! table is kept in memory alone.
//!
//! Without an address the host takes a free port of the loopback, sends itself a message, a datagram of no octets and
//! the receipt that answers the message, and prints the listing.

use std::error::Error;
use std::ffi::OsString;
use std::fs::{self, File};
use std::io::{self, BufRead, ErrorKind, Write};
use std::net::UdpSocket;
use std::path::{Path, PathBuf};
use std::process::ExitCode;
use std::sync::mpsc::{sync_channel, SyncSender};
use std::thread;

use pruvelaccio::{read, Address, Header, Key, Refusal, Table};

/// The longest datagram that UDP carries over IPv4.
const LONGEST: usize = 65_507;

/// What may wait for the host; further datagrams wait in the system, or are lost there.
const WAITING: usize = 64;

/// URN 207 to URN 3 with a machine request and one octet of data: document 01's B.
const MESSAGE: [u8; 17] =
    [0xE2, 0x67, 0, 0, 0x1D, 0, 0, 0, 0x01, 0, 0xC1, 0x37, 0xE0, 0x76, 0x33, 0, 0x01];

/// URN 3 to URN 207, which it answers with code 1: document 01's C.
const RECEIPT: [u8; 16] =
    [0xE2, 0x01, 0, 0, 0x7D, 0x06, 0, 0, 0x01, 0, 0x08, 0xBE, 0x01, 0xB7, 0x5B, 0];

type Outcome<T> = Result<T, Box<dyn Error>>;

/// One write for a whole line, so that no line is cut in two.
fn log(line: &str) {
    let _ = io::stderr().write_all(format!("{line}\n").as_bytes());
}

// ---------------------------------------------------------------------------
// The file

fn new_name(path: &Path) -> PathBuf {
    let mut name = OsString::from(path);
    name.push(".new");
    PathBuf::from(name)
}

fn folder(path: &Path) -> &Path {
    path.parent().filter(|folder| !folder.as_os_str().is_empty()).unwrap_or(Path::new("."))
}

/// Whatever moment the host is stopped at, the name stands for the old octets or for the new ones, all of them.
fn save(path: &Path, octets: &[u8]) -> io::Result<()> {
    let new = new_name(path);
    let mut file = File::create(&new)?;
    file.write_all(octets)?;
    file.sync_all()?;
    fs::rename(&new, path)?;
    File::open(folder(path))?.sync_all()
}

fn load(path: &Path) -> Outcome<Box<Table>> {
    let told = |words: &dyn std::fmt::Display| format!("{}: {words}", path.display());
    let octets = match fs::read(path) {
        Ok(octets) => octets,
        Err(fault) if fault.kind() == ErrorKind::NotFound => return Ok(Box::new(Table::empty())),
        Err(fault) => return Err(told(&fault).into()),
    };
    let table = Box::new(Table::from_octets(&octets).map_err(|fault| told(&fault))?);
    // Row 0 is refused for a table that is not well formed, and for nothing else.
    table.list_row(0, &mut [0; 4096]).map_err(|refusal| told(&refusal))?;
    Ok(table)
}

// ---------------------------------------------------------------------------
// The host

struct Host {
    table: Box<Table>,
    file: Option<PathBuf>,
}

fn words(address: &Address) -> String {
    if address.urn.present {
        return address.urn.value.to_string();
    }
    let text = &address.name.text;
    format!("{:?}", String::from_utf8_lossy(&text.chars[..text.len as usize]))
}

/// A key as the listing has it, but for characters that are escaped there.
fn key_words(Key { address, stamp }: &Key) -> String {
    let (date, time) = (stamp.dtg.date, stamp.dtg.time);
    let date = format!("{:02}-{:02}-{:02}", date.year, date.month, date.day);
    let time = format!("{:02}:{:02}:{:02}", time.hour, time.minute, time.second);
    let extension = match stamp.extension.present {
        true => stamp.extension.value.to_string(),
        false => "-".to_string(),
    };
    format!("{} {date} {time} {extension}", words(address))
}

/// Enters a block: what was done, in words.
fn enter(table: &mut Table, header: &Header, number: u32, count: usize) -> Result<String, Refusal> {
    let block = &header.blocks.list[number as usize - 1];
    let originator = header.front.originator.address;
    if block.response.present {
        table.receipt(header, number, count)?;
        let asker = header.front.recipients.addresses.list[0];
        let key = Key::new(asker, block.response.response.stamp);
        return Ok(format!("settled {} by {}", key_words(&key), words(&originator)));
    }
    table.post(header, number, count)?;
    Ok(format!("posted {}", key_words(&Key::new(originator, block.times.origin.stamp))))
}

impl Host {
    /// Enters a datagram's blocks.
    fn take(&mut self, datagram: &[u8]) -> io::Result<()> {
        let got = match read(datagram) {
            Ok(got) => got,
            Err(refusal) => {
                log(&format!("a datagram of {} octets: {refusal}", datagram.len()));
                return Ok(());
            }
        };
        let count = datagram.len() - got.length;
        let mut done = Vec::new();
        for number in 1..=got.header.blocks.count {
            match enter(&mut self.table, &got.header, number, count) {
                Ok(words) => done.push(words),
                Err(refusal) => log(&format!("block {number}: {refusal}")),
            }
        }
        self.keep(&done)
    }

    /// Nothing is said to be done before it is kept.
    fn keep(&self, done: &[String]) -> io::Result<()> {
        if let Some(path) = self.file.as_ref().filter(|_| !done.is_empty()) {
            save(path, &self.table.to_octets())?;
        }
        done.iter().for_each(|words| log(words));
        Ok(())
    }

    /// Does what a line says; false at the end.
    fn obey(&mut self, line: &str) -> io::Result<bool> {
        match line.split_whitespace().collect::<Vec<_>>()[..] {
            ["list"] => self.list(),
            ["release", number] => self.release(number)?,
            ["end"] => return Ok(false),
            _ => log(&format!("no such line: {line:?}; list, release N or end")),
        }
        Ok(true)
    }

    fn list(&self) {
        let mut row = [0; 4096];
        for number in 0..=self.table.count {
            match self.table.list_row(number, &mut row) {
                Ok(octets) => print!("{}", String::from_utf8_lossy(&row[..octets])),
                Err(refusal) => log(&format!("row {number}: {refusal}")),
            }
        }
    }

    fn release(&mut self, number: &str) -> io::Result<()> {
        let held = 1..=self.table.count as usize;
        let Some(row) = number.parse().ok().filter(|row| held.contains(row)) else {
            log(&format!("no row {number:?}: the table has {}", self.table.count));
            return Ok(());
        };
        let key = self.table.rows[row - 1].key;
        match self.table.release(&key) {
            Ok(()) => self.keep(&[format!("released {}", key_words(&key))]),
            Err(refusal) => {
                log(&format!("row {row}: {refusal}"));
                Ok(())
            }
        }
    }
}

// ---------------------------------------------------------------------------
// What comes in

enum Event {
    Datagram(Vec<u8>),
    Line(String),
    Fault(io::Error),
}

fn receive(socket: &UdpSocket, events: &SyncSender<Event>) {
    let mut datagram = vec![0; LONGEST];
    loop {
        let event = match socket.recv_from(&mut datagram) {
            Ok((octets, _)) => Event::Datagram(datagram[..octets].to_vec()),
            Err(fault) if fault.kind() == ErrorKind::Interrupted => continue,
            Err(fault) => Event::Fault(fault),
        };
        if events.send(event).is_err() {
            return;
        }
    }
}

/// Where the lines end, nothing more is asked for, and the host goes on.
fn read_lines(events: &SyncSender<Event>) {
    for line in io::stdin().lock().lines().map_while(Result::ok) {
        if events.send(Event::Line(line)).is_err() {
            return;
        }
    }
}

fn serve(host: &mut Host, address: &str) -> Outcome<()> {
    let socket = UdpSocket::bind(address)?;
    log(&format!("waiting at {}", socket.local_addr()?));
    let (sender, events) = sync_channel(WAITING);
    let lines = sender.clone();
    thread::spawn(move || receive(&socket, &sender));
    thread::spawn(move || read_lines(&lines));
    for event in events {
        match event {
            Event::Datagram(octets) => host.take(&octets)?,
            Event::Line(line) => {
                if !host.obey(&line)? {
                    break;
                }
            }
            Event::Fault(fault) => return Err(fault.into()),
        }
    }
    Ok(())
}

/// Traffic of its own over the loopback, then the listing.
fn show(host: &mut Host) -> Outcome<()> {
    let socket = UdpSocket::bind("127.0.0.1:0")?;
    let radio = UdpSocket::bind("127.0.0.1:0")?;
    radio.connect(socket.local_addr()?)?;
    let mut datagram = vec![0; LONGEST];
    for sent in [&MESSAGE[..], &[], &RECEIPT] {
        radio.send(sent)?;
        let (octets, _) = socket.recv_from(&mut datagram)?;
        host.take(&datagram[..octets])?;
    }
    host.list();
    Ok(())
}

fn run() -> Outcome<()> {
    let mut words = std::env::args_os().skip(1);
    let (address, file) = (words.next(), words.next().map(PathBuf::from));
    let table = file.as_deref().map_or_else(|| Ok(Box::new(Table::empty())), load)?;
    let mut host = Host { table, file };
    match address {
        Some(address) => serve(&mut host, &address.to_string_lossy()),
        None => show(&mut host),
    }
}

fn main() -> ExitCode {
    match run() {
        Ok(()) => ExitCode::SUCCESS,
        Err(fault) => {
            log(&format!("socket: {fault}"));
            ExitCode::FAILURE
        }
    }
}
