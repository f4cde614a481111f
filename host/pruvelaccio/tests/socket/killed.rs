//! The example `socket` is killed at random moments under load, and started again from its file: whatever its log said
//! to be posted is there, and whatever it said to be released is not.

use std::fs;
use std::path::Path;
use std::thread::sleep;
use std::time::{Duration, Instant, SystemTime, UNIX_EPOCH};

use pruvelaccio::{write, Address, Block, Dtg, Header, Requests, Stamp, Table};

use crate::host::{new_file, remove, Host};

const KILLS: usize = 200;

/// All kills have to be through by then.
const BOUND: Duration = Duration::from_secs(40);

/// The longest time under load, in microseconds.
const LONGEST: u64 = 60_000;

/// Rows that the table is kept at while there is load.
const ROWS: usize = 16;

/// Messages are numbered, and their keys are in the order of their numbers: the number of extensions for each second.
const EXTENSIONS: u32 = 4096;

fn stamp(number: u32) -> Stamp {
    let seconds = number / EXTENSIONS;
    let dtg = Dtg::new([96, 7, 3], [16, seconds / 60, seconds % 60]);
    Stamp::new(dtg).with_extension(number % EXTENSIONS)
}

fn number(minute: u32, second: u32, extension: u32) -> u32 {
    (minute * 60 + second) * EXTENSIONS + extension
}

fn datagram(number: u32) -> Vec<u8> {
    let asked = Requests { machine: true, acknowledge: false, reply: true };
    let header = Header::new(&[Block::new(2).with_origin(stamp(number)).with_requests(asked)])
        .with_originator(Address::urn(207))
        .with_recipients(&[Address::urn(3), Address::urn(4)]);
    let mut out = [0; 64];
    let length = write(&header, 1, &mut out).expect("a valid record");
    out[..length + 1].to_vec()
}

/// The number in a line like `posted 207 96-07-03 16:01:02 77`.
fn number_in(words: &[&str]) -> u32 {
    let ["207", "96-07-03", time, extension] = words else { panic!("{words:?}") };
    let time: Vec<u32> = time.split(':').map(|part| part.parse().expect("a number")).collect();
    number(time[1], time[2], extension.parse().expect("a number"))
}

/// The numbers of the rows that the file holds; none where there is no file yet.
fn kept(file: &Path) -> Vec<u32> {
    let Ok(octets) = fs::read(file) else { return Vec::new() };
    let table = Table::from_octets(&octets).expect("a saved table");
    assert!(table.list_row(0, &mut [0; 16]).is_ok(), "a well-formed table");
    let rows = table.rows[..table.count as usize].iter();
    rows.map(|row| {
        let stamp = row.key.stamp;
        number(stamp.dtg.time.minute, stamp.dtg.time.second, stamp.extension.value)
    })
    .collect()
}

/// What was held before and what the log says since; and whether a release may be under way.
fn told(before: &[u32], log: &[String], releases: usize) -> (Vec<u32>, bool) {
    let mut held = before.to_vec();
    let mut released = 0;
    for line in log {
        match &line.split(' ').collect::<Vec<_>>()[..] {
            ["posted", key @ ..] => held.push(number_in(key)),
            ["released", key @ ..] => {
                assert_eq!(held.remove(0), number_in(key), "the first row is released");
                released += 1;
            }
            _ => {}
        }
    }
    (held, releases > released)
}

/// The file holds what the log says, or that and the one call more that was done when the host was killed: a posting
/// behind all others, or a release of the first row.
fn nothing_lost(told: &[u32], releasing: bool, kept: &[u32], sent: u32) -> bool {
    let posted = kept.split_last().is_some_and(|(last, rest)| {
        rest == told && *last < sent && told.iter().all(|number| number < last)
    });
    kept == told || posted || releasing && told.get(1..) == Some(kept)
}

struct Random(u64);

impl Random {
    fn below(&mut self, limit: u64) -> u64 {
        self.0 ^= self.0 << 13;
        self.0 ^= self.0 >> 7;
        self.0 ^= self.0 << 17;
        self.0 % limit
    }
}

/// Postings and releases, and now and then a datagram of no octets, until the time is over: the releases asked for.
fn load(host: &mut Host, rows: usize, sent: &mut u32, time: Duration) -> usize {
    let (start, first) = (Instant::now(), *sent);
    let mut releases = 0;
    while start.elapsed() < time {
        host.send(&datagram(*sent));
        *sent += 1;
        if rows + (*sent - first) as usize - releases > ROWS {
            host.say("release 1");
            releases += 1;
        }
        if *sent % 16 == 0 {
            host.send(&[]);
        }
        sleep(Duration::from_micros(20));
    }
    releases
}

#[test]
fn what_the_log_said_is_there_after_a_kill() {
    let clock = SystemTime::now().duration_since(UNIX_EPOCH).expect("a clock").as_nanos() as u64;
    let (file, start) = (new_file("killed"), Instant::now());
    let (mut random, mut sent) = (Random(clock | 1), 0);
    let (mut held, mut ahead, mut lines) = (Vec::new(), 0, 0);
    for kill in 0..KILLS {
        assert!(start.elapsed() < BOUND, "only {kill} kills in {BOUND:?}");
        let mut host = Host::start(&file);
        let time = Duration::from_micros(random.below(LONGEST));
        let releases = load(&mut host, held.len(), &mut sent, time);
        let log = host.kill();
        let (told, releasing) = told(&held, &log, releases);
        let kept = kept(&file);
        let words = format!("kill {kill}, seed {clock}: told {told:?}, kept {kept:?}");
        assert!(nothing_lost(&told, releasing, &kept, sent), "{words}");
        ahead += usize::from(kept != told);
        lines += log.len();
        held = kept;
    }
    let seconds = start.elapsed().as_secs_f64();
    println!("{KILLS} kills, {sent} datagrams, {lines} lines, {ahead} kills ahead of the log, {seconds:.1} s");
    assert!(lines > KILLS / 2, "a host that does nothing loses nothing");
    remove(&file);
}
