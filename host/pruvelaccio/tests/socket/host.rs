//! The example `socket` as a program of its own, to be sent datagrams and lines, and to be listened to.

use std::io::{BufRead, BufReader, Read, Write};
use std::net::UdpSocket;
use std::path::{Path, PathBuf};
use std::process::{Child, ChildStdin, Command, ExitStatus, Stdio};
use std::sync::mpsc::{channel, Receiver};
use std::thread;
use std::time::Duration;

/// A line of the log comes within this time, or not at all.
const PATIENCE: Duration = Duration::from_secs(20);

/// cargo puts the examples beside the tests.
fn program() -> PathBuf {
    let test = std::env::current_exe().expect("a test has a file");
    let program = test.ancestors().nth(2).expect("a profile's folder").join("examples/socket");
    assert!(program.is_file(), "{} is missing: cargo build --examples", program.display());
    program
}

/// A file of this test alone, which is not there.
pub fn new_file(name: &str) -> PathBuf {
    let folder = std::env::temp_dir().join(format!("pruvelaccio-{name}-{}", std::process::id()));
    let _ = std::fs::remove_dir_all(&folder);
    std::fs::create_dir_all(&folder).expect("a folder for the test");
    folder.join("pending.table")
}

/// Takes the file's folder away again.
pub fn remove(file: &Path) {
    let _ = std::fs::remove_dir_all(file.parent().expect("a folder"));
}

pub struct Host {
    child: Child,
    lines: ChildStdin,
    log: Receiver<String>,
    radio: UdpSocket,
}

/// Whole lines alone: the last one of a program that was killed may be cut.
fn whole_lines(log: impl Read + Send + 'static) -> Receiver<String> {
    let (sender, receiver) = channel();
    thread::spawn(move || {
        let mut log = BufReader::new(log);
        let mut line = String::new();
        while log.read_line(&mut line).is_ok_and(|octets| octets > 0) {
            let Some(whole) = line.strip_suffix('\n') else { return };
            if sender.send(whole.to_string()).is_err() {
                return;
            }
            line.clear();
        }
    });
    receiver
}

fn spawned(file: &Path) -> (Child, Receiver<String>) {
    let mut child = Command::new(program())
        .arg("127.0.0.1:0")
        .arg(file)
        .stdin(Stdio::piped())
        .stdout(Stdio::piped())
        .stderr(Stdio::piped())
        .spawn()
        .expect("the example");
    let log = whole_lines(child.stderr.take().expect("was asked for"));
    (child, log)
}

/// A host that does not start: its status and the first line of its log.
pub fn refused(file: &Path) -> (ExitStatus, String) {
    let (mut child, log) = spawned(file);
    let line = log.recv_timeout(PATIENCE).expect("words");
    (child.wait().expect("it has ended"), line)
}

impl Host {
    /// Starts the host with a file, and waits until it has its socket.
    pub fn start(file: &Path) -> Host {
        let (mut child, log) = spawned(file);
        let line = log.recv_timeout(PATIENCE).expect("a host that starts");
        let address = line.strip_prefix("waiting at ").expect(&line);
        let radio = UdpSocket::bind("127.0.0.1:0").expect("a port of the loopback");
        radio.connect(address).expect("the host's address");
        let lines = child.stdin.take().expect("was asked for");
        Host { child, lines, log, radio }
    }

    pub fn send(&self, datagram: &[u8]) {
        let _ = self.radio.send(datagram);
    }

    pub fn say(&mut self, line: &str) {
        let _ = self.lines.write_all(format!("{line}\n").as_bytes());
    }

    /// The next line of the log.
    pub fn logged(&self) -> String {
        self.log.recv_timeout(PATIENCE).expect("a line of the log")
    }

    /// Stops the host at once; what its log has said.
    pub fn kill(mut self) -> Vec<String> {
        self.child.kill().expect("a host that runs");
        self.child.wait().expect("a host that was killed");
        self.log.iter().collect()
    }

    /// Ends the host; what it has printed.
    pub fn end(mut self) -> String {
        self.say("end");
        let mut printed = String::new();
        let out = self.child.stdout.as_mut().expect("was asked for");
        out.read_to_string(&mut printed).expect("characters");
        assert!(self.child.wait().expect("it has ended").success());
        printed
    }
}
