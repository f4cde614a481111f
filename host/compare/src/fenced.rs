//! Memory between two pages that nobody may touch. What a call is lent stands right beside one of them, so that a call
//! that goes an octet too far, even to look, ends the run; and while a call may only look, the memory cannot be stored
//! to. The system's calls for this are declared here.

use std::ffi::{c_int, c_void};
use std::ops::Range;
use std::sync::Once;

const PAGE: usize = 4096;

const PROT_NONE: c_int = 0;
const PROT_READ: c_int = 1;
const PROT_WRITE: c_int = 2;
const MAP_PRIVATE: c_int = 2;
const MAP_ANONYMOUS: c_int = 0x20;
const SIGSEGV: c_int = 11;

extern "C" {
    fn mmap(
        at: *mut c_void,
        size: usize,
        prot: c_int,
        flags: c_int,
        fd: c_int,
        from: i64,
    ) -> *mut c_void;
    fn mprotect(at: *mut c_void, size: usize, prot: c_int) -> c_int;
    fn munmap(at: *mut c_void, size: usize) -> c_int;
    fn signal(number: c_int, handler: extern "C" fn(c_int)) -> *mut c_void;
    fn write(file: c_int, octets: *const c_void, count: usize) -> isize;
    fn _exit(status: c_int) -> !;
}

/// Nothing but the system's own calls may be made here.
extern "C" fn touched(_: c_int) {
    let text = "compare: FAILED: a call touched memory that it was not lent, or stored to what it may only read\n";
    // SAFETY: pointer and length are those of the text; a handler may make both calls.
    unsafe {
        write(1, text.as_ptr().cast(), text.len());
        _exit(1)
    }
}

/// What stands in the fenced memory beside what is lent.
const PATTERN: u8 = 0xA5;
static PATTERNS: [u8; LARGEST] = [PATTERN; LARGEST];

/// No fenced memory has more octets.
pub const LARGEST: usize = 1 << 17;

/// Which end of the fenced memory is lent: the fence is in front of the first octet or behind the last.
#[derive(Clone, Copy, Debug)]
pub enum Side {
    Front,
    Back,
}

pub struct Fenced {
    start: *mut u8,
    size: usize,
    lent: Range<usize>,
    closed: bool,
}

impl Fenced {
    /// Room for so many octets and, up to a whole page, some more.
    pub fn new(octets: usize) -> Fenced {
        static HANDLER: Once = Once::new();
        // SAFETY: the handler makes the system's own calls alone.
        HANDLER.call_once(|| {
            unsafe { signal(SIGSEGV, touched) };
        });
        let size = octets.next_multiple_of(PAGE);
        assert!(size <= LARGEST);
        let flags = MAP_PRIVATE | MAP_ANONYMOUS;
        // SAFETY: new memory at an address that the system chooses.
        let fence = unsafe { mmap(std::ptr::null_mut(), size + 2 * PAGE, PROT_NONE, flags, -1, 0) };
        assert!(fence as isize != -1, "no memory between fences");
        let start = fence.cast::<u8>().wrapping_add(PAGE);
        let mut fenced = Fenced { start, size, lent: 0..size, closed: true };
        fenced.hold(&[], Side::Front);
        fenced
    }

    fn protect(&mut self, prot: c_int) {
        // SAFETY: whole pages of our own memory, to which nobody else has a reference.
        let done = unsafe { mprotect(self.start.cast(), self.size, prot) };
        assert_eq!(done, 0, "mprotect");
    }

    /// From now on a store ends the run.
    pub fn close(&mut self) {
        if !self.closed {
            self.protect(PROT_READ);
        }
        self.closed = true;
    }

    fn open(&mut self) {
        if self.closed {
            self.protect(PROT_READ | PROT_WRITE);
        }
        self.closed = false;
    }

    /// Puts octets to one end, to be lent there; everywhere else is the pattern.
    pub fn hold(&mut self, octets: &[u8], side: Side) {
        self.open();
        self.lent_mut().fill(PATTERN);
        let length = octets.len();
        assert!(length <= self.size);
        self.lent = match side {
            Side::Front => 0..length,
            Side::Back => self.size - length..self.size,
        };
        self.lent_mut().copy_from_slice(octets);
    }

    pub fn lent(&self) -> &[u8] {
        // SAFETY: a part of our own memory, which can always be read.
        unsafe { std::slice::from_raw_parts(self.start.add(self.lent.start), self.lent.len()) }
    }

    pub fn lent_mut(&mut self) -> &mut [u8] {
        // SAFETY: as in `lent`; while the memory is closed nobody is to store there, and that is what is tried.
        unsafe { std::slice::from_raw_parts_mut(self.start.add(self.lent.start), self.lent.len()) }
    }

    /// Whether the octets beside those that were lent are as they were.
    pub fn intact(&self) -> Result<(), String> {
        // SAFETY: as in `lent`.
        let all = unsafe { std::slice::from_raw_parts(self.start, self.size) };
        let (front, back) = (&all[..self.lent.start], &all[self.lent.end..]);
        if front == &PATTERNS[..front.len()] && back == &PATTERNS[..back.len()] {
            return Ok(());
        }
        Err("an octet beside those that were lent has changed".to_string())
    }
}

impl Drop for Fenced {
    fn drop(&mut self) {
        // SAFETY: what `new` got, and no reference to it is left.
        unsafe { munmap(self.start.wrapping_sub(PAGE).cast(), self.size + 2 * PAGE) };
    }
}
