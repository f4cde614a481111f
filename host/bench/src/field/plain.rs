//! Fields by a loop over octet fragments in Rust, every index checked, behind the same test. The proved functions take this
//! loop only for fields that reach into a third octet.

use super::fits::fits;

#[inline(never)]
pub fn read(s: &[u8], at: usize, w: usize) -> u32 {
    assert!(fits(s.len(), at, w));
    let (octet, skip) = (at / 8, at % 8);
    let steps = (skip + w + 7) / 8;
    let (mut number, mut done) = (0u32, 0usize);
    for j in 0..steps {
        let b = (skip + done) % 8;
        let n = (8 - b).min(w - done);
        let f = (u32::from(s[octet + j]) >> b) % (1 << n);
        number += f << done;
        done += n;
    }
    number
}

#[inline(never)]
pub fn write(out: &mut [u8], at: usize, w: usize, v: u32) {
    assert!(fits(out.len(), at, w));
    let (octet, skip) = (at / 8, at % 8);
    let steps = (skip + w + 7) / 8;
    let mut done = 0usize;
    for j in 0..steps {
        let b = (skip + done) % 8;
        let n = (8 - b).min(w - done);
        let f = (v >> done) % (1 << n);
        let x = u32::from(out[octet + j]);
        let (low, high) = (x % (1 << b), x >> (b + n));
        out[octet + j] = (low + (f << b) + (high << (b + n))) as u8;
        done += n;
    }
}
