//! The proved field functions behind safe wrappers, which test what the contracts require.

use super::fits::fits;

#[cfg(field_library)]
mod ffi {
    extern "C" {
        pub fn field_bench_read(s: *const u8, len: usize, at: usize, w: usize) -> u32;
        pub fn field_bench_write(out: *mut u8, len: usize, at: usize, w: usize, v: u32);
    }
}

/// Without the library nothing calls these; the rest of this part still compiles.
#[cfg(not(field_library))]
mod ffi {
    pub unsafe fn field_bench_read(_: *const u8, _: usize, _: usize, _: usize) -> u32 {
        unreachable!("libfield_bench.a is not linked")
    }

    pub unsafe fn field_bench_write(_: *mut u8, _: usize, _: usize, _: usize, _: u32) {
        unreachable!("libfield_bench.a is not linked")
    }
}

#[inline(never)]
pub fn read(s: &[u8], at: usize, w: usize) -> u32 {
    assert!(fits(s.len(), at, w));
    unsafe { ffi::field_bench_read(s.as_ptr(), s.len(), at, w) }
}

#[inline(never)]
pub fn write(out: &mut [u8], at: usize, w: usize, v: u32) {
    assert!(fits(out.len(), at, w));
    unsafe { ffi::field_bench_write(out.as_mut_ptr(), out.len(), at, w, v) }
}
