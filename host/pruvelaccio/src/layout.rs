//! The number of the layout, the octets of the structs that go over to the library, and the mark that ties a program to a library of the same
//! layout. Written by layout/generate.py.

/// The number of the layout. Saved octets begin with it.
pub const LAYOUT: u32 = 1;

/// The octets of a record.
pub const RECORD: usize = 16_312;

/// The octets of a table.
pub const TABLE: usize = 50_948;

/// The octets of a key.
pub const KEY: usize = 112;

extern "C" {
    /// The library's mark of the same number: a library of another layout has another name there, and does not link.
    pub fn pruvelaccio_layout_1() -> u32;
}

#[used]
static MARK: unsafe extern "C" fn() -> u32 = pruvelaccio_layout_1;
