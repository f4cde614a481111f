//! Records, tables and keys as octets, for a host that holds them and not the structs: as they came from a file, from
//! another program, or out of nowhere.
//!
//! Any octets at all are some record, some table and some key: a flag is set unless its octet is 0, a number is 32 bits
//! with the low octet first, and what is not used carries no meaning. The library takes them as they are. Rust does
//! not: a `bool` of it holds 0 or 1 or is undefined. So there are two forms of each. The structs (`Header`, `Table`,
//! `Key`) are for a host that looks at fields; safe Rust puts nothing into their flags but 0 and 1, the library stores
//! nothing else there, and octets become a struct by `From` alone, which sets each flag that is not 0. The octets
//! (`RecordOctets`, `TableOctets`, `KeyOctets`) may hold anything, and no `bool` is ever made of them where they lie.

use std::fmt;
use std::mem::size_of;

use crate::layout::{KEY, RECORD, TABLE};
use crate::record::{Header, Key, Table};

macro_rules! octets {
    ($($(#[$doc:meta])* $name:ident, $size:ident of $whole:ident)+) => { $(
        // The struct overlays the octets: numbers have their low octet first, no cell is missing or too many.
        const _: () = assert!(size_of::<$whole>() == $size && cfg!(target_endian = "little"));

        $(#[$doc])*
        #[repr(transparent)]
        #[derive(Clone, Copy, PartialEq, Eq)]
        pub struct $name([u8; $size]);

        impl $name {
            /// Every octet 0.
            pub const fn zero() -> $name {
                $name([0; $size])
            }

            /// The octets of a host's own memory, where they lie.
            pub fn lent(octets: &[u8; $size]) -> &$name {
                // SAFETY: the struct is transparent: the octets are all that it has, and any octets may be there.
                unsafe { &*std::ptr::from_ref(octets).cast() }
            }

            /// The same, for a call that changes them.
            pub fn lent_mut(octets: &mut [u8; $size]) -> &mut $name {
                // SAFETY: as in `lent`.
                unsafe { &mut *std::ptr::from_mut(octets).cast() }
            }

            pub const fn octets(&self) -> &[u8; $size] {
                &self.0
            }

            pub fn octets_mut(&mut self) -> &mut [u8; $size] {
                &mut self.0
            }
        }

        impl From<[u8; $size]> for $name {
            fn from(octets: [u8; $size]) -> $name {
                $name(octets)
            }
        }

        /// There are too many to be read by eye, so only the first are shown.
        impl fmt::Debug for $name {
            fn fmt(&self, f: &mut fmt::Formatter<'_>) -> fmt::Result {
                write!(f, "{}({:02x?}..)", stringify!($name), &self.0[..16])
            }
        }

        impl Lent<$size> for $name {}
        impl Lent<$size> for $whole {}
    )+ };
}

octets! {
    /// The octets of a record.
    RecordOctets, RECORD of Header
    /// The octets of a table of pending messages.
    TableOctets, TABLE of Table
    /// The octets of a key.
    KeyOctets, KEY of Key
}

/// What is lent to the library by a pointer to its octets; either form has as many.
pub(crate) trait Lent<const N: usize> {
    /// For the library to read. Octets between the cells of a struct may hold anything: they carry no meaning.
    fn pointer(&self) -> *const [u8; N] {
        std::ptr::from_ref(self).cast()
    }

    /// For the library to change. What is left in a struct has to be a struct again: every flag 0 or 1.
    fn pointer_mut(&mut self) -> *mut [u8; N] {
        std::ptr::from_mut(self).cast()
    }
}
