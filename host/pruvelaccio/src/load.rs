//! Structs from octets and back: bare octets in the struct's own layout, and saved ones, which begin with the number of
//! the layout and are what a file holds. What a struct says is not judged here: that is done by each call.

use std::fmt;
use std::mem::{offset_of, size_of};

use crate::layout::{KEY, LAYOUT, RECORD, TABLE};
use crate::octets::{KeyOctets, RecordOctets, TableOctets};
use crate::record::*;

/// Why saved octets are not loaded.
#[derive(Clone, Copy, Debug, PartialEq, Eq)]
pub enum LoadFault {
    /// They were saved with another layout.
    OtherLayout { expected: u32, found: u32 },
    /// There are more octets than were saved, or fewer.
    WrongSize { expected: usize, found: usize },
}

impl fmt::Display for LoadFault {
    fn fmt(&self, f: &mut fmt::Formatter<'_>) -> fmt::Result {
        match self {
            LoadFault::OtherLayout { expected, found } => {
                write!(f, "saved with layout {found}, where this is layout {expected}")
            }
            LoadFault::WrongSize { expected, found } => {
                write!(f, "{found} octets where there should be {expected}")
            }
        }
    }
}

impl std::error::Error for LoadFault {}

/// A part of a struct, at some offset of the whole struct's octets. Padding belongs to no cell, so it is neither
/// read from a struct nor written.
trait Cell: Copy {
    const ZERO: Self;

    /// A flag is set unless its octet is 0.
    fn load(octets: &[u8], at: usize) -> Self;

    fn save(&self, octets: &mut [u8], at: usize);
}

impl Cell for bool {
    const ZERO: bool = false;

    fn load(octets: &[u8], at: usize) -> bool {
        octets[at] != 0
    }

    fn save(&self, octets: &mut [u8], at: usize) {
        octets[at] = u8::from(*self);
    }
}

impl Cell for u8 {
    const ZERO: u8 = 0;

    fn load(octets: &[u8], at: usize) -> u8 {
        octets[at]
    }

    fn save(&self, octets: &mut [u8], at: usize) {
        octets[at] = *self;
    }
}

impl Cell for u32 {
    const ZERO: u32 = 0;

    fn load(octets: &[u8], at: usize) -> u32 {
        u32::from_le_bytes([octets[at], octets[at + 1], octets[at + 2], octets[at + 3]])
    }

    fn save(&self, octets: &mut [u8], at: usize) {
        octets[at..at + 4].copy_from_slice(&self.to_le_bytes());
    }
}

impl<T: Cell, const N: usize> Cell for [T; N] {
    const ZERO: [T; N] = [T::ZERO; N];

    fn load(octets: &[u8], at: usize) -> [T; N] {
        std::array::from_fn(|i| T::load(octets, at + i * size_of::<T>()))
    }

    fn save(&self, octets: &mut [u8], at: usize) {
        for (i, cell) in self.iter().enumerate() {
            cell.save(octets, at + i * size_of::<T>());
        }
    }
}

/// A struct is walked field by field, in the order of its octets. A field left out here would not compile.
macro_rules! cells {
    ($($name:ident { $($field:ident),+ })+) => { $(
        impl Cell for $name {
            const ZERO: $name = $name { $($field: Cell::ZERO),+ };

            fn load(octets: &[u8], at: usize) -> $name {
                $name { $($field: Cell::load(octets, at + offset_of!($name, $field))),+ }
            }

            fn save(&self, octets: &mut [u8], at: usize) {
                let $name { $($field),+ } = self;
                $($field.save(octets, at + offset_of!($name, $field));)+
            }
        }
    )+ };
}

crate::each_struct!(cells);

macro_rules! whole {
    ($($name:ident, $octets:ident of $size:ident)+) => { $(
        impl $name {
            /// Every cell 0, and so unused.
            pub const fn zero() -> $name {
                <$name as Cell>::ZERO
            }
        }

        /// A struct that a host can look at; each flag that is not 0 is set.
        impl From<&$octets> for $name {
            fn from(octets: &$octets) -> $name {
                Cell::load(octets.octets(), 0)
            }
        }

        /// Its octets; those between the cells are 0.
        impl From<&$name> for $octets {
            fn from(whole: &$name) -> $octets {
                let mut octets = [0; $size];
                whole.save(&mut octets, 0);
                $octets::from(octets)
            }
        }
    )+ };
}

whole! {
    Header, RecordOctets of RECORD
    Table, TableOctets of TABLE
    Key, KeyOctets of KEY
}

/// The octets of the number in front.
const NUMBER: usize = size_of::<u32>();

fn save_whole<T: Cell>(whole: &T) -> Vec<u8> {
    let mut octets = vec![0; NUMBER + size_of::<T>()];
    LAYOUT.save(&mut octets, 0);
    whole.save(&mut octets, NUMBER);
    octets
}

/// The number comes before the size, since another layout has another size: whoever is told of one should be told the
/// reason.
fn load_whole<T: Cell>(octets: &[u8]) -> Result<T, LoadFault> {
    let size = LoadFault::WrongSize { expected: NUMBER + size_of::<T>(), found: octets.len() };
    if octets.len() < NUMBER {
        return Err(size);
    }
    let found = u32::load(octets, 0);
    if found != LAYOUT {
        return Err(LoadFault::OtherLayout { expected: LAYOUT, found });
    }
    if octets.len() != NUMBER + size_of::<T>() {
        return Err(size);
    }
    Ok(T::load(octets, NUMBER))
}

macro_rules! saved {
    ($($name:ident)+) => { $(
        impl $name {
            /// From saved octets, all of them; each flag that is not 0 is set.
            pub fn from_octets(octets: &[u8]) -> Result<$name, LoadFault> {
                load_whole(octets)
            }

            /// To be kept in a file: the number of the layout, four octets with the low one first, then the struct's
            /// octets, those between its cells 0. The C header writes and reads the same.
            pub fn to_octets(&self) -> Vec<u8> {
                save_whole(self)
            }
        }
    )+ };
}

saved! { Header Table }
