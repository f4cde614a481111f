//! The cells of the product's structs, each of them named once: a struct of zeros, the first cell in which two
//! structs differ, and a way to come by every cell with its place among the struct's octets. The wrapper hands over
//! every struct with its fields.

use std::mem::{offset_of, size_of};

use pruvelaccio::*;

/// A cell that can be changed.
pub enum Cell<'a> {
    Flag(&'a mut bool),
    Number(&'a mut u32),
    Char(&'a mut u8),
}

pub trait Cells: Copy {
    const ZERO: Self;

    /// The path of the first cell that differs and its two values.
    fn difference(&self, other: &Self) -> Option<String>;

    /// Every cell, with the offset of its first octet; the struct's own octets begin at `at`.
    fn each(&mut self, at: usize, visit: &mut dyn FnMut(usize, Cell));
}

macro_rules! leaf {
    ($type:ty, $zero:expr, $cell:ident) => {
        impl Cells for $type {
            const ZERO: $type = $zero;

            fn difference(&self, other: &$type) -> Option<String> {
                (self != other).then(|| format!(": {self} beside {other}"))
            }

            fn each(&mut self, at: usize, visit: &mut dyn FnMut(usize, Cell)) {
                visit(at, Cell::$cell(self));
            }
        }
    };
}

leaf!(bool, false, Flag);
leaf!(u32, 0, Number);

/// Characters stand by themselves: most cells are characters, and whole arrays compare fast.
impl Cells for [u8; 64] {
    const ZERO: [u8; 64] = [0; 64];

    fn difference(&self, other: &[u8; 64]) -> Option<String> {
        (self != other).then(|| format!(": {self:?} beside {other:?}"))
    }

    fn each(&mut self, at: usize, visit: &mut dyn FnMut(usize, Cell)) {
        self.iter_mut().enumerate().for_each(|(i, c)| visit(at + i, Cell::Char(c)));
    }
}

impl<T: Cells, const N: usize> Cells for [T; N] {
    const ZERO: [T; N] = [T::ZERO; N];

    fn difference(&self, other: &[T; N]) -> Option<String> {
        for (i, (a, b)) in self.iter().zip(other).enumerate() {
            if let Some(rest) = a.difference(b) {
                return Some(format!("[{i}]{rest}"));
            }
        }
        None
    }

    fn each(&mut self, at: usize, visit: &mut dyn FnMut(usize, Cell)) {
        for (i, cell) in self.iter_mut().enumerate() {
            cell.each(at + i * size_of::<T>(), visit);
        }
    }
}

macro_rules! cells {
    ($($type:ident { $($field:ident),+ })+) => { $(
        impl Cells for $type {
            const ZERO: $type = $type { $($field: Cells::ZERO),+ };

            fn difference(&self, other: &$type) -> Option<String> {
                $(if let Some(rest) = self.$field.difference(&other.$field) {
                    return Some(format!(".{}{rest}", stringify!($field)));
                })+
                None
            }

            fn each(&mut self, at: usize, visit: &mut dyn FnMut(usize, Cell)) {
                $(self.$field.each(at + offset_of!($type, $field), visit);)+
            }
        }
    )+ };
}

pruvelaccio::each_struct!(cells);

/// Where the flags, the numbers and the characters of a struct stand.
pub struct Places {
    pub flags: Vec<usize>,
    pub numbers: Vec<usize>,
    pub characters: Vec<usize>,
}

impl Places {
    pub fn of<T: Cells>() -> Places {
        let mut places = Places { flags: Vec::new(), numbers: Vec::new(), characters: Vec::new() };
        let mut whole = T::ZERO;
        whole.each(0, &mut |at, cell| match cell {
            Cell::Flag(_) => places.flags.push(at),
            Cell::Number(_) => places.numbers.push(at),
            Cell::Char(_) => places.characters.push(at),
        });
        places
    }
}
