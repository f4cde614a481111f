//! How bits are taken off octets and put into them: the one thing in which fragments and words differ.

/// Bits put one after another. Full octets are stored; `begun` has the bits of the next one, and 0 behind them.
pub struct Output<'a> {
    pub octets: &'a mut [u8],
    pub place: usize,
    pub begun: u8,
}

/// A place counts bits from the lowest bit of the first octet on. The caller has seen that what is taken or put lies
/// within the octets.
pub trait Way: Copy {
    /// The number in the `width` bits from a place on, 24 at most and one at least.
    fn take(self, octets: &[u8], place: usize, width: usize) -> u32;

    /// Fields that always stand together, 33 bits at most: each by its distance from the place and its width.
    fn together(self, octets: &[u8], place: usize) -> impl Fn(usize, usize) -> u32;

    /// Characters from a place on, one for each cell, or those before the marker: their count.
    fn take_text(self, octets: &[u8], place: usize, cells: &mut [u8]) -> usize;

    /// The bits of a value below 2 to the power of `width`, 33 at most. Fields that always stand together may be joined
    /// in it.
    fn put(self, out: &mut Output, value: u64, width: usize);

    /// Characters below 128, with the marker behind them where the text has one.
    fn put_text(self, out: &mut Output, characters: &[u8], marker: bool);
}
