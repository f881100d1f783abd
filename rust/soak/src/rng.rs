//! A small random number generator (splitmix64), so that a seed gives the same
//! run everywhere.

use std::ops::Range;

/// Where the sequence stands.
#[derive(Clone, Debug)]
pub struct Rng(u64);

impl Rng {
    /// The sequence of that seed.
    #[must_use]
    pub fn new(seed: u64) -> Self {
        Self(seed)
    }

    /// 64 bits.
    pub fn bits(&mut self) -> u64 {
        self.0 = self.0.wrapping_add(0x9E37_79B9_7F4A_7C15);
        let mut mixed = self.0;
        mixed = (mixed ^ mixed >> 30).wrapping_mul(0xBF58_476D_1CE4_E5B9);
        mixed = (mixed ^ mixed >> 27).wrapping_mul(0x94D0_49BB_1331_11EB);
        mixed ^ mixed >> 31
    }

    /// Any 32-bit number.
    pub fn word(&mut self) -> u32 {
        self.bits() as u32
    }

    /// A number in `range`, which is not empty.
    pub fn within(&mut self, range: Range<u32>) -> u32 {
        range.start + (self.bits() % u64::from(range.end - range.start)) as u32
    }

    /// A place in something of `len` items, at least one.
    pub fn place(&mut self, len: usize) -> usize {
        (self.bits() % len as u64) as usize
    }

    /// True in `percent` of all cases.
    pub fn chance(&mut self, percent: u32) -> bool {
        self.within(0..100) < percent
    }

    /// True once in `times` cases.
    pub fn once_in(&mut self, times: u32) -> bool {
        self.within(0..times) == 0
    }

    /// One of `items`.
    pub fn pick<T: Copy>(&mut self, items: &[T]) -> T {
        items[self.place(items.len())]
    }

    /// That many octets.
    pub fn octets(&mut self, count: usize) -> Vec<u8> {
        (0..count).map(|_| self.bits() as u8).collect()
    }
}
