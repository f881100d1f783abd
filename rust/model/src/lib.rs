//! Document 01, and requests One, Three to Six and Eight of document 02, retold
//! without circles: numbers are absolute indexes that never roll over, and each
//! keeps its fate for ever. Slow, and meant to be read beside the documents. The
//! models share nothing with the library but the names of the refusals.
//!
//! * [`Secondary`] and [`Master`] answer every call, within the protocol or not.
//! * [`Watch`] checks demand 3 on a whole bearer, packet by packet, and [`Pair`]
//!   is such a bearer of the library under watch.

pub mod demand;
pub mod master;
pub mod pair;
pub mod secondary;

pub use demand::Watch;
pub use master::Master;
pub use pair::Pair;
pub use secondary::Secondary;

/// The sizes of a bearer's circles, and where its numbers begin.
#[derive(Clone, Copy, Debug)]
pub struct Opening {
    /// L.
    pub bits: u32,
    /// The number of packet 0.
    pub first: u64,
    /// The PDCP number f.
    pub first_pdcp: u64,
}

impl Opening {
    /// M.
    #[must_use]
    pub fn numbers(&self) -> u64 {
        if self.bits == 18 { 16_777_216 } else { 65_536 }
    }

    /// 2^L.
    #[must_use]
    pub fn pdcps(&self) -> u64 {
        1 << self.bits
    }

    /// Forward from one PDCP number to another.
    #[must_use]
    pub fn pdcps_forward(&self, from: u32, to: u32) -> u64 {
        (u64::from(to) + self.pdcps() - u64::from(from)) % self.pdcps()
    }

    /// The X2-U number of an index.
    #[must_use]
    pub fn number(&self, index: usize) -> u32 {
        ((self.first + index as u64) % self.numbers()) as u32
    }

    /// The first index from `from` on that has this X2-U number.
    #[must_use]
    pub fn index_from(&self, from: usize, number: u32) -> usize {
        let modulus = self.numbers();
        let start = u64::from(self.number(from));
        from + ((u64::from(number) + modulus - start) % modulus) as usize
    }

    /// The latest index through `last` that has this X2-U number, if one has.
    #[must_use]
    pub fn index_through(&self, last: usize, number: u32) -> Option<usize> {
        let turn_ago = (last + 1).saturating_sub(self.numbers() as usize);
        Some(self.index_from(turn_ago, number)).filter(|&index| index <= last)
    }
}
