//! Numbers on a circle. They are never compared as plain integers: only the
//! forward distance between two of them means anything once they roll over.

/// How a number lies, seen from another.
#[derive(Clone, Copy, Debug, PartialEq, Eq, Hash)]
pub enum Lies {
    /// They are one number.
    Same,
    /// It is less than half the circle forward.
    Ahead,
    /// It is more than half the circle forward, so less than half back.
    Behind,
    /// It is half the circle away, forward and back.
    Opposite,
}

impl Lies {
    /// Whether what is held, seen so from base, lies before it: what is
    /// opposite still does.
    #[must_use]
    pub const fn is_before(self) -> bool {
        matches!(self, Self::Behind | Self::Opposite)
    }
}

/// The numbers from 0 to 2^bits - 1, with 0 following the last.
#[derive(Clone, Copy, Debug, PartialEq, Eq)]
pub struct Circle {
    mask: u32,
}

impl Circle {
    /// The circle of `2^bits` numbers, for 1 to 31 bits.
    pub(crate) const fn of_bits(bits: u32) -> Self {
        assert!(0 < bits && bits < 32);
        Self {
            mask: (1 << bits) - 1,
        }
    }

    /// How many numbers there are.
    #[must_use]
    pub const fn size(self) -> u32 {
        self.mask + 1
    }

    /// Half of them: at this forward distance a number lies opposite.
    #[must_use]
    pub const fn half(self) -> u32 {
        self.size() / 2
    }

    /// Whether `number` is on the circle at all.
    #[must_use]
    pub const fn holds(self, number: u32) -> bool {
        number <= self.mask
    }

    /// Steps forward from `from` to `to`.
    #[must_use]
    pub const fn forward(self, from: u32, to: u32) -> u32 {
        to.wrapping_sub(from) & self.mask
    }

    /// The number `steps` forward of `from`.
    #[must_use]
    pub const fn step(self, from: u32, steps: u32) -> u32 {
        from.wrapping_add(steps) & self.mask
    }

    /// The number just before `number`.
    #[must_use]
    pub const fn before(self, number: u32) -> u32 {
        number.wrapping_sub(1) & self.mask
    }

    /// How `to` lies, seen from `from`.
    #[must_use]
    pub const fn compare(self, from: u32, to: u32) -> Lies {
        let forward = self.forward(from, to);
        // Half is asked first: mostly it matters only on which side of it.
        if forward < self.half() {
            if forward == 0 {
                Lies::Same
            } else {
                Lies::Ahead
            }
        } else if forward == self.half() {
            Lies::Opposite
        } else {
            Lies::Behind
        }
    }
}
