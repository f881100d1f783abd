//! What both ends of a bearer agree on when they open.

use crate::Answer;
use crate::circle::Circle;
use crate::refusal::{Refusal, refuse_if};

/// Which pair of frame types a bearer uses.
#[derive(Clone, Copy, Debug, PartialEq, Eq)]
pub enum Form {
    /// Types 0 and 1: PDCP numbers of 12 or 15 bits, X2-U numbers of 16.
    Short,
    /// Types 2 and 3: PDCP numbers of 18 bits, X2-U numbers of 24.
    Long,
}

impl Form {
    /// The circle of X2-U numbers.
    #[must_use]
    pub const fn numbers(self) -> Circle {
        match self {
            Self::Short => Circle::of_bits(16),
            Self::Long => Circle::of_bits(24),
        }
    }

    /// The largest highest PDCP number that a status of this form can carry,
    /// whatever the bearer's own length is.
    #[must_use]
    pub const fn largest_highest(self) -> u32 {
        match self {
            Self::Short => 32_767,
            Self::Long => 262_143,
        }
    }
}

/// A bearer's form and number circles.
#[derive(Clone, Copy, Debug, PartialEq, Eq)]
pub struct Bearer {
    /// Which frame types it uses.
    pub form: Form,
    /// The circle of PDCP numbers.
    pub pdcp: Circle,
}

impl Bearer {
    /// Judges an open: the length of PDCP numbers in bits, the first X2-U
    /// number and the first PDCP number.
    pub fn judged(pdcp_bits: u32, first: u32, first_pdcp: u32) -> Answer<Self> {
        let form = match pdcp_bits {
            12 | 15 => Form::Short,
            18 => Form::Long,
            _ => return Err(Refusal::PdcpLength),
        };
        let bearer = Self {
            form,
            pdcp: Circle::of_bits(pdcp_bits),
        };
        bearer.judge(first, first_pdcp)?;
        Ok(bearer)
    }

    /// The circle of X2-U numbers.
    #[must_use]
    pub const fn numbers(self) -> Circle {
        self.form.numbers()
    }

    /// Refuses a pair of numbers that are not both on their circles.
    pub(crate) fn judge(self, number: u32, pdcp: u32) -> Answer<()> {
        let held = self.numbers().holds(number) && self.pdcp.holds(pdcp);
        refuse_if(!held, Refusal::NumberTooLarge)
    }
}
