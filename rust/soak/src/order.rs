//! The PDCP order of sends: where its limits lie, how nothing comes to wait, and
//! what sends met.

use std::fmt::{self, Display, Formatter};
use x2u::circle::Circle;
use x2u::frame::Range;
use x2u::ledger::{Entry, Fate};
use x2u::{Answer, Ledger, Refusal};

/// A PDCP number at which a send turns from refused to accepted, or might in a
/// ledger that gets the order wrong. Where no entry is there to measure from, it
/// is measured from the last sent.
#[derive(Clone, Copy, Debug, PartialEq, Eq)]
pub enum Edge {
    /// H.
    Highest,
    /// Half the circle ahead of H, where document 01 had its limit.
    HalfFromHighest,
    /// The last sent, lost or not.
    LastSent,
    /// The newest entry that waits.
    NewestWaiting,
    /// The oldest entry that waits.
    OldestWaiting,
    /// Half the circle ahead of that.
    HalfFromOldestWaiting,
    /// Half the circle ahead of the oldest entry, lost or not.
    HalfFromOldest,
}

impl Edge {
    /// All of them.
    pub const ALL: [Self; 7] = [
        Self::Highest,
        Self::HalfFromHighest,
        Self::LastSent,
        Self::NewestWaiting,
        Self::OldestWaiting,
        Self::HalfFromOldestWaiting,
        Self::HalfFromOldest,
    ];

    /// The number `off` from it, as a ledger stands.
    #[must_use]
    pub fn near(self, circle: Circle, ledger: &Ledger, off: i32) -> u32 {
        circle.step(self.number(circle, ledger), off.cast_unsigned())
    }

    fn number(self, circle: Circle, ledger: &Ledger) -> u32 {
        let half = |from: u32| circle.step(from, circle.half());
        let pdcp = |entry: Option<&Entry>| entry.map_or(ledger.last_sent(), |entry| entry.pdcp);
        match self {
            Self::Highest => ledger.highest(),
            Self::HalfFromHighest => half(ledger.highest()),
            Self::LastSent => ledger.last_sent(),
            Self::NewestWaiting => pdcp(waiting(ledger).last()),
            Self::OldestWaiting => pdcp(waiting(ledger).next()),
            Self::HalfFromOldestWaiting => half(pdcp(waiting(ledger).next())),
            Self::HalfFromOldest => half(pdcp(ledger.entries().next())),
        }
    }
}

fn waiting(ledger: &Ledger) -> impl Iterator<Item = &Entry> {
    ledger.entries().filter(|entry| entry.fate == Fate::Waiting)
}

/// The highest of a status with these ranges after which nothing waits: the PDCP
/// number of the last entry that waits and isn't in them, or H if there is none.
#[must_use]
pub fn last_left(numbers: Circle, ledger: &Ledger, ranges: &[Range]) -> u32 {
    let is_named = |entry: &Entry| {
        let forward = |range: &Range, to| numbers.forward(range.start, to);
        let within = |range: &Range| forward(range, entry.number) <= forward(range, range.end);
        ranges.iter().any(within)
    };
    let last = waiting(ledger).filter(|entry| !is_named(entry)).last();
    last.map_or(ledger.highest(), |entry| entry.pdcp)
}

/// What a send met.
#[derive(Clone, Copy, Debug, PartialEq, Eq)]
pub enum Met {
    /// Accepted, as by document 01.
    InOrder,
    /// Accepted, where document 01 refused: the bearer had rested.
    Rested,
    /// The same, with lost entries in front.
    RestedBehindLost,
    /// Refused with 35, measured from an entry that waits.
    OutOfOrder,
    /// The same, with lost entries in front.
    OutOfOrderBehindLost,
    /// Refused with 35 while none waits: it is H.
    Highest,
}

impl Met {
    /// All of them, in words.
    pub const ALL: [(Self, &'static str); 6] = [
        (Self::InOrder, "accepted as ever"),
        (Self::Rested, "accepted after a rest"),
        (
            Self::RestedBehindLost,
            "accepted after a rest behind lost ones",
        ),
        (Self::OutOfOrder, "refused with 35"),
        (
            Self::OutOfOrderBehindLost,
            "refused with 35 behind lost ones",
        ),
        (Self::Highest, "refused with 35 while none waits"),
    ];
}

/// What is to be known of a send before it is made.
#[derive(Clone, Copy, Debug)]
pub struct Before {
    by_document_01: bool,
    waits: bool,
    behind_lost: bool,
}

impl Before {
    /// That of a send of `pdcp` on a ledger.
    #[must_use]
    pub fn send(circle: Circle, ledger: &Ledger, pdcp: u32) -> Self {
        let forward = |to: u32| circle.forward(ledger.highest(), to);
        let in_order = forward(pdcp) > forward(ledger.last_sent());
        let first = ledger.entries().next();
        Self {
            by_document_01: in_order && forward(pdcp) < circle.half(),
            waits: waiting(ledger).next().is_some(),
            behind_lost: first.is_some_and(|entry| entry.fate == Fate::Lost),
        }
    }

    /// What it met, if its answer is one of the PDCP order.
    fn met(self, answer: Answer<u32>) -> Option<Met> {
        Some(match answer {
            Ok(_) if self.by_document_01 => Met::InOrder,
            Ok(_) if self.behind_lost => Met::RestedBehindLost,
            Ok(_) => Met::Rested,
            Err(Refusal::PdcpOrder) if !self.waits => Met::Highest,
            Err(Refusal::PdcpOrder) if self.behind_lost => Met::OutOfOrderBehindLost,
            Err(Refusal::PdcpOrder) => Met::OutOfOrder,
            Err(_) => return None,
        })
    }
}

/// How often sends met what.
#[derive(Clone, Copy, Debug, Default, PartialEq, Eq)]
pub struct Sends {
    times: [u64; Met::ALL.len()],
}

impl Sends {
    /// A send was answered.
    pub fn count(&mut self, before: Before, answer: Answer<u32>) {
        if let Some(met) = before.met(answer) {
            self.times[met as usize] += 1;
        }
    }

    /// Adds those of another bearer.
    pub fn add(&mut self, others: Self) {
        for (times, more) in self.times.iter_mut().zip(others.times) {
            *times += more;
        }
    }

    /// How often that was met.
    #[must_use]
    pub fn times(&self, met: Met) -> u64 {
        self.times[met as usize]
    }

    /// How often what was met least was.
    #[must_use]
    pub fn least(&self) -> u64 {
        self.times.into_iter().min().unwrap_or(0)
    }
}

impl Display for Sends {
    fn fmt(&self, out: &mut Formatter<'_>) -> fmt::Result {
        for (place, (met, words)) in Met::ALL.into_iter().enumerate() {
            let comma = if place == 0 { "" } else { ", " };
            write!(out, "{comma}{} {words}", self.times(met))?;
        }
        Ok(())
    }
}
