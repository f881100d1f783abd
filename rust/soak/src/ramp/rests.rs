//! Rests: for a while every PDU goes over the master's own radio, and the PDCP
//! numbers go on without any packet over X2.

use super::conditions::{REST_AT_ONCE, REST_LENGTHS, REST_PAUSE};
use crate::rng::Rng;

/// What the rests came to.
#[derive(Clone, Copy, Debug, Default, PartialEq, Eq)]
pub struct Rested {
    /// Those of up to half the PDCP circle.
    pub parts: u64,
    /// Those of more than half of it, up to a whole turn.
    pub halves: u64,
    /// Those of more than a whole turn.
    pub turns: u64,
    /// Those of all these that went by while packets waited.
    pub at_once: u64,
    /// PDUs over the master alone.
    pub pdus: u64,
    /// The most in one rest.
    pub longest: u64,
}

impl Rested {
    /// How many rests there were.
    #[must_use]
    pub fn count(&self) -> u64 {
        self.parts + self.halves + self.turns
    }
}

/// The rests of a ramp.
pub struct Rests {
    rng: Rng,
    /// 2^L.
    pdcps: u32,
    /// The next may begin then.
    due: u64,
    /// One has begun, and goes by once nothing waits.
    drains: bool,
    /// The last went by then.
    last: u64,
    /// What they came to so far.
    pub rested: Rested,
}

impl Rests {
    /// Those of a bearer with so many PDCP numbers.
    #[must_use]
    pub fn new(pdcps: u32, rng: Rng) -> Self {
        let mut rng = rng;
        Self {
            pdcps,
            due: rng.within(REST_PAUSE).into(),
            drains: false,
            last: 0,
            rested: Rested::default(),
            rng,
        }
    }

    /// Whether nothing is sent over X2 until nothing waits.
    #[must_use]
    pub fn drains(&self) -> bool {
        self.drains
    }

    /// Whether the bearer rests in this millisecond.
    #[must_use]
    pub fn is_on(&self, now: u64) -> bool {
        self.drains || now == self.last
    }

    /// Begins a rest if one is due. Answers whether it goes by at once.
    pub fn begin(&mut self, now: u64) -> bool {
        if now < self.due || self.drains {
            return false;
        }
        let at_once = self.rng.once_in(REST_AT_ONCE);
        self.rested.at_once += u64::from(at_once);
        self.drains = !at_once;
        at_once
    }

    /// A rest goes by. Answers how many PDUs it was, `to_highest` being how many
    /// there are before the next would bear H.
    pub fn go_by(&mut self, now: u64, to_highest: u64) -> u64 {
        let kind = self.rested.count() % (REST_LENGTHS.len() as u64 + 1);
        let pdus = match REST_LENGTHS.get(kind as usize) {
            Some(hundredths) => {
                let part = |hundredths: u32| self.pdcps * hundredths / 100;
                let length = part(hundredths.start)..part(hundredths.end);
                self.rng.within(length).into()
            }
            None => to_highest,
        };
        self.count(pdus);
        self.drains = false;
        self.last = now;
        self.due = now + u64::from(self.rng.within(REST_PAUSE));
        pdus
    }

    fn count(&mut self, pdus: u64) {
        let (rested, pdcps) = (&mut self.rested, u64::from(self.pdcps));
        if pdus > pdcps {
            rested.turns += 1;
        } else if pdus > pdcps / 2 {
            rested.halves += 1;
        } else {
            rested.parts += 1;
        }
        rested.pdus += pdus;
        rested.longest = rested.longest.max(pdus);
    }
}

#[cfg(test)]
mod tests {
    use super::{Rested, Rests};
    use crate::rng::Rng;

    #[test]
    fn rests_of_every_length_come_in_turn() {
        for bits in [12, 15, 18] {
            let pdcps = 1 << bits;
            let mut rests = Rests::new(pdcps, Rng::new(1));
            let mut pdus = 0;
            for round in 1..=40 {
                let now = round * 10_000;
                let at_once = rests.begin(now);
                assert_eq!(rests.drains(), !at_once);
                pdus += rests.go_by(now, u64::from(pdcps) - 1);
                // The next comes after a pause.
                assert!(!rests.begin(now) && !rests.drains());
            }
            let Rested {
                parts,
                halves,
                turns,
                longest,
                ..
            } = rests.rested;
            assert_eq!((parts, halves, turns), (10, 20, 10));
            assert_eq!(rests.rested.pdus, pdus);
            assert!(longest > u64::from(pdcps));
        }
    }
}
