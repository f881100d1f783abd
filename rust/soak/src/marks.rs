//! The marks of expiries: where they may lie, and what expiries met by them.

use crate::rng::Rng;
use std::fmt::{self, Display, Formatter};
use x2u::circle::{Circle, Lies};
use x2u::{Answer, Keeper, Refusal};

/// How an expiry gets its mark.
#[derive(Clone, Copy, Debug, PartialEq, Eq)]
pub enum Mark {
    /// So far from the highest number accepted; from base where nothing is
    /// accepted from there on.
    Highest(i32),
    /// So far from base, which may be a stale mark's distance.
    Base(i32),
    /// So far from the number opposite base.
    Half(i32),
    /// So many 1,024ths of the way from base to the highest accepted.
    Between(u32),
    /// So far past the last number on the circle.
    Outside(u32),
    /// This number.
    Number(u32),
}

impl Mark {
    /// Its number, as a keeper stands.
    #[must_use]
    pub fn at(self, circle: Circle, keeper: &Keeper) -> u32 {
        let base = keeper.base();
        let highest = highest_accepted(circle, keeper).unwrap_or(base);
        let near = |number: u32, off: i32| circle.step(number, off.cast_unsigned());
        match self {
            Self::Highest(off) => near(highest, off),
            Self::Base(off) => near(base, off),
            Self::Half(off) => near(circle.step(base, circle.half()), off),
            Self::Between(part) => {
                let whole = u64::from(circle.forward(base, highest));
                let ahead = whole * u64::from(part.min(1_024)) / 1_024;
                circle.step(base, ahead as u32)
            }
            Self::Outside(past) => circle.size().saturating_add(past),
            Self::Number(number) => number,
        }
    }

    /// Any of them, at or around the limits.
    pub fn some(rng: &mut Rng) -> Self {
        let off = rng.pick(&[-2, -1, 0, 0, 1, 2]);
        match rng.within(0..20) {
            0..4 => Self::Highest(0),
            4..7 => Self::Highest(off),
            7..9 => Self::Base(off),
            9..12 => Self::Half(off),
            12..17 => Self::Between(rng.within(0..1_025)),
            17 => Self::Base(-rng.within(0..40_000).cast_signed()),
            18 => Self::Outside(rng.pick(&[0, 1, 7, u32::MAX])),
            _ => Self::Number(rng.word() >> rng.pick(&[0, 8, 16])),
        }
    }
}

/// The highest number accepted, if it lies past base.
#[must_use]
pub fn highest_accepted(circle: Circle, keeper: &Keeper) -> Option<u32> {
    let newest = keeper.records().last()?.number;
    let lies = circle.compare(keeper.base(), newest);
    (lies == Lies::Ahead).then_some(newest)
}

/// An expiry, and what is to be known of it before it is made.
struct Asked {
    answer: Answer<u32>,
    on_circle: bool,
    half: u32,
    /// From base to the mark.
    forward: u32,
    /// From base to the highest accepted, if something is from there on.
    highest: Option<u32>,
    /// Whether the mark has a record.
    received: bool,
    /// How many numbers with records lie past base and past the mark.
    received_past: u32,
}

impl Asked {
    fn of(circle: Circle, keeper: &Keeper, mark: u32) -> Self {
        let (base, half) = (keeper.base(), circle.half());
        let forward = circle.forward(base, mark);
        let aheads = keeper
            .records()
            .map(|record| circle.forward(base, record.number));
        let past_base: Vec<u32> = aheads.filter(|&ahead| ahead < half).collect();
        let past_mark = past_base.iter().filter(|&&ahead| ahead > forward);
        Self {
            answer: keeper.clone().expire(mark),
            on_circle: circle.holds(mark),
            half,
            forward,
            highest: past_base.last().copied(),
            received: past_base.contains(&forward),
            received_past: past_mark.count() as u32,
        }
    }

    fn is(&self, refusal: Refusal) -> bool {
        self.answer == Err(refusal)
    }

    /// Whether it was asked, and lies so far from base.
    fn lies(&self, forward: u32) -> bool {
        self.on_circle && self.forward == forward && !self.is(Refusal::Closed)
    }

    /// Whether it was accepted while open numbers lay past the mark, below the
    /// highest accepted.
    fn spares_a_gap(&self) -> bool {
        let past = self.highest.unwrap_or(0).saturating_sub(self.forward);
        self.answer.is_ok() && self.received_past < past
    }
}

/// Something that an expiry may meet, in words.
type Kind = (&'static str, fn(&Asked) -> bool);

/// The last, 14, isn't met within demand 3's bounds.
const KINDS: [Kind; 20] = [
    ("at the highest accepted", |asked| {
        asked.answer.is_ok() && asked.highest == Some(asked.forward)
    }),
    ("that spared a gap past the mark", Asked::spares_a_gap),
    ("at a received mark", |asked| {
        asked.answer.is_ok() && asked.received
    }),
    ("at an open mark", |asked| {
        asked.answer.is_ok() && !asked.received
    }),
    ("one ahead of base", |asked| {
        asked.lies(1) && asked.answer.is_ok()
    }),
    ("one behind base", |asked| {
        asked.lies(2 * asked.half - 1) && asked.is(Refusal::NothingOpen)
    }),
    ("further behind it", |asked| {
        let behind = (asked.half + 2..2 * asked.half - 1).contains(&asked.forward);
        asked.on_circle && behind && asked.is(Refusal::NothingOpen)
    }),
    ("at base with 17", |asked| {
        asked.lies(0) && asked.is(Refusal::NothingOpen)
    }),
    ("at base with 19", |asked| {
        asked.lies(0) && asked.is(Refusal::MarkBeyond)
    }),
    ("one past the highest accepted", |asked| {
        let next = asked.highest.map(|highest| highest + 1);
        next == Some(asked.forward) && asked.is(Refusal::MarkBeyond)
    }),
    ("further past it", |asked| {
        let next = asked.highest.map(|highest| highest + 1);
        next.is_some_and(|next| next < asked.forward) && asked.is(Refusal::MarkBeyond)
    }),
    ("ahead with nothing accepted from base on", |asked| {
        asked.highest.is_none() && asked.forward > 0 && asked.is(Refusal::MarkBeyond)
    }),
    ("behind with nothing accepted from base on", |asked| {
        asked.highest.is_none() && asked.is(Refusal::NothingOpen)
    }),
    ("M/2 - 1 from base", |asked| {
        asked.lies(asked.half - 1) && asked.is(Refusal::MarkBeyond)
    }),
    ("M/2 from base", |asked| {
        asked.lies(asked.half) && asked.is(Refusal::NothingOpen)
    }),
    ("M/2 + 1 from base", |asked| {
        asked.lies(asked.half + 1) && asked.is(Refusal::NothingOpen)
    }),
    ("of M or more", |asked| asked.is(Refusal::NumberTooLarge)),
    ("of M or more on a closed end", |asked| {
        !asked.on_circle && asked.is(Refusal::Closed)
    }),
    ("of any other number there", |asked| {
        asked.on_circle && asked.is(Refusal::Closed)
    }),
    ("with too many runs", |asked| asked.is(Refusal::RunsFull)),
];

/// How often expiries met what by their marks.
#[derive(Clone, Copy, Debug, Default, PartialEq, Eq)]
pub struct Marks {
    times: [u64; KINDS.len()],
}

impl Marks {
    /// An expiry is made on a keeper that stands so before it.
    pub fn expire(&mut self, circle: Circle, keeper: &Keeper, mark: u32) {
        let asked = Asked::of(circle, keeper, mark);
        for (times, (_, is_met)) in self.times.iter_mut().zip(KINDS) {
            *times += u64::from(is_met(&asked));
        }
    }

    /// Adds those of another bearer.
    pub fn add(&mut self, others: Self) {
        for (times, more) in self.times.iter_mut().zip(others.times) {
            *times += more;
        }
    }

    /// How often what was met least was.
    #[must_use]
    pub fn least(&self) -> u64 {
        self.times.into_iter().min().unwrap_or(0)
    }

    /// The same, of what is met within demand 3's bounds.
    #[must_use]
    pub fn least_in_bounds(&self) -> u64 {
        let in_bounds = self.times.into_iter().take(KINDS.len() - 1);
        in_bounds.min().unwrap_or(0)
    }
}

impl Display for Marks {
    fn fmt(&self, out: &mut Formatter<'_>) -> fmt::Result {
        for (place, ((words, _), times)) in KINDS.iter().zip(self.times).enumerate() {
            let comma = if place == 0 { "" } else { ", " };
            write!(out, "{comma}{times} {words}")?;
        }
        Ok(())
    }
}

#[cfg(test)]
mod tests {
    use super::{KINDS, Mark, Marks};
    use x2u::Keeper;

    /// A keeper from 65,530 on that has its base, 65,533, and 1 open.
    fn keeper() -> Keeper {
        let mut keeper = Keeper::open(12, 65_530, 0).unwrap();
        for number in [65_531, 65_532, 65_534, 65_535, 0, 2] {
            keeper.arrive(number, 0).unwrap();
        }
        keeper
    }

    #[test]
    fn marks_lie_where_they_should() {
        let circle = x2u::Form::Short.numbers();
        let fresh = Keeper::open(12, 7, 0).unwrap();
        for (mark, wanted, of_fresh) in [
            (Mark::Highest(0), 2, 7),
            (Mark::Highest(-3), 65_535, 4),
            (Mark::Base(0), 65_530, 7),
            (Mark::Base(-8), 65_522, 65_535),
            (Mark::Half(0), 32_762, 32_775),
            (Mark::Half(1), 32_763, 32_776),
            (Mark::Between(0), 65_530, 7),
            (Mark::Between(512), 65_534, 7),
            (Mark::Between(9_999), 2, 7),
            (Mark::Outside(0), 65_536, 65_536),
            (Mark::Outside(u32::MAX), u32::MAX, u32::MAX),
            (Mark::Number(70_000), 70_000, 70_000),
        ] {
            assert_eq!(mark.at(circle, &keeper()), wanted, "{mark:?}");
            assert_eq!(mark.at(circle, &fresh), of_fresh, "{mark:?}");
        }
    }

    /// What these marks are counted as, and nothing else.
    #[test]
    fn what_is_met_is_counted() {
        let circle = x2u::Form::Short.numbers();
        let spares = "that spared a gap past the mark";
        for (mark, kinds) in [
            (2, &["at the highest accepted", "at a received mark"][..]),
            (0, &["at a received mark", spares]),
            (65_533, &["at an open mark", spares]),
            (1, &["at an open mark"]),
            (65_531, &["one ahead of base", "at a received mark", spares]),
            (65_529, &["one behind base"]),
            (65_000, &["further behind it"]),
            (65_530, &["at base with 17"]),
            (3, &["one past the highest accepted"]),
            (32_761, &["M/2 - 1 from base", "further past it"]),
            (32_762, &["M/2 from base"]),
            (32_763, &["M/2 + 1 from base"]),
            (65_536, &["of M or more"]),
        ] {
            let mut marks = Marks::default();
            marks.expire(circle, &keeper(), mark);
            for ((words, _), times) in KINDS.iter().zip(marks.times) {
                let wanted = u64::from(kinds.contains(words));
                assert_eq!(times, wanted, "a mark {mark}: {words}");
            }
        }
    }

    #[test]
    fn what_is_met_with_nothing_accepted_is_counted() {
        let circle = x2u::Form::Short.numbers();
        let mut fresh = Keeper::open(12, 7, 0).unwrap();
        let mut marks = Marks::default();
        for mark in [7, 8, 6] {
            marks.expire(circle, &fresh, mark);
        }
        let mut buffer = [0; 14];
        fresh.status(0, 0, true, &mut buffer).unwrap();
        for mark in [7, 65_536] {
            marks.expire(circle, &fresh, mark);
        }
        for ((words, _), times) in KINDS.iter().zip(marks.times) {
            let met = [
                "at base with 19",
                "ahead with nothing accepted from base on",
                "behind with nothing accepted from base on",
                "one behind base",
                "of M or more on a closed end",
                "of any other number there",
            ];
            assert_eq!(times, u64::from(met.contains(words)), "{words}");
        }
        let mut twice = marks;
        twice.add(marks);
        assert_eq!((twice.times[18], twice.least()), (2, 0));
    }
}
