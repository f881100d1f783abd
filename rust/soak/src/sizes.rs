//! The sizes of PDUs and the room that they leave: where their limits lie, and
//! what sends and rooms met.

use crate::rng::Rng;
use std::fmt::{self, Display, Formatter};
use x2u::frame::LONGEST;
use x2u::ledger::{Fate, LARGEST_SIZE};
use x2u::{Answer, Keeper, Ledger, Refusal};

/// Sizes at their limits, and beyond; one that is allowed in its last 16 bits.
pub const LIMITS: [u32; 8] = [
    0,
    1,
    2,
    LARGEST_SIZE - 1,
    LARGEST_SIZE,
    LARGEST_SIZE + 1,
    65_537,
    u32::MAX,
];

/// How a PDU gets its size.
#[derive(Clone, Copy, Debug, PartialEq, Eq)]
pub enum Size {
    /// So many octets, within the limits or not.
    Octets(u32),
    /// As many octets as there is room for and so many more, or less, as far
    /// as the limits allow.
    Room(i32),
}

impl Size {
    /// In octets, as a ledger stands.
    #[must_use]
    pub fn at(self, ledger: &Ledger) -> u32 {
        match self {
            Self::Octets(octets) => octets,
            Self::Room(off) => within_limits(ledger.room().saturating_add_signed(off)),
        }
    }

    /// That of another PDU, so many after one of this size. Every sixteenth has
    /// it again; those between are allowed, and no two neighbours are alike.
    #[must_use]
    pub fn later(self, turns: u32) -> Self {
        if turns.is_multiple_of(16) {
            return self;
        }
        let octets = match self {
            Self::Octets(octets) => octets,
            Self::Room(_) => 0,
        };
        Self::Octets(1 + octets.wrapping_add(turns.wrapping_mul(977)) % LARGEST_SIZE)
    }
}

/// Where a status gets its desired size from.
#[derive(Clone, Copy, Debug, PartialEq, Eq)]
pub enum Desired {
    /// So many octets.
    Octets(u32),
    /// As many octets as it leaves waiting and so many more, or less.
    Left(i32),
}

impl Desired {
    /// In octets, of a status that leaves so many waiting.
    #[must_use]
    pub fn at(self, left: u32) -> u32 {
        match self {
            Self::Octets(octets) => octets,
            Self::Left(off) => left.saturating_add_signed(off),
        }
    }
}

/// The size nearest to so many octets that a PDU may have.
fn within_limits(octets: u32) -> u32 {
    octets.clamp(1, LARGEST_SIZE)
}

/// A size as PDUs have them, at a limit of sizes or near the room.
pub fn usual(rng: &mut Rng, ledger: &Ledger) -> u32 {
    match rng.within(0..10) {
        0 => within_limits(rng.pick(&LIMITS)),
        1..4 if ledger.room() > 0 => Size::Room(rng.pick(&[-1, 0, 1])).at(ledger),
        4..6 => rng.within(40..101),
        6 => rng.within(1..LARGEST_SIZE + 1),
        _ => rng.within(1_300..1_501),
    }
}

/// A desired size where so many octets will wait.
pub fn desired(rng: &mut Rng, left: u32) -> u32 {
    match rng.within(0..10) {
        0 => rng.word(),
        1 => rng.pick(&[0, 1, u32::MAX]),
        2..7 if left > 0 => left.saturating_add_signed(rng.pick(&[-1, 0, 1])),
        7 if left > 0 => rng.within(0..left),
        _ => left + rng.within(0..3 * LARGEST_SIZE),
    }
}

/// The octets that wait once a frame has come to the master.
#[must_use]
pub fn left(ledger: &Ledger, frame: &[u8]) -> u32 {
    let mut ledger = ledger.clone();
    let _ = ledger.accept(frame);
    ledger.waiting_octets()
}

/// The octets that wait once these frames have come to the master, and behind
/// them the status that the secondary would build now.
pub fn left_by_status<'a>(
    ledger: &Ledger,
    frames: impl IntoIterator<Item = &'a [u8]>,
    keeper: &Keeper,
    is_final: bool,
) -> u32 {
    let mut ledger = ledger.clone();
    for frame in frames {
        let _ = ledger.accept(frame);
    }
    let mut buffer = [0; LONGEST];
    let built = keeper.clone().status(0, 0, is_final, &mut buffer);
    left(&ledger, &buffer[..built.unwrap_or(0)])
}

/// The octets of the entries that are lost.
fn lost_octets(ledger: &Ledger) -> u32 {
    let lost = ledger.entries().filter(|entry| entry.fate == Fate::Lost);
    lost.map(|entry| u32::from(entry.size)).sum()
}

/// A send, and what it would have come to with another size.
struct Sent {
    size: u32,
    answer: Answer<u32>,
    if_allowed: Answer<u32>,
}

/// What a ledger has that is asked for its room.
struct Asked {
    room: u32,
    desired: u32,
    waiting: u32,
    lost: u32,
    closed: bool,
}

/// Something that a send or a room may meet, in words.
type Kind<T> = (&'static str, fn(&T) -> bool);

const SENDS: [Kind<Sent>; 8] = [
    ("of 1 octet accepted", |sent| {
        sent.size == 1 && sent.answer.is_ok()
    }),
    ("of 16,384 accepted", |sent| {
        sent.size == LARGEST_SIZE && sent.answer.is_ok()
    }),
    ("of 0 refused with 39", |sent| {
        sent.size == 0 && sent.answer == Err(Refusal::SizeOutside)
    }),
    ("of 16,385 refused with 39", |sent| {
        sent.size == LARGEST_SIZE + 1 && sent.answer == Err(Refusal::SizeOutside)
    }),
    ("of a wrong size refused with 9", |sent| {
        sent.is_wrong() && sent.answer == Err(Refusal::Closed)
    }),
    ("of a wrong size refused with 10", |sent| {
        sent.is_wrong() && sent.answer == Err(Refusal::NumberTooLarge)
    }),
    ("refused with 39 before 35", |sent| {
        sent.is_wrong() && sent.if_allowed == Err(Refusal::PdcpOrder)
    }),
    ("refused with 39 before 36", |sent| {
        sent.is_wrong() && sent.if_allowed == Err(Refusal::LedgerFull)
    }),
];

const ROOMS: [Kind<Asked>; 8] = [
    ("0 with nothing desired", |asked| asked.desired == 0),
    ("0 with less desired than waits", |asked| {
        0 < asked.desired && asked.desired < asked.waiting
    }),
    ("0 with as much desired as waits", |asked| {
        0 < asked.desired && asked.desired == asked.waiting
    }),
    ("1", |asked| asked.room == 1),
    ("2 to 16,384", |asked| {
        (2..=LARGEST_SIZE).contains(&asked.room)
    }),
    ("more", |asked| asked.room > LARGEST_SIZE),
    ("less if lost ones counted", |asked| {
        asked.room > asked.desired.saturating_sub(asked.waiting + asked.lost)
    }),
    ("above 0 on a closed end, some waiting", |asked| {
        asked.closed && asked.waiting > 0 && asked.room > 0
    }),
];

impl Sent {
    fn is_wrong(&self) -> bool {
        within_limits(self.size) != self.size
    }
}

/// How often sends and rooms met what has to do with sizes.
#[derive(Clone, Copy, Debug, Default, PartialEq, Eq)]
pub struct Sizes {
    sends: [u64; SENDS.len()],
    rooms: [u64; ROOMS.len()],
}

impl Sizes {
    /// A send is made on a ledger that stands so before it.
    pub fn send(&mut self, ledger: &Ledger, pdcp: u32, size: u32) {
        let answer = |size| ledger.clone().send(pdcp, size);
        // Most sends meet nothing that is counted.
        if (2..LARGEST_SIZE).contains(&size) {
            return;
        }
        let sent = Sent {
            size,
            answer: answer(size),
            if_allowed: answer(1),
        };
        for (times, (_, is_met)) in self.sends.iter_mut().zip(SENDS) {
            *times += u64::from(is_met(&sent));
        }
    }

    /// A ledger is asked for its room.
    pub fn room(&mut self, ledger: &Ledger) {
        let asked = Asked {
            room: ledger.room(),
            desired: ledger.desired(),
            waiting: ledger.waiting_octets(),
            lost: lost_octets(ledger),
            closed: ledger.is_closed(),
        };
        for (times, (_, is_met)) in self.rooms.iter_mut().zip(ROOMS) {
            *times += u64::from(is_met(&asked));
        }
    }

    /// Adds those of another bearer.
    pub fn add(&mut self, others: Self) {
        let all = self.sends.iter_mut().chain(&mut self.rooms);
        for (times, more) in all.zip(others.sends.into_iter().chain(others.rooms)) {
            *times += more;
        }
    }

    /// How often what was met least was.
    #[must_use]
    pub fn least(&self) -> u64 {
        let all = self.sends.into_iter().chain(self.rooms);
        all.min().unwrap_or(0)
    }
}

impl Display for Sizes {
    fn fmt(&self, out: &mut Formatter<'_>) -> fmt::Result {
        let sends = SENDS.map(|(words, _)| words);
        let rooms = ROOMS.map(|(words, _)| words);
        row(out, "sends", &sends, &self.sends)?;
        row(out, "; rooms", &rooms, &self.rooms)
    }
}

fn row(out: &mut Formatter<'_>, what: &str, words: &[&str], times: &[u64]) -> fmt::Result {
    write!(out, "{what}")?;
    for (place, (words, times)) in words.iter().zip(times).enumerate() {
        let comma = if place == 0 { ": " } else { ", " };
        write!(out, "{comma}{times} {words}")?;
    }
    Ok(())
}

#[cfg(test)]
mod tests {
    use super::{LIMITS, Size, Sizes};
    use x2u::Ledger;

    #[test]
    fn sizes_follow_the_room() {
        let mut ledger = Ledger::open(12, 0, 0).unwrap();
        let at = |ledger: &Ledger, off| Size::Room(off).at(ledger);
        assert_eq!([at(&ledger, -1), at(&ledger, 0), at(&ledger, 3)], [1, 1, 3]);
        let wants_500 = [0x10, 0x0F, 0xFF, 0, 0, 0x01, 0xF4, 0, 0, 0, 9, 0, 0, 0];
        ledger.accept(&wants_500).unwrap();
        assert_eq!(
            [at(&ledger, -1), at(&ledger, 0), at(&ledger, 1)],
            [499, 500, 501]
        );
        assert_eq!(at(&ledger, i32::MAX), 16_384);
    }

    #[test]
    fn later_sizes_differ_and_most_are_allowed() {
        let ledger = Ledger::open(12, 0, 0).unwrap();
        for first in LIMITS.map(Size::Octets).into_iter().chain([Size::Room(1)]) {
            let sizes: Vec<Size> = (0..600).map(|turns| first.later(turns)).collect();
            assert!(sizes.windows(2).all(|two| two[0] != two[1]));
            for (turn, size) in sizes.into_iter().enumerate() {
                let allowed = (1..=16_384).contains(&size.at(&ledger));
                assert!(allowed || turn % 16 == 0, "{first:?}, {turn}: {size:?}");
                assert!(size == first || turn % 16 != 0);
            }
        }
    }

    #[test]
    fn what_is_met_is_counted() {
        let mut ledger = Ledger::open(12, 0, 0).unwrap();
        let mut sizes = Sizes::default();
        for (pdcp, size) in [(0, 1), (1, 16_384), (2, 0), (2, 16_385), (1, 0), (4_096, 0)] {
            sizes.send(&ledger, pdcp, size);
            let _ = ledger.send(pdcp, size);
        }
        assert_eq!(sizes.sends, [1, 1, 2, 1, 0, 1, 1, 0]);
        sizes.room(&ledger);
        assert_eq!(sizes.rooms, [1, 0, 0, 0, 0, 0, 0, 0]);
        let mut twice = sizes;
        twice.add(sizes);
        assert_eq!((twice.sends[2], twice.rooms[0], twice.least()), (4, 2, 0));
    }
}
