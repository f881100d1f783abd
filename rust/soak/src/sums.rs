//! The sum of what waits at the master, which a `ledger` line shows: how often it
//! was looked at right behind what moves it, and behind what must not.

use std::fmt::{self, Display, Formatter};

/// What the last call on the master did to the sum.
#[derive(Clone, Copy, Debug, PartialEq, Eq)]
pub enum Moved {
    /// A send was accepted.
    Sent,
    /// By an accepted frame entries became lost.
    Lost,
    /// By one entries were freed.
    Freed,
    /// By one both happened.
    LostAndFreed,
    /// By one neither happened.
    Neither,
    /// A lost entry was taken.
    TookLost,
    /// A closed end gave out an entry that waited.
    ClosedTookWaiting,
    /// A closed end gave out a lost one.
    ClosedTookLost,
    /// A call was refused.
    Refused,
}

impl Moved {
    /// All of them, in words.
    pub const ALL: [(Self, &'static str); 9] = [
        (Self::Sent, "raised by a send"),
        (Self::Lost, "lowered by losses"),
        (Self::Freed, "lowered by what was freed"),
        (Self::LostAndFreed, "lowered by both in one frame"),
        (Self::Neither, "left by a frame that did neither"),
        (Self::TookLost, "left by a take of a lost entry"),
        (
            Self::ClosedTookWaiting,
            "lowered by a closed end's take of a waiting one",
        ),
        (
            Self::ClosedTookLost,
            "left by a closed end's take of a lost one",
        ),
        (Self::Refused, "left by a refused call"),
    ];
}

/// Follows calls by their answers, and counts the looks at the sum.
#[derive(Clone, Copy, Debug, Default, PartialEq, Eq)]
pub struct Sums {
    times: [u64; Moved::ALL.len()],
    /// What was done since the last look.
    last: Option<Moved>,
    closed: bool,
    /// Whether the oldest entry waits, if the last look showed one and nothing
    /// was done since.
    oldest_waits: Option<bool>,
}

impl Sums {
    /// Lines were answered so.
    pub fn see_all(&mut self, lines: &[Vec<u8>], answers: &[Vec<u8>]) {
        for (line, answer) in lines.iter().zip(answers) {
            self.see(line, answer);
        }
    }

    /// A line was answered so.
    pub fn see(&mut self, line: &[u8], answer: &[u8]) {
        let call = fields(line).next().unwrap_or_default();
        let said: Vec<&[u8]> = fields(answer).collect();
        match (call, &said[..]) {
            (b"open", [b"ok"]) => {
                *self = Self {
                    times: self.times,
                    ..Self::default()
                };
            }
            (b"ledger", [b"ledger", .., entries]) => self.looked(entries),
            (b"send", [b"sent", _]) => self.moved(Some(Moved::Sent)),
            (b"accept", [b"freed", freed, b"lost", lost, b"final", last]) => {
                self.closed = last == b"1";
                self.moved(Some(match (lost == b"0", freed == b"0") {
                    (true, true) => Moved::Neither,
                    (true, false) => Moved::Freed,
                    (false, true) => Moved::Lost,
                    (false, false) => Moved::LostAndFreed,
                }));
            }
            (b"take", [b"taken", ..]) => self.moved(self.took()),
            (b"send" | b"accept" | b"take", [b"refused", _]) => self.last = Some(Moved::Refused),
            _ => {}
        }
    }

    /// How often it was looked at behind that.
    #[must_use]
    pub fn times(&self, moved: Moved) -> u64 {
        self.times[moved as usize]
    }

    /// How often it was behind what it was least often behind.
    #[must_use]
    pub fn least(&self) -> u64 {
        self.times.into_iter().min().unwrap_or(0)
    }

    fn moved(&mut self, moved: Option<Moved>) {
        self.last = moved;
        self.oldest_waits = None;
    }

    /// What a take does, if it is known: a closed end gives out its oldest entry,
    /// whatever that is.
    fn took(&self) -> Option<Moved> {
        match (self.closed, self.oldest_waits) {
            (false, _) => Some(Moved::TookLost),
            (true, Some(true)) => Some(Moved::ClosedTookWaiting),
            (true, Some(false)) => Some(Moved::ClosedTookLost),
            (true, None) => None,
        }
    }

    fn looked(&mut self, entries: &[u8]) {
        if let Some(moved) = self.last.take() {
            self.times[moved as usize] += 1;
        }
        let oldest = entries.split(|&octet| octet == b',').next();
        let has = |mark: &[u8]| oldest.is_some_and(|oldest| oldest.windows(3).any(|w| w == mark));
        self.oldest_waits = if has(b":w:") {
            Some(true)
        } else {
            has(b":l:").then_some(false)
        };
    }
}

fn fields(line: &[u8]) -> impl Iterator<Item = &[u8]> {
    line.split(|&octet| octet == b'\t')
}

impl Display for Sums {
    fn fmt(&self, out: &mut Formatter<'_>) -> fmt::Result {
        for (place, (moved, words)) in Moved::ALL.into_iter().enumerate() {
            let comma = if place == 0 { "" } else { ", " };
            write!(out, "{comma}{} {words}", self.times(moved))?;
        }
        Ok(())
    }
}

#[cfg(test)]
mod tests {
    use super::{Moved, Sums};
    use programs::replay::Replay;

    /// Calls, and what a look counts that follows: nothing where there is none.
    const CALLS: [(&str, Option<Moved>); 27] = [
        ("take", None),
        ("open\t12\t0\t0", None),
        ("take", Some(Moved::Refused)),
        ("send\t0\t10", Some(Moved::Sent)),
        ("send\t0\t10", Some(Moved::Refused)),
        ("send\t1\t20", Some(Moved::Sent)),
        ("room", None),
        ("send\t2\t0", Some(Moved::Refused)),
        ("send\t2\t30", Some(Moved::Sent)),
        ("send\t3\t40", Some(Moved::Sent)),
        ("send\t4\t50", Some(Moved::Sent)),
        ("send\t5\t60", Some(Moved::Sent)),
        ("send\t6\t70", Some(Moved::Sent)),
        ("accept\t100fff0000000700000006000000", Some(Moved::Neither)),
        ("accept\t10", Some(Moved::Refused)),
        (
            "accept\t110fff000000070000000601000000000000",
            Some(Moved::Lost),
        ),
        ("accept\t1000010000000700000006000000", Some(Moved::Freed)),
        (
            "accept\t110003000000070000000601000200020000",
            Some(Moved::LostAndFreed),
        ),
        ("take", Some(Moved::TookLost)),
        ("expire\t0", None),
        (
            "accept\t130003000000070000000601000500050000",
            Some(Moved::Lost),
        ),
        ("take", Some(Moved::ClosedTookLost)),
        ("take", Some(Moved::ClosedTookWaiting)),
        ("take", Some(Moved::ClosedTookLost)),
        ("take", Some(Moved::ClosedTookWaiting)),
        ("take", Some(Moved::Refused)),
        ("open\t12\t0\t0", None),
    ];

    fn see(sums: &mut Sums, replay: &mut Replay, line: &str) {
        let mut answer = Vec::new();
        replay.answer(Some(line.as_bytes()), &mut answer).unwrap();
        sums.see(line.as_bytes(), answer.strip_suffix(b"\n").unwrap());
    }

    #[test]
    fn looks_are_counted_by_what_went_before() {
        let (mut sums, mut replay) = (Sums::default(), Replay::default());
        let mut wanted = [0; Moved::ALL.len()];
        for (call, moved) in CALLS {
            see(&mut sums, &mut replay, call);
            // Who looks again looks behind nothing.
            see(&mut sums, &mut replay, "ledger");
            see(&mut sums, &mut replay, "ledger");
            if let Some(moved) = moved {
                wanted[moved as usize] += 1;
            }
            assert_eq!(sums.times, wanted, "behind {call}");
        }
        assert_eq!(sums.least(), 1);
    }

    #[test]
    fn a_closed_end_is_looked_at_before_a_take_too() {
        let (mut sums, mut replay) = (Sums::default(), Replay::default());
        for line in [
            "open\t12\t0\t0",
            "send\t0\t10",
            "send\t1\t20",
            "accept\t120fff0000000700000006000000",
            "take",
            "ledger",
        ] {
            see(&mut sums, &mut replay, line);
        }
        assert_eq!(sums.times, [0; Moved::ALL.len()]);
        see(&mut sums, &mut replay, "take");
        see(&mut sums, &mut replay, "ledger");
        assert_eq!(sums.times(Moved::ClosedTookWaiting), 1);
    }
}
