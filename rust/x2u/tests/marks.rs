//! Expiry by its mark: which open numbers it gives up, and when it is refused.

mod common;

use common::{BEARERS, Numbered, keeper_with_runs, run, status};
use x2u::Refusal;
use x2u::Refusal::{Closed, MarkBeyond, NothingOpen, NumberTooLarge, RunsFull};

impl Numbered {
    /// All before the number so many ahead is received or lost, and reported.
    fn pass_to(&mut self, ahead: u32) {
        let last = self.number(ahead - 1);
        self.keeper.arrive(last, 0).unwrap();
        let _ = self.keeper.expire(last);
        for number in [self.first, last] {
            let _ = self.keeper.confirm(number);
        }
        status(&mut self.keeper, false).unwrap();
        assert_eq!(self.keeper.base(), self.number(ahead));
    }

    /// Sees that these marks are refused so, and change nothing.
    fn refuses(&mut self, refusal: Refusal, marks: &[u32]) {
        for &ahead in marks {
            let before = format!("{:?}", self.keeper);
            assert_eq!(self.expire(ahead), Err(refusal), "a mark {ahead} ahead");
            assert_eq!(format!("{:?}", self.keeper), before, "a mark {ahead} ahead");
        }
    }

    /// Sees that base and the listed runs lie so far ahead of the first.
    fn stands(&self, base: u32, runs: &[(u32, u32)]) {
        assert_eq!(self.keeper.base(), self.number(base));
        let runs = runs
            .iter()
            .map(|&(start, end)| run(self.number(start), self.number(end)));
        assert_eq!(self.keeper.listed_runs(), runs.collect::<Vec<_>>());
    }
}

/// Arrivals 2, 3, 6 and 9: the marks that open numbers precede, how many do, and
/// where base then lies.
#[test]
fn only_open_numbers_before_the_mark_are_lost() {
    for bearer in BEARERS {
        for (mark, lost, base, runs) in [
            (1, 1, 1, &[(0, 0)][..]),
            (2, 2, 4, &[(0, 1)]),
            (3, 2, 4, &[(0, 1)]),
            (4, 2, 4, &[(0, 1)]),
            (5, 3, 5, &[(0, 1), (4, 4)]),
            (6, 4, 7, &[(0, 1), (4, 5)]),
            (7, 4, 7, &[(0, 1), (4, 5)]),
            (8, 5, 8, &[(0, 1), (4, 5), (7, 7)]),
            (9, 6, 10, &[(0, 1), (4, 5), (7, 8)]),
        ] {
            let mut numbered = Numbered::with(bearer, &[9, 2, 6, 3]);
            assert_eq!(numbered.expire(mark), Ok(lost), "{bearer:?}, {mark}");
            numbered.stands(base, runs);
            numbered.refuses(NothingOpen, &[0]);
        }
    }
}

/// What came after the timer's start has a timer of its own.
#[test]
fn a_gap_past_the_mark_stays_open_and_can_still_be_filled() {
    for bearer in BEARERS {
        let mut numbered = Numbered::with(bearer, &[1, 3]);
        assert_eq!(numbered.expire(1), Ok(1));
        numbered.stands(2, &[(0, 0)]);
        let late = numbered.number(2);
        assert_eq!(numbered.keeper.arrive(late, 0), Ok(0));
        numbered.stands(4, &[(0, 0)]);
    }
}

/// A mark is open if the number was never accepted: the host kept none such.
#[test]
fn the_mark_is_spared_open_or_not() {
    for bearer in BEARERS {
        let mut open = Numbered::with(bearer, &[5]);
        assert_eq!(open.expire(3), Ok(3));
        open.stands(3, &[(0, 2)]);
        open.refuses(NothingOpen, &[3]);
        assert_eq!(open.expire(4), Ok(1));
        open.stands(4, &[(0, 3)]);
        let mut received = Numbered::with(bearer, &[3, 5]);
        assert_eq!(received.expire(3), Ok(3));
        received.stands(4, &[(0, 2)]);
        received.refuses(NothingOpen, &[3, 4]);
        assert_eq!(received.expire(5), Ok(1));
        received.stands(6, &[(0, 2), (4, 4)]);
    }
}

#[test]
fn a_mark_beyond_what_was_accepted() {
    for bearer in BEARERS {
        let half = bearer.1 / 2;
        // Nothing was accepted, or nothing from base on.
        for arrived in [&[][..], &[0, 1, 2]] {
            let base = arrived.len() as u32;
            let mut numbered = Numbered::with(bearer, arrived);
            let marks = [0, 1, 255, 256, half - 1].map(|ahead| base + ahead);
            numbered.refuses(MarkBeyond, &marks);
            let marks = [half, half + 1, 2 * half - 1].map(|ahead| base + ahead);
            numbered.refuses(NothingOpen, &marks);
        }
        // Something was: 6 past base is the highest.
        let mut numbered = Numbered::with(bearer, &[0, 1, 4, 7]);
        numbered.refuses(MarkBeyond, &[8, 9, 300, half, half + 1]);
        numbered.refuses(NothingOpen, &[half + 2, half + 3, 2 * half - 1, 0, 1, 2]);
        assert_eq!(numbered.expire(7), Ok(4));
        numbered.stands(8, &[(2, 3), (5, 6)]);
        numbered.refuses(MarkBeyond, &[8, 9, half + 7]);
        numbered.refuses(NothingOpen, &[7, 6, 0, half + 8]);
    }
}

/// The highest accepted may lie as far ahead as a number can.
#[test]
fn the_highest_accepted_just_below_half_the_circle() {
    for bearer in BEARERS {
        let half = bearer.1 / 2;
        let mut numbered = Numbered::with(bearer, &[half - 1]);
        let base = half - 256;
        numbered.stands(base, &[(0, base - 1)]);
        let mut all = Numbered::with(bearer, &[half - 1]);
        assert_eq!(all.expire(half - 1), Ok(255));
        all.stands(half, &[(0, half - 2)]);
        assert_eq!(numbered.expire(base + 1), Ok(1));
        numbered.refuses(MarkBeyond, &[half, base + half]);
        // Opposite base, and behind it from there on.
        numbered.refuses(NothingOpen, &[base + 1, base + 1 + half, base + 2 + half]);
    }
}

#[test]
fn refusals_come_in_order() {
    for bearer in BEARERS {
        let size = bearer.1;
        let mut numbered = Numbered::with(bearer, &[0, 3]);
        let base = numbered.keeper.base();
        // Reduced to the circle these marks would be accepted.
        for mark in [size, size + 3, u32::MAX, 1 << 31] {
            assert_eq!(numbered.keeper.expire(mark), Err(NumberTooLarge));
        }
        // 19 is asked before 17: with a gap at base and without one.
        numbered.refuses(MarkBeyond, &[4]);
        assert_eq!(numbered.keeper.expire(base), Err(NothingOpen));
        assert_eq!(numbered.expire(3), Ok(2));
        numbered.refuses(MarkBeyond, &[4]);
        status(&mut numbered.keeper, true).unwrap();
        for mark in [0, base, size, u32::MAX] {
            assert_eq!(numbered.keeper.expire(mark), Err(Closed));
        }
    }
}

/// 14 comes last, and counts only the runs before the mark.
#[test]
fn runs_are_counted_up_to_the_mark() {
    let mut keeper = keeper_with_runs(12, 255);
    let base = keeper.base();
    for ahead in [1, 3, 5] {
        keeper.arrive(base + ahead, 0).unwrap();
    }
    for (mark, answer) in [
        (5, Err(RunsFull)),
        (4, Err(RunsFull)),
        (3, Err(RunsFull)),
        (6, Err(MarkBeyond)),
        (0, Err(NothingOpen)),
        (2, Ok(1)),
        (2, Err(NothingOpen)),
        (3, Err(RunsFull)),
        (6, Err(MarkBeyond)),
    ] {
        assert_eq!(keeper.expire(base + mark), answer, "a mark {mark} ahead");
    }
    assert_eq!(keeper.listed_runs().len(), 256);
    status(&mut keeper, false).unwrap();
    assert_eq!(keeper.expire(base + 5), Ok(2));
}

/// A host that keeps a mark while half the circle goes by: the old number looks
/// ahead of base again, and in the end gives up good packets.
#[test]
fn a_mark_kept_for_half_a_circle() {
    for bearer in BEARERS {
        let size = bearer.1;
        let half = size / 2;
        let mut numbered = Numbered::with(bearer, &[0]);
        for (base, refusal) in [
            (half - 1, NothingOpen),
            (half, NothingOpen),
            (half + 1, MarkBeyond),
            (size - 4, MarkBeyond),
        ] {
            numbered.pass_to(base);
            numbered.refuses(refusal, &[0]);
        }
        let newest = numbered.number(3);
        numbered.keeper.arrive(newest, 0).unwrap();
        assert_eq!(numbered.expire(0), Ok(4));
        numbered.stands(0, &[(size - 4, size - 1)]);
    }
}
