//! Anything to say? What a secondary answers, and that a status built then agrees.

mod common;

use common::{BEARERS, Numbered, status, status_of};
use x2u::Refusal::{BufferShort, Closed, FinalTooEarly, NotConfirmable};

impl Numbered {
    fn confirm(&mut self, aheads: &[u32]) {
        for &ahead in aheads {
            let number = self.number(ahead);
            self.keeper.confirm(number).unwrap();
        }
    }

    fn status(&mut self) {
        status(&mut self.keeper, false).unwrap();
    }

    /// Sees that the answer is this one, and what a status does that is built now.
    fn says(&self, wanted: bool) {
        assert_eq!(self.keeper.anything(), Ok(wanted), "{:?}", self.keeper);
        let mut built = self.keeper.clone();
        let (_, ranges) = status_of(&status(&mut built, false).unwrap());
        let lets_go = built.record_count() < self.keeper.record_count();
        assert_eq!(!ranges.is_empty() || lets_go, wanted, "{:?}", self.keeper);
    }
}

#[test]
fn nothing_is_said_of_what_is_open_or_not_confirmed() {
    for bearer in BEARERS {
        for arrived in [&[][..], &[0], &[0, 1, 2], &[1], &[0, 2, 5], &[255]] {
            Numbered::with(bearer, arrived).says(false);
        }
    }
}

#[test]
fn the_first_record_is_looked_at_and_no_other() {
    for bearer in BEARERS {
        let mut numbered = Numbered::with(bearer, &[2, 0, 1, 3]);
        for later in [3, 1, 2] {
            numbered.confirm(&[later]);
            numbered.says(false);
        }
        numbered.confirm(&[0]);
        numbered.says(true);
        let mut first = Numbered::with(bearer, &[2, 0, 1, 3]);
        first.confirm(&[0]);
        first.says(true);
        first.status();
        first.says(false);
        assert_eq!(first.keeper.record_count(), 3);
    }
}

/// What came past base can't be confirmed yet, so nothing is to be said of it.
#[test]
fn a_first_record_past_base() {
    for bearer in BEARERS {
        let mut numbered = Numbered::with(bearer, &[1, 2]);
        let past = numbered.number(1);
        assert_eq!(numbered.keeper.confirm(past), Err(NotConfirmable));
        numbered.says(false);
        let base = numbered.number(0);
        numbered.keeper.arrive(base, 0).unwrap();
        numbered.confirm(&[1, 2]);
        numbered.says(false);
        numbered.confirm(&[0]);
        numbered.says(true);
    }
}

/// Given up by an expiry or by an arrival; no number is lost without a record past
/// it, which stays as long as the run.
#[test]
fn a_listed_run_is_enough() {
    for bearer in BEARERS {
        Numbered::with(bearer, &[256]).says(true);
        let mut numbered = Numbered::with(bearer, &[0, 2, 3]);
        numbered.says(false);
        assert_eq!(numbered.expire(2), Ok(1));
        numbered.says(true);
        // The first record isn't confirmed, with and without a later one that is.
        numbered.confirm(&[3]);
        numbered.says(true);
        numbered.status();
        numbered.says(false);
        numbered.confirm(&[2]);
        numbered.says(false);
        numbered.confirm(&[0]);
        numbered.says(true);
        numbered.status();
        numbered.says(false);
        assert_eq!(numbered.keeper.record_count(), 0);
    }
}

#[test]
fn a_confirm_that_comes_after_the_status() {
    for bearer in BEARERS {
        let mut numbered = Numbered::with(bearer, &[0, 1, 3]);
        numbered.confirm(&[1]);
        assert_eq!(numbered.expire(3), Ok(1));
        numbered.confirm(&[3]);
        numbered.status();
        // Both wait for the one before them.
        numbered.says(false);
        numbered.confirm(&[0]);
        numbered.says(true);
        numbered.status();
        assert_eq!(numbered.keeper.record_count(), 0);
        numbered.says(false);
    }
}

/// Every second number is lost, so many, and all that came is confirmed.
fn with_runs(bearer: (u32, u32, u32), runs: u32) -> Numbered {
    let arrived: Vec<u32> = (0..runs).map(|run| 2 * run + 1).collect();
    let mut numbered = Numbered::with(bearer, &arrived);
    numbered.expire(2 * runs - 1).unwrap();
    numbered.confirm(&arrived);
    assert_eq!(numbered.keeper.listed_runs().len(), runs as usize);
    numbered
}

/// Right behind a status there is something to say exactly if it left runs out:
/// the records behind them are held back, confirmed as they are.
#[test]
fn runs_left_out_are_still_to_be_said() {
    for bearer in BEARERS {
        for (runs, held) in [(1, 0), (162, 0), (163, 1), (256, 94)] {
            let mut numbered = with_runs(bearer, runs);
            numbered.says(true);
            numbered.status();
            assert_eq!(numbered.keeper.record_count(), held);
            numbered.says(held > 0);
            numbered.status();
            numbered.says(false);
        }
    }
}

/// A record may bear the PDCP number that was reported last: the frame that lets
/// it go reports the same highest again.
#[test]
fn a_record_that_bears_the_reported_highest() {
    for bearer in BEARERS {
        let mut numbered = Numbered::with(bearer, &[0, 1]);
        numbered.confirm(&[0]);
        numbered.status();
        numbered.says(false);
        numbered.confirm(&[1]);
        numbered.says(true);
        numbered.status();
        assert_eq!(numbered.keeper.reported_highest(), 0);
        numbered.says(false);
    }
}

#[test]
fn a_refused_status_leaves_the_answer() {
    for bearer in BEARERS {
        let mut numbered = with_runs(bearer, 163);
        assert_eq!(status(&mut numbered.keeper, true), Err(FinalTooEarly));
        numbered.says(true);
        for is_final in [false, true] {
            let mut silent = Numbered::with(bearer, &[0]);
            let answer = silent.keeper.status(0, 0, is_final, &mut [0; 13]);
            assert_eq!(answer, Err(BufferShort));
            silent.says(false);
        }
    }
}

#[test]
fn a_closed_end_is_not_asked() {
    for bearer in BEARERS {
        for (arrived, confirmed) in [(&[][..], &[][..]), (&[0, 1], &[1]), (&[0, 2], &[0])] {
            let mut numbered = Numbered::with(bearer, arrived);
            numbered.confirm(confirmed);
            status(&mut numbered.keeper, true).unwrap();
            assert_eq!(numbered.keeper.anything(), Err(Closed));
        }
    }
}
