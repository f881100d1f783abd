//! Scripts for `replay` that shrink by leaving lines out.

use proptest::collection::vec;
use proptest::prelude::*;
use proptest::strategy::{NewTree, ValueTree};
use proptest::test_runner::TestRunner;
use soak::moods;
use soak::rng::Rng as Chance;
use soak::sizes::LIMITS;
use std::fmt::{self, Debug, Formatter};
use std::ops::Range;
use x2u::ledger::LARGEST_SIZE;

/// Lines without their ends.
#[derive(Clone, PartialEq, Eq)]
pub struct Script(pub Vec<Vec<u8>>);

impl Debug for Script {
    fn fmt(&self, out: &mut Formatter<'_>) -> fmt::Result {
        writeln!(out, "{} lines", self.0.len())?;
        for line in &self.0 {
            writeln!(
                out,
                "{}",
                line.escape_ascii().to_string().replace("\\t", "\t")
            )?;
        }
        Ok(())
    }
}

/// Where scripts come from that follow their own calls and aim at limits.
#[derive(Clone, Copy, Debug, PartialEq, Eq)]
pub enum Aim {
    /// Bearers from their opening to their end, and lines that are no calls:
    /// at least so many lines.
    Moods(usize),
    /// One bearer whose numbers turn at both ends.
    Turn,
    /// One bearer whose forgotten losses meet their own numbers again.
    Forgotten,
    /// One bearer that rests, with sends at the limits of the PDCP order.
    Rests,
    /// One bearer with PDUs at the limits of their size, and around the room.
    Sizes,
    /// One bearer with expiries whose marks are of every kind.
    Marks,
}

impl Strategy for Aim {
    type Tree = Lines;
    type Value = Script;

    fn new_tree(&self, runner: &mut TestRunner) -> NewTree<Self> {
        let mut chance = Chance::new(runner.rng().next_u64());
        let mut fork = || Chance::new(chance.bits());
        let text = match *self {
            Self::Turn => moods::long_script(fork(), true).text,
            Self::Forgotten => moods::long_script(fork(), false).text,
            Self::Rests => moods::rested(fork()).text,
            Self::Sizes => moods::sized(fork()).text,
            Self::Marks => moods::marked(fork()).text,
            Self::Moods(least) => {
                let mut text = moods::unopened(fork());
                let mut lines = 0;
                while lines < least {
                    let script = moods::script(fork());
                    lines += script.len();
                    text.extend(script.text);
                }
                text
            }
        };
        let lines = text.strip_suffix(b"\n").unwrap_or(&text);
        let lines = lines.split(|&octet| octet == b'\n').map(<[u8]>::to_vec);
        Ok(Lines::new(lines.collect()))
    }
}

/// A script on its way to the shortest one that fails: pieces are left out,
/// halves at first and single lines in the end.
pub struct Lines {
    all: Vec<Vec<u8>>,
    /// The places of the lines that are still in.
    kept: Vec<usize>,
    piece: usize,
    from: usize,
    shorter: bool,
    /// What was kept before the last piece was left out.
    before: Option<Vec<usize>>,
}

impl Lines {
    fn new(all: Vec<Vec<u8>>) -> Self {
        Self {
            kept: (0..all.len()).collect(),
            piece: all.len().div_ceil(2),
            from: 0,
            shorter: false,
            all,
            before: None,
        }
    }

    /// The next piece to leave out; none if single lines were tried in vain.
    fn next_piece(&mut self) -> Option<Range<usize>> {
        while self.from >= self.kept.len() {
            let again = self.piece == 1 && self.shorter;
            if self.kept.is_empty() || (self.piece <= 1 && !again) {
                return None;
            }
            self.piece = self.piece.div_ceil(2);
            self.from = 0;
            self.shorter = false;
        }
        Some(self.from..self.kept.len().min(self.from + self.piece))
    }
}

impl ValueTree for Lines {
    type Value = Script;

    fn current(&self) -> Script {
        Script(self.kept.iter().map(|&i| self.all[i].clone()).collect())
    }

    fn simplify(&mut self) -> bool {
        // The piece left out last was not needed.
        self.shorter |= self.before.take().is_some();
        let Some(piece) = self.next_piece() else {
            return false;
        };
        self.before = Some(self.kept.clone());
        self.kept.drain(piece);
        true
    }

    fn complicate(&mut self) -> bool {
        let Some(before) = self.before.take() else {
            return false;
        };
        self.kept = before;
        self.from += self.piece;
        self.simplify()
    }
}

/// A number as a script may have one: small, around a limit, or any.
fn numbers() -> impl Strategy<Value = u32> {
    let limits = [12, 15, 16, 17, 18, 23, 24, 25, 31];
    prop_oneof![
        6 => 0_u32..600,
        2 => (prop::sample::select(limits.to_vec()), 0_u32..8)
            .prop_map(|(bits, more)| (1_u32 << bits) - 4 + more),
        2 => any::<u32>(),
        1 => Just(u32::MAX),
    ]
}

/// A size as a script may have one: mostly one that is allowed.
fn sizes() -> impl Strategy<Value = u32> {
    prop_oneof![
        6 => 1_u32..=LARGEST_SIZE,
        2 => prop::sample::select(LIMITS.to_vec()),
        1 => numbers(),
    ]
}

/// A line that aims at nothing: any call with any numbers.
fn random_line() -> impl Strategy<Value = Vec<u8>> {
    let bits = prop_oneof![9 => prop::sample::select(vec![12_u32, 15, 18]), 1 => 0_u32..40];
    let room = prop_oneof![2 => Just(1_018_u32), 1 => 0_u32..2_052];
    prop_oneof![
        1 => (bits, numbers(), numbers()).prop_map(|(l, n, p)| format!("open\t{l}\t{n}\t{p}")),
        6 => (numbers(), numbers()).prop_map(|(n, p)| format!("arrive\t{n}\t{p}")),
        2 => numbers().prop_map(|mark| format!("expire\t{mark}")),
        4 => numbers().prop_map(|n| format!("confirm\t{n}")),
        2 => (numbers(), numbers(), 0_u32..3, room)
            .prop_map(|(d, m, last, room)| format!("status\t{d}\t{m}\t{}\t{room}", last / 2)),
        6 => (numbers(), sizes()).prop_map(|(p, size)| format!("send\t{p}\t{size}")),
        4 => crate::frames::any_frame().prop_map(|frame| {
            let digits: String = frame.0.iter().map(|octet| format!("{octet:02x}")).collect();
            format!("accept\t{digits}")
        }),
        2 => Just("take".to_owned()),
        2 => Just("room".to_owned()),
        1 => Just("keeper".to_owned()),
        1 => Just("ledger".to_owned()),
        1 => "[a-z\t0-9 ]{0,30}",
    ]
    .prop_map(String::into_bytes)
}

/// Scripts that aim at nothing, behind an open that is accepted.
pub fn random(lines: Range<usize>) -> impl Strategy<Value = Script> {
    let first = prop::sample::select(vec![
        "open\t12\t0\t0",
        "open\t15\t65500\t0",
        "open\t18\t0\t9",
    ]);
    (first, vec(random_line(), lines)).prop_map(|(first, lines)| {
        let mut script = vec![first.as_bytes().to_vec()];
        script.extend(lines);
        Script(script)
    })
}

#[cfg(test)]
mod tests {
    use super::{Aim, Lines, random};
    use proptest::strategy::{Strategy, ValueTree};
    use proptest::test_runner::{TestError, TestRunner};

    fn smallest(fails: impl Fn(&[Vec<u8>]) -> bool) -> Vec<Vec<u8>> {
        let mut runner = TestRunner::deterministic();
        let outcome = runner.run(&Aim::Moods(2_000), |script| {
            if fails(&script.0) {
                Err(proptest::test_runner::TestCaseError::fail("so it should"))
            } else {
                Ok(())
            }
        });
        match outcome {
            Err(TestError::Fail(_, script)) => script.0,
            _ => panic!("no case failed"),
        }
    }

    #[test]
    fn a_script_shrinks_to_the_lines_that_matter() {
        let begins = |line: &[u8], word: &str| line.starts_with(word.as_bytes());
        let lines = smallest(|lines| {
            let expire = lines.iter().position(|line| begins(line, "expire"));
            let take = lines.iter().rposition(|line| begins(line, "take"));
            expire.zip(take).is_some_and(|(expire, take)| expire < take)
        });
        assert_eq!(lines.len(), 2);
        assert!(begins(&lines[0], "expire") && begins(&lines[1], "take"));
    }

    #[test]
    fn a_script_that_must_be_whole_stays_whole() {
        let all: Vec<Vec<u8>> = (0_u8..9).map(|i| vec![i]).collect();
        let mut tree = Lines::new(all.clone());
        // Each shorter one passes.
        let mut more = tree.simplify();
        while more {
            assert!(tree.current().0.len() < all.len());
            more = tree.complicate();
        }
        assert_eq!(tree.current().0, all);
    }

    #[test]
    fn random_scripts_open_first() {
        let mut runner = TestRunner::deterministic();
        let script = random(5..6).new_tree(&mut runner).unwrap().current();
        assert_eq!(script.0.len(), 6);
        assert!(script.0[0].starts_with(b"open\t"));
    }
}
