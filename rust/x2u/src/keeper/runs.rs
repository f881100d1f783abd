//! The list of runs that are lost and not yet reported.

use crate::circle::Circle;
use crate::frame::Range;

/// The most runs listed.
pub const MOST_RUNS: usize = 256;

/// Runs in sending order, no two of them adjacent. New losses always follow
/// the listed ones, so only the last run can grow.
#[derive(Clone, Debug)]
pub(super) struct Runs {
    circle: Circle,
    list: [Range; MOST_RUNS],
    len: usize,
}

impl Runs {
    pub(super) const fn none(circle: Circle) -> Self {
        Self {
            circle,
            list: [Range { start: 0, end: 0 }; MOST_RUNS],
            len: 0,
        }
    }

    pub(super) fn list(&self) -> &[Range] {
        &self.list[..self.len]
    }

    /// At most the first `count` runs, and the one after them if there is one.
    pub(super) fn first(&self, count: usize) -> (&[Range], Option<&Range>) {
        let list = self.list();
        match list.split_at_checked(count) {
            Some((first, rest)) => (first, rest.first()),
            None => (list, None),
        }
    }

    /// Whether there is room for `gaps`, which follow all that is listed and
    /// don't touch one another.
    pub(super) fn can_take(&self, gaps: impl Iterator<Item = Range>) -> bool {
        let mut gaps = gaps.peekable();
        let joined = gaps.peek().is_some_and(|gap| self.reaches(gap));
        self.len + gaps.count() - usize::from(joined) <= MOST_RUNS
    }

    /// Lists `gap`, which follows all that is listed, and answers how many
    /// numbers it has.
    pub(super) fn add(&mut self, gap: Range) -> u32 {
        if self.reaches(&gap) {
            self.list[self.len - 1].end = gap.end;
        } else {
            self.list[self.len] = gap;
            self.len += 1;
        }
        self.circle.forward(gap.start, gap.end) + 1
    }

    pub(super) fn drop_first(&mut self, count: usize) {
        self.list.copy_within(count..self.len, 0);
        self.len -= count;
    }

    /// Whether the last run ends just before `gap`.
    fn reaches(&self, gap: &Range) -> bool {
        let last = self.list().last();
        last.is_some_and(|run| self.circle.step(run.end, 1) == gap.start)
    }
}
