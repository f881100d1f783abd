//! The packets that came in and were not yet reported as delivered.

use crate::circle::{Circle, Lies};
use crate::frame::Range;
use crate::ring::Ring;

/// The most records held.
pub const MOST_RECORDS: usize = 512;

/// A packet that was received and not yet reported as delivered.
#[derive(Clone, Copy, Debug, PartialEq, Eq)]
pub struct Record {
    /// Its X2-U number.
    pub number: u32,
    /// Its PDCP number.
    pub pdcp: u32,
    /// Whether it was delivered to the handset.
    pub confirmed: bool,
}

/// Base, and the records on both sides of it in sending order.
///
/// All numbers between two neighbouring records past base are open, so the
/// gaps are read off the records and stored nowhere. What is held lies within
/// half a circle, so that of two records one is ahead; only base may come to
/// lie opposite the oldest.
#[derive(Clone, Debug)]
pub(super) struct Intake {
    circle: Circle,
    base: u32,
    records: Ring<Record, MOST_RECORDS>,
    /// How many records lie before base.
    settled: usize,
    /// How many of the oldest records are confirmed without a break.
    delivered: usize,
}

impl Intake {
    pub(super) const fn from(first: u32, circle: Circle) -> Self {
        let filler = Record {
            number: 0,
            pdcp: 0,
            confirmed: false,
        };
        Self {
            circle,
            base: first,
            records: Ring::new(filler),
            settled: 0,
            delivered: 0,
        }
    }

    pub(super) const fn base(&self) -> u32 {
        self.base
    }

    pub(super) const fn record_count(&self) -> usize {
        self.records.len()
    }

    pub(super) const fn is_full(&self) -> bool {
        self.records.is_full()
    }

    pub(super) fn records(&self) -> impl Iterator<Item = &Record> {
        self.records.iter_from(0)
    }

    /// The number of the oldest record.
    pub(super) fn oldest(&self) -> Option<u32> {
        self.records.get(0).map(|record| record.number)
    }

    /// Whether there is an oldest record, and it is confirmed.
    pub(super) fn is_oldest_confirmed(&self) -> bool {
        self.records.get(0).is_some_and(|record| record.confirmed)
    }

    /// The highest accepted number, if it lies past base.
    pub(super) fn newest_past_base(&self) -> Option<u32> {
        let newest = self.records.last()?;
        (self.settled < self.records.len()).then_some(newest.number)
    }

    /// Where a record of `number`, at or past base, belongs, unless it is there
    /// already.
    pub(super) fn place_for(&self, number: u32) -> Option<usize> {
        let is_below = |held: u32| self.circle.compare(number, held) == Lies::Behind;
        // In-order packets belong at the end; only overtaken ones are sought.
        if self.newest_past_base().is_none_or(is_below) {
            return Some(self.records.len());
        }
        let past_base = self.settled..self.records.len();
        let place = self
            .records
            .partition_point(past_base, |record| is_below(record.number));
        let held = self.records.get(place)?;
        (held.number != number).then_some(place)
    }

    /// Adds a record at the place found for it. The caller has seen that there
    /// is room.
    pub(super) fn insert(&mut self, place: usize, number: u32, pdcp: u32) {
        let record = Record {
            number,
            pdcp,
            confirmed: false,
        };
        self.records.insert(place, record);
    }

    /// The runs of open numbers less than `cut` ahead of base.
    pub(super) fn gaps(&self, cut: u32) -> impl Iterator<Item = Range> {
        let circle = self.circle;
        let end = circle.step(self.base, cut);
        let mut from = self.base;
        self.records
            .iter_from(self.settled)
            .map(|record| record.number)
            .take_while(move |&number| circle.compare(end, number) == Lies::Behind)
            .chain(core::iter::once(end))
            .map(move |to| (core::mem::replace(&mut from, circle.step(to, 1)), to))
            .filter(|(start, to)| start != to)
            .map(move |(start, to)| Range {
                start,
                end: circle.before(to),
            })
    }

    /// Moves base `cut` ahead; everything it passes is received or lost.
    pub(super) fn pass(&mut self, cut: u32) {
        let end = self.circle.step(self.base, cut);
        let past_base = self.settled..self.records.len();
        self.settled = self.records.partition_point(past_base, |record| {
            self.circle.compare(end, record.number) == Lies::Behind
        });
        self.base = end;
    }

    /// Moves base over the records that begin there.
    pub(super) fn settle(&mut self) {
        while let Some(next) = self.records.get(self.settled)
            && next.number == self.base
        {
            self.settled += 1;
            self.base = self.circle.step(self.base, 1);
        }
    }

    /// Confirms the record of `number`, which lies before base. Answers whether
    /// there was one to confirm.
    pub(super) fn confirm(&mut self, number: u32) -> bool {
        let place = self.settled_place(number);
        let Some(record) = self.records.get_mut(place) else {
            return false;
        };
        if record.number != number || record.confirmed {
            return false;
        }
        record.confirmed = true;
        while let Some(next) = self.records.get(self.delivered)
            && next.confirmed
        {
            self.delivered += 1;
        }
        true
    }

    /// The place of `number`, before base, if it has a record.
    fn settled_place(&self, number: u32) -> usize {
        // Handsets mostly confirm in order: try the oldest unconfirmed first.
        match self.records.get(self.delivered) {
            Some(oldest) if oldest.number == number => self.delivered,
            _ => self.count_before(number, self.settled),
        }
    }

    /// How many of the `count` oldest records, all settled, lie before `number`,
    /// which lies before base too.
    fn count_before(&self, number: u32, count: usize) -> usize {
        self.records.partition_point(0..count, |record| {
            self.circle.compare(number, record.number) == Lies::Behind
        })
    }

    /// How many of the oldest records a status may let go: those confirmed
    /// without a break that lie before the first run it leaves out.
    pub(super) fn releasable(&self, left_out: Option<&Range>) -> usize {
        match left_out {
            None => self.delivered,
            Some(run) => self.count_before(run.start, self.delivered),
        }
    }

    /// The PDCP number of the last of the `count` oldest records.
    pub(super) fn last_pdcp_of(&self, count: usize) -> Option<u32> {
        let last = self.records.get(count.checked_sub(1)?)?;
        Some(last.pdcp)
    }

    /// Lets the `count` oldest records go, which are all delivered.
    pub(super) fn release(&mut self, count: usize) {
        self.records.drop_front(count);
        self.settled -= count;
        self.delivered -= count;
    }
}
