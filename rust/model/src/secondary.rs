//! The secondary's rule, number by number.

use crate::Opening;
use std::collections::BTreeMap;
use x2u::Refusal;

/// "Each number from the first on is open, received or lost."
#[derive(Clone, Copy, Debug, PartialEq, Eq)]
enum Fate {
    Open,
    Received,
    Lost,
    /// Lost, and carried by a status.
    Reported,
}

#[derive(Clone, Copy, Debug)]
struct Record {
    pdcp: u32,
    confirmed: bool,
}

/// A status as the document describes it, in indexes.
#[derive(Clone, Debug, PartialEq, Eq)]
pub struct Built {
    /// Highest PDCP number.
    pub highest: u32,
    /// First and last index of each range.
    pub ranges: Vec<(usize, usize)>,
    /// The frame's length.
    pub length: usize,
}

/// The secondary's end.
#[derive(Clone, Debug)]
pub struct Secondary {
    opening: Opening,
    /// The fate of each index; all beyond the end are open.
    fates: Vec<Fate>,
    records: BTreeMap<usize, Record>,
    base: usize,
    /// Nothing before this index is listed; only saves time.
    reported_below: usize,
    reported_highest: u32,
    closed: bool,
}

impl Secondary {
    /// A fresh end.
    #[must_use]
    pub fn open(opening: Opening) -> Self {
        let before_first = (opening.first_pdcp + opening.pdcps() - 1) % opening.pdcps();
        Self {
            opening,
            fates: Vec::new(),
            records: BTreeMap::new(),
            base: 0,
            reported_below: 0,
            reported_highest: before_first as u32,
            closed: false,
        }
    }

    /// Arrival of a number and its PDCP number.
    pub fn arrive(&mut self, number: u32, pdcp: u32) -> Result<u32, Refusal> {
        let half = (self.opening.numbers() / 2) as usize;
        if self.closed {
            return Err(Refusal::Closed);
        }
        if u64::from(number) >= self.opening.numbers() || u64::from(pdcp) >= self.opening.pdcps() {
            return Err(Refusal::NumberTooLarge);
        }
        let index = self.opening.index_from(self.base, number);
        if index - self.base == half {
            return Err(Refusal::Opposite);
        }
        if index - self.base > half {
            return Err(Refusal::Late);
        }
        if self.fate(index) != Fate::Open {
            return Err(Refusal::Repeated);
        }
        if (self.base - self.floor()) + (index - self.base) >= half {
            return Err(Refusal::Span);
        }
        // "256 or more below the arrival"
        let mark = (index + 1).saturating_sub(256);
        if self.runs_if_lost_below(mark).len() > 256 {
            return Err(Refusal::RunsFull);
        }
        if self.records.len() >= 512 {
            return Err(Refusal::RecordsFull);
        }
        if self.fates.len() <= index {
            self.fates.resize(index + 1, Fate::Open);
        }
        self.fates[index] = Fate::Received;
        let confirmed = false;
        self.records.insert(index, Record { pdcp, confirmed });
        Ok(self.lose_below(mark))
    }

    /// Expiry with a mark: of all indexes through the highest accepted it is the
    /// latest that has its number.
    pub fn expire(&mut self, number: u32) -> Result<u32, Refusal> {
        if self.closed {
            return Err(Refusal::Closed);
        }
        if u64::from(number) >= self.opening.numbers() {
            return Err(Refusal::NumberTooLarge);
        }
        let highest_accepted = self.fates.iter().rposition(|&fate| fate == Fate::Received);
        // "less than M/2 forward from base and beyond the highest accepted, or so
        // placed when nothing at or past base is accepted"
        let ahead = self.opening.index_from(self.base, number);
        let half = (self.opening.numbers() / 2) as usize;
        if ahead - self.base < half && highest_accepted < Some(ahead) {
            return Err(Refusal::MarkBeyond);
        }
        let named = highest_accepted.and_then(|last| self.opening.index_through(last, number));
        // "no open number precedes the mark"
        let mark = named.filter(|&mark| (self.base..mark).any(|i| self.fate(i) == Fate::Open));
        let mark = mark.ok_or(Refusal::NothingOpen)?;
        if self.runs_if_lost_below(mark).len() > 256 {
            return Err(Refusal::RunsFull);
        }
        Ok(self.lose_below(mark))
    }

    /// Confirm of a number.
    pub fn confirm(&mut self, number: u32) -> Result<(), Refusal> {
        if self.closed {
            return Err(Refusal::Closed);
        }
        if u64::from(number) >= self.opening.numbers() {
            return Err(Refusal::NumberTooLarge);
        }
        let opening = self.opening;
        let mut before_base = self.records.range_mut(..self.base);
        match before_base.find(|&(&index, _)| opening.number(index) == number) {
            Some((_, record)) if !record.confirmed => {
                record.confirmed = true;
                Ok(())
            }
            _ => Err(Refusal::NotConfirmable),
        }
    }

    /// Status with a Final flag and a buffer of `room` octets.
    pub fn status(&mut self, is_final: bool, room: usize) -> Result<Built, Refusal> {
        if self.closed {
            return Err(Refusal::Closed);
        }
        let mut ranges = self.listed();
        if is_final && ranges.len() > 162 {
            return Err(Refusal::FinalTooEarly);
        }
        let left_out = ranges.get(162).map(|&(start, _)| start);
        ranges.truncate(162);
        let released: Vec<usize> = self
            .records()
            .take_while(|&index| self.confirmed(index))
            .take_while(|&index| left_out.is_none_or(|start| index < start))
            .collect();
        let highest = match released.last() {
            Some(&last) => self.pdcp(last),
            None => self.reported_highest,
        };
        let length = frame_length(self.opening.bits, ranges.len());
        if room < length {
            return Err(Refusal::BufferShort);
        }
        for index in released {
            self.records.remove(&index);
        }
        for &(start, end) in &ranges {
            self.fates[start..=end].fill(Fate::Reported);
            self.reported_below = end + 1;
        }
        self.reported_highest = highest;
        self.closed = is_final;
        Ok(Built {
            highest,
            ranges,
            length,
        })
    }

    /// "Would a status now carry a range or let go of a record?" One is built, on a
    /// copy and in a buffer that is long enough.
    pub fn anything(&self) -> Result<bool, Refusal> {
        let mut after = self.clone();
        let built = after.status(false, 1_018)?;
        let lets_go = after.records.len() < self.records.len();
        Ok(!built.ranges.is_empty() || lets_go)
    }

    /// "Base is the lowest open number", as an index.
    #[must_use]
    pub fn base(&self) -> usize {
        self.base
    }

    /// The reported highest.
    #[must_use]
    pub fn reported_highest(&self) -> u32 {
        self.reported_highest
    }

    /// Whether a final status was built.
    #[must_use]
    pub fn is_closed(&self) -> bool {
        self.closed
    }

    /// "The maximal runs of lost, unreported numbers, in sending order", as
    /// first and last indexes.
    #[must_use]
    pub fn listed(&self) -> Vec<(usize, usize)> {
        self.runs_if_lost_below(0)
    }

    /// The indexes with records, in sending order.
    pub fn records(&self) -> impl Iterator<Item = usize> {
        self.records.keys().copied()
    }

    /// The PDCP number of the record at an index.
    #[must_use]
    pub fn pdcp(&self, index: usize) -> u32 {
        self.records[&index].pdcp
    }

    /// Whether the record at an index is confirmed.
    #[must_use]
    pub fn confirmed(&self, index: usize) -> bool {
        self.records[&index].confirmed
    }

    /// "The earliest of base, the listed numbers and the numbers with records."
    #[must_use]
    pub fn floor(&self) -> usize {
        let listed = self.listed().first().map(|&(start, _)| start);
        let recorded = self.records().next();
        let earliest = listed.into_iter().chain(recorded).min();
        earliest.map_or(self.base, |earliest| earliest.min(self.base))
    }

    fn fate(&self, index: usize) -> Fate {
        self.fates.get(index).copied().unwrap_or(Fate::Open)
    }

    /// The listed runs as they would be if each open number below `mark` were
    /// lost.
    fn runs_if_lost_below(&self, mark: usize) -> Vec<(usize, usize)> {
        let mut runs: Vec<(usize, usize)> = Vec::new();
        for index in self.reported_below..self.fates.len().max(mark) {
            let listed = match self.fate(index) {
                Fate::Open => index < mark,
                Fate::Lost => true,
                Fate::Received | Fate::Reported => false,
            };
            if !listed {
                continue;
            }
            match runs.last_mut() {
                Some((_, end)) if *end + 1 == index => *end = index,
                _ => runs.push((index, index)),
            }
        }
        runs
    }

    fn lose_below(&mut self, mark: usize) -> u32 {
        let mut lost = 0;
        for fate in &mut self.fates[self.base.min(mark)..mark] {
            if *fate == Fate::Open {
                *fate = Fate::Lost;
                lost += 1;
            }
        }
        while self.fate(self.base) != Fate::Open {
            self.base += 1;
        }
        lost
    }
}

/// The layout table's lengths, padded to the next 4k - 2.
fn frame_length(bits: u32, ranges: usize) -> usize {
    let mut length = match (bits, ranges) {
        (18, 0) => 12,
        (18, n) => 13 + 6 * n,
        (_, 0) => 11,
        (_, n) => 12 + 4 * n,
    };
    while length % 4 != 2 {
        length += 1;
    }
    length
}
