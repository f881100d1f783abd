//! The secondary: it takes packets in, declares the missing ones lost and
//! reports losses and deliveries to the master.
//!
//! Losses are kept as runs and never walked number by number, so an arrival
//! that jumps over millions of numbers costs what a jump over 300 costs.

mod intake;
mod runs;

use crate::Answer;
use crate::bearer::Bearer;
use crate::circle::Lies;
use crate::frame::{self, MOST_RANGES, Range, Report};
use crate::refusal::{Refusal, refuse_if};
pub use intake::{MOST_RECORDS, Record};
pub use runs::MOST_RUNS;

use intake::Intake;
use runs::Runs;

/// An open number this far below an arrival is lost.
pub const WINDOW: u32 = 256;

/// The secondary's end of a bearer.
#[derive(Clone, Debug)]
pub struct Keeper {
    bearer: Bearer,
    reported: u32,
    closed: bool,
    intake: Intake,
    runs: Runs,
}

impl Keeper {
    /// Opens an end for PDCP numbers of `pdcp_bits`, from its first numbers on.
    pub fn open(pdcp_bits: u32, first: u32, first_pdcp: u32) -> Answer<Self> {
        let bearer = Bearer::judged(pdcp_bits, first, first_pdcp)?;
        let circle = bearer.numbers();
        Ok(Self {
            bearer,
            reported: bearer.pdcp.before(first_pdcp),
            closed: false,
            intake: Intake::from(first, circle),
            runs: Runs::none(circle),
        })
    }

    /// A packet came in. Answers how many numbers became lost by it.
    pub fn arrive(&mut self, number: u32, pdcp: u32) -> Answer<u32> {
        refuse_if(self.closed, Refusal::Closed)?;
        self.bearer.judge(number, pdcp)?;
        let (circle, base) = (self.bearer.numbers(), self.base());
        let lies = circle.compare(base, number);
        refuse_if(lies == Lies::Opposite, Refusal::Opposite)?;
        refuse_if(lies == Lies::Behind, Refusal::Late)?;
        let place = self.intake.place_for(number).ok_or(Refusal::Repeated)?;
        let ahead = circle.forward(base, number);
        let span = circle.forward(self.floor(), base) + ahead;
        refuse_if(span >= circle.half(), Refusal::Span)?;
        let cut = (ahead + 1).saturating_sub(WINDOW);
        self.judge_loss(cut)?;
        refuse_if(self.intake.is_full(), Refusal::RecordsFull)?;

        self.intake.insert(place, number, pdcp);
        Ok(self.lose(cut))
    }

    /// The host's gap timer ended: gives up every open number before `mark`, the
    /// highest accepted when it started. Answers how many became lost. A mark that
    /// was kept while half the circle went by looks ahead of base again.
    pub fn expire(&mut self, mark: u32) -> Answer<u32> {
        refuse_if(self.closed, Refusal::Closed)?;
        let circle = self.bearer.numbers();
        refuse_if(!circle.holds(mark), Refusal::NumberTooLarge)?;
        let lies = circle.compare(self.base(), mark);
        let is_beyond = !lies.is_before() && self.is_past_accepted(mark);
        refuse_if(is_beyond, Refusal::MarkBeyond)?;
        // Base is open, so it precedes every mark that lies ahead of it.
        refuse_if(lies != Lies::Ahead, Refusal::NothingOpen)?;
        let cut = circle.forward(self.base(), mark);
        self.judge_loss(cut)?;
        Ok(self.lose(cut))
    }

    /// The packet of that number was delivered to the handset.
    pub fn confirm(&mut self, number: u32) -> Answer<()> {
        refuse_if(self.closed, Refusal::Closed)?;
        let circle = self.bearer.numbers();
        refuse_if(!circle.holds(number), Refusal::NumberTooLarge)?;
        let is_before_base = circle.compare(self.base(), number).is_before();
        let confirmed = is_before_base && self.intake.confirm(number);
        refuse_if(!confirmed, Refusal::NotConfirmable)
    }

    /// Writes the next status to the front of `buffer` and answers its length.
    /// What it reports is let go.
    pub fn status(
        &mut self,
        desired: u32,
        minimum: u32,
        is_final: bool,
        buffer: &mut [u8],
    ) -> Answer<usize> {
        refuse_if(self.closed, Refusal::Closed)?;
        let (carried, left_out) = self.runs.first(MOST_RANGES);
        refuse_if(is_final && left_out.is_some(), Refusal::FinalTooEarly)?;
        let released = self.intake.releasable(left_out);
        let highest = self.intake.last_pdcp_of(released).unwrap_or(self.reported);
        let report = Report {
            highest,
            desired,
            minimum,
            is_final,
        };
        let length = frame::write_status(self.bearer.form, &report, carried, buffer)?;

        let carried = carried.len();
        self.runs.drop_first(carried);
        self.intake.release(released);
        self.reported = highest;
        self.closed = is_final;
        Ok(length)
    }

    /// Anything to say? Whether a status now would carry a range or let go of a
    /// record. It looks at the first run, or at the first record if no run is
    /// listed: with no run left out, a status lets that one go if it is confirmed.
    pub fn anything(&self) -> Answer<bool> {
        refuse_if(self.closed, Refusal::Closed)?;
        Ok(!self.runs.list().is_empty() || self.intake.is_oldest_confirmed())
    }

    /// The lowest open number.
    #[must_use]
    pub const fn base(&self) -> u32 {
        self.intake.base()
    }

    /// The highest PDCP number that the last status reported.
    #[must_use]
    pub const fn reported_highest(&self) -> u32 {
        self.reported
    }

    /// Whether a final status was built.
    #[must_use]
    pub const fn is_closed(&self) -> bool {
        self.closed
    }

    /// The runs of lost, unreported numbers, in sending order.
    #[must_use]
    pub fn listed_runs(&self) -> &[Range] {
        self.runs.list()
    }

    /// The records, in sending order.
    pub fn records(&self) -> impl Iterator<Item = &Record> {
        self.intake.records()
    }

    /// How many records are held.
    #[must_use]
    pub const fn record_count(&self) -> usize {
        self.intake.record_count()
    }

    /// Whether `mark`, at or past base, lies past the highest accepted, or nothing
    /// past base is accepted.
    fn is_past_accepted(&self, mark: u32) -> bool {
        let circle = self.bearer.numbers();
        let newest = self.intake.newest_past_base();
        newest.is_none_or(|newest| circle.compare(newest, mark) == Lies::Ahead)
    }

    /// The earliest of base, the listed numbers and the numbers with records.
    fn floor(&self) -> u32 {
        // What is listed lies before base, and the first run before the others.
        let first_run = self.runs.list().first();
        let listed = first_run.map_or(self.base(), |run| run.start);
        match self.intake.oldest() {
            Some(oldest) if self.bearer.numbers().compare(listed, oldest).is_before() => oldest,
            _ => listed,
        }
    }

    /// Refuses a loss of all open numbers below `cut` that the list can't take.
    fn judge_loss(&self, cut: u32) -> Answer<()> {
        let fits = cut == 0 || self.runs.can_take(self.intake.gaps(cut));
        refuse_if(!fits, Refusal::RunsFull)
    }

    /// Declares lost every open number less than `cut` ahead of base, which the
    /// list was seen to take, and moves base up. Answers how many were lost.
    fn lose(&mut self, cut: u32) -> u32 {
        let mut lost = 0;
        // Most arrivals lose nothing.
        if cut > 0 {
            let gaps = self.intake.gaps(cut);
            lost = gaps.map(|gap| self.runs.add(gap)).sum();
            self.intake.pass(cut);
        }
        self.intake.settle();
        lost
    }
}
