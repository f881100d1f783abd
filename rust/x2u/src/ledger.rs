//! The master: it numbers packets as they go out and holds each until a status
//! settles it.

use crate::Answer;
use crate::bearer::Bearer;
use crate::frame::{self, Frame, Ranges, Report};
use crate::refusal::{Refusal, refuse_if};
use crate::ring::Ring;

/// The most entries held.
pub const MOST_ENTRIES: usize = 512;
/// The largest size of a PDU, in octets; the smallest is 1.
pub const LARGEST_SIZE: u32 = 16_384;

/// What became of a packet that is still held.
#[derive(Clone, Copy, Debug, PartialEq, Eq)]
pub enum Fate {
    /// No status has settled it.
    Waiting,
    /// The secondary reported it lost.
    Lost,
}

/// A packet that was sent and is still held.
#[derive(Clone, Copy, Debug, PartialEq, Eq)]
pub struct Entry {
    /// Its X2-U number.
    pub number: u32,
    /// Its PDCP number.
    pub pdcp: u32,
    /// Its size in octets, in no more bits than it needs: an entry is as small
    /// as it was without.
    pub size: u16,
    /// What became of it.
    pub fate: Fate,
}

/// What an accepted status did.
#[derive(Clone, Copy, Debug, PartialEq, Eq)]
pub struct Settled {
    /// How many entries were delivered and have left.
    pub freed: u32,
    /// How many entries became lost.
    pub lost: u32,
    /// Whether the status was final.
    pub is_final: bool,
}

/// The master's end of a bearer.
#[derive(Clone, Debug)]
pub struct Ledger {
    bearer: Bearer,
    next: u32,
    highest: u32,
    last_sent: u32,
    desired: u32,
    minimum: u32,
    closed: bool,
    /// In sending order. A lost entry may bear the numbers of a waiting one
    /// once they rolled over, so only waiting entries are ever looked up.
    entries: Ring<Entry, MOST_ENTRIES>,
    /// How many lost entries stand in front of the oldest waiting one, or in
    /// all if none waits: send finds it without a walk over what nobody took.
    lost_in_front: usize,
}

impl Ledger {
    /// Opens an end for PDCP numbers of `pdcp_bits`, from its first numbers on.
    pub fn open(pdcp_bits: u32, first: u32, first_pdcp: u32) -> Answer<Self> {
        let bearer = Bearer::judged(pdcp_bits, first, first_pdcp)?;
        let highest = bearer.pdcp.before(first_pdcp);
        let filler = Entry {
            number: 0,
            pdcp: 0,
            size: 0,
            fate: Fate::Waiting,
        };
        Ok(Self {
            bearer,
            next: first,
            highest,
            last_sent: highest,
            desired: 0,
            minimum: 0,
            closed: false,
            entries: Ring::new(filler),
            lost_in_front: 0,
        })
    }

    /// Sends the packet of that PDCP number, whose PDU has `size` octets, and
    /// answers its X2-U number.
    pub fn send(&mut self, pdcp: u32, size: u32) -> Answer<u32> {
        refuse_if(self.closed, Refusal::Closed)?;
        refuse_if(!self.bearer.pdcp.holds(pdcp), Refusal::NumberTooLarge)?;
        let size = judged_size(size)?;
        refuse_if(!self.is_in_order(pdcp), Refusal::PdcpOrder)?;
        refuse_if(self.entries.is_full(), Refusal::LedgerFull)?;

        let number = self.next;
        self.entries.push(Entry {
            number,
            pdcp,
            size,
            fate: Fate::Waiting,
        });
        self.next = self.bearer.numbers().step(number, 1);
        self.last_sent = pdcp;
        Ok(number)
    }

    /// Applies a status that came in.
    pub fn accept(&mut self, octets: &[u8]) -> Answer<Settled> {
        refuse_if(self.closed, Refusal::Closed)?;
        let (report, ranges) = self.judge_status(octets)?;
        let named = self.named_by(ranges)?;
        let through = self.count_through(report.highest, &named)?;

        let lost = self.mark_lost(&named);
        let freed = self
            .entries
            .retain_front(through, |entry| entry.fate == Fate::Lost);
        // Of those that the highest settles only lost ones are left.
        self.count_lost_in_front(self.lost_in_front.max(through) - freed);
        self.highest = report.highest;
        self.desired = report.desired;
        self.minimum = report.minimum;
        self.closed = report.is_final;
        Ok(Settled {
            freed: freed as u32,
            lost,
            is_final: report.is_final,
        })
    }

    /// Takes out the oldest lost entry, or once closed the oldest entry.
    pub fn take(&mut self) -> Answer<Entry> {
        let oldest = self
            .entries
            .iter_from(0)
            .position(|entry| self.closed || entry.fate == Fate::Lost);
        let place = oldest.ok_or(Refusal::NothingToTake)?;
        let taken = self.entries.remove(place);
        let from_front = usize::from(place < self.lost_in_front);
        self.count_lost_in_front(self.lost_in_front - from_front);
        Ok(taken)
    }

    /// The X2-U number of the next packet.
    #[must_use]
    pub const fn next_number(&self) -> u32 {
        self.next
    }

    /// The highest PDCP number last accepted.
    #[must_use]
    pub const fn highest(&self) -> u32 {
        self.highest
    }

    /// The PDCP number last sent.
    #[must_use]
    pub const fn last_sent(&self) -> u32 {
        self.last_sent
    }

    /// Whether a final status was accepted.
    #[must_use]
    pub const fn is_closed(&self) -> bool {
        self.closed
    }

    /// The desired buffer size of the last status, 0 before any.
    #[must_use]
    pub const fn desired(&self) -> u32 {
        self.desired
    }

    /// The minimum desired buffer size of the last status, 0 before any.
    #[must_use]
    pub const fn minimum(&self) -> u32 {
        self.minimum
    }

    /// The sizes of all entries that wait. They are added up whenever somebody
    /// asks: a ledger that keeps the sum is compared with this one.
    #[must_use]
    pub fn waiting_octets(&self) -> u32 {
        // 512 of the largest fit.
        let sizes = self.waiting().map(|(_, entry)| u32::from(entry.size));
        sizes.sum()
    }

    /// How many octets the secondary still wants: the desired size of the last
    /// status less the sizes of all entries that wait, and 0 if they are more,
    /// or before any status.
    #[must_use]
    pub fn room(&self) -> u32 {
        self.desired.saturating_sub(self.waiting_octets())
    }

    /// The entries, in sending order.
    pub fn entries(&self) -> impl Iterator<Item = &Entry> {
        self.entries.iter_from(0)
    }

    /// The oldest entry that waits, from which the order of sends is measured.
    #[must_use]
    pub fn oldest_waiting(&self) -> Option<&Entry> {
        self.entries.get(self.lost_in_front)
    }

    /// How many entries are held.
    #[must_use]
    pub const fn entry_count(&self) -> usize {
        self.entries.len()
    }

    /// Whether a send of `pdcp` keeps the PDCP order: it isn't the highest last
    /// accepted, or a repeated status would free it; and if any entry waits, it
    /// lies past the last sent and less than half the circle on, both measured
    /// from the oldest that does.
    fn is_in_order(&self, pdcp: u32) -> bool {
        let circle = self.bearer.pdcp;
        let follows = |oldest: &Entry| {
            let ahead = circle.forward(oldest.pdcp, pdcp);
            ahead > circle.forward(oldest.pdcp, self.last_sent) && ahead < circle.half()
        };
        pdcp != self.highest && self.oldest_waiting().is_none_or(follows)
    }

    /// Reads a frame that must be a status of this bearer.
    fn judge_status<'a>(&self, octets: &'a [u8]) -> Answer<(Report, Ranges<'a>)> {
        match frame::read(octets) {
            Frame::Refused(refusal) => Err(refusal),
            Frame::Status {
                form,
                report,
                ranges,
            } if form == self.bearer.form => {
                let held = self.bearer.pdcp.holds(report.highest);
                refuse_if(!held, Refusal::HighestOutside)?;
                Ok((report, ranges))
            }
            _ => Err(Refusal::NotOurStatus),
        }
    }

    /// The places that `ranges` name. Ranges and entries are walked side by
    /// side and the first number that isn't waiting ends the walk, so a range
    /// of millions costs no more than the ledger is long.
    fn named_by(&self, ranges: Ranges<'_>) -> Answer<Places> {
        let mut named = Places::default();
        let mut waiting = self.waiting();
        for range in ranges {
            let mut number = range.start;
            loop {
                let (place, _) = waiting
                    .find(|(_, entry)| entry.number == number)
                    .ok_or(Refusal::RangesNotWaiting)?;
                named.add(place);
                if number == range.end {
                    break;
                }
                number = self.bearer.numbers().step(number, 1);
            }
        }
        Ok(named)
    }

    /// How many of the oldest entries the frame's highest settles: those
    /// through the waiting entry that bears it and isn't named lost.
    fn count_through(&self, highest: u32, named: &Places) -> Answer<usize> {
        if highest == self.highest {
            return Ok(0);
        }
        let (place, _) = self
            .waiting()
            .find(|(_, entry)| entry.pdcp == highest)
            .filter(|&(place, _)| !named.contains(place))
            .ok_or(Refusal::HighestNotWaiting)?;
        Ok(place + 1)
    }

    fn waiting(&self) -> impl Iterator<Item = (usize, &Entry)> {
        let entries = self.entries.iter_from(0).enumerate();
        entries.filter(|(_, entry)| entry.fate == Fate::Waiting)
    }

    /// Counts the lost entries in front anew, the first `known` being so.
    fn count_lost_in_front(&mut self, known: usize) {
        let more = self.entries.iter_from(known);
        let more = more.take_while(|entry| entry.fate == Fate::Lost).count();
        self.lost_in_front = known + more;
    }

    fn mark_lost(&mut self, named: &Places) -> u32 {
        let mut lost = 0;
        for place in named.iter() {
            if let Some(entry) = self.entries.get_mut(place) {
                entry.fate = Fate::Lost;
                lost += 1;
            }
        }
        lost
    }
}

/// A PDU's size, if it is one that a PDU may have.
fn judged_size(octets: u32) -> Answer<u16> {
    let allowed = (1..=LARGEST_SIZE).contains(&octets);
    refuse_if(!allowed, Refusal::SizeOutside)?;
    Ok(octets as u16)
}

/// A set of places in the ledger, so that a frame is judged whole before the
/// first entry changes.
#[derive(Default)]
struct Places {
    words: [u64; MOST_ENTRIES / 64],
}

impl Places {
    const fn add(&mut self, place: usize) {
        self.words[place / 64] |= 1 << (place % 64);
    }

    const fn contains(&self, place: usize) -> bool {
        self.words[place / 64] >> (place % 64) & 1 == 1
    }

    fn iter(&self) -> impl Iterator<Item = usize> {
        let words = self.words.iter().zip((0..).step_by(64));
        words.flat_map(|(&word, start)| bits_of(word).map(move |bit| start + bit))
    }
}

/// The set bits of `word`, lowest first; most words of most frames have none.
fn bits_of(word: u64) -> impl Iterator<Item = usize> {
    let some = |word: u64| (word != 0).then_some(word);
    core::iter::successors(some(word), move |word| some(word & (word - 1)))
        .map(|word| word.trailing_zeros() as usize)
}
