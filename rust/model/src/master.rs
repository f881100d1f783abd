//! The master's rule, packet by packet.

use crate::Opening;
use x2u::Refusal;
use x2u::frame::{Range, Report};

/// "Each accepted send is now waiting, lost, freed or taken."
#[derive(Clone, Copy, Debug, PartialEq, Eq)]
pub enum Fate {
    /// Not settled by any status.
    Waiting,
    /// Named lost by a status.
    Lost,
    /// Delivered.
    Freed,
    /// Given out again.
    Taken,
}

/// A packet that was sent. Its PDCP number counts on from those before it and
/// never rolls over: what is sent again, or after a rest, is some turns on.
#[derive(Clone, Copy, Debug)]
struct Packet {
    pdcp: u64,
    size: u32,
    fate: Fate,
}

/// The master's end.
#[derive(Clone, Debug)]
pub struct Master {
    opening: Opening,
    packets: Vec<Packet>,
    highest: u64,
    last_sent: u64,
    /// Desired and minimum size of the last accepted status, if one has come.
    sizes: Option<(u32, u32)>,
    closed: bool,
}

impl Master {
    /// A fresh end.
    #[must_use]
    pub fn open(opening: Opening) -> Self {
        // One turn ahead, so that f - 1 is never below zero.
        let before_first = opening.pdcps() + opening.first_pdcp - 1;
        Self {
            opening,
            packets: Vec::new(),
            highest: before_first,
            last_sent: before_first,
            sizes: None,
            closed: false,
        }
    }

    /// Send of a PDCP number, and of a PDU of so many octets.
    pub fn send(&mut self, pdcp: u32, size: u32) -> Result<u32, Refusal> {
        if self.closed {
            return Err(Refusal::Closed);
        }
        if u64::from(pdcp) >= self.opening.pdcps() {
            return Err(Refusal::NumberTooLarge);
        }
        // "1 to 16,384 octets"
        if !(1..=16_384).contains(&size) {
            return Err(Refusal::SizeOutside);
        }
        let pdcp = self.in_order(pdcp).ok_or(Refusal::PdcpOrder)?;
        if self.held().len() >= 512 {
            return Err(Refusal::LedgerFull);
        }
        self.packets.push(Packet {
            pdcp,
            size,
            fate: Fate::Waiting,
        });
        self.last_sent = pdcp;
        Ok(self.opening.number(self.packets.len() - 1))
    }

    /// A status of this bearer's type that was read without refusal. Answers
    /// how many were freed and how many became lost.
    pub fn accept(&mut self, report: &Report, ranges: &[Range]) -> Result<(u32, u32), Refusal> {
        if self.closed {
            return Err(Refusal::Closed);
        }
        if u64::from(report.highest) >= self.opening.pdcps() {
            return Err(Refusal::HighestOutside);
        }
        let named = self.named(ranges).ok_or(Refusal::RangesNotWaiting)?;
        let through = self.through(report.highest, &named)?;

        for &index in &named {
            self.packets[index].fate = Fate::Lost;
        }
        let mut freed = 0;
        for packet in &mut self.packets[..through] {
            if packet.fate == Fate::Waiting {
                packet.fate = Fate::Freed;
                freed += 1;
            }
        }
        if let Some(last) = through.checked_sub(1) {
            self.highest = self.packets[last].pdcp;
        }
        self.sizes = Some((report.desired, report.minimum));
        self.closed = report.is_final;
        Ok((freed, named.len() as u32))
    }

    /// Take: the packet's two numbers, and its size.
    pub fn take(&mut self) -> Result<(u32, u32, u32), Refusal> {
        let takes = |index: &usize| self.closed || self.packets[*index].fate == Fate::Lost;
        let index = self.held().into_iter().find(takes);
        let index = index.ok_or(Refusal::NothingToTake)?;
        self.packets[index].fate = Fate::Taken;
        let (number, pdcp, size, _) = self.entry(index);
        Ok((number, pdcp, size))
    }

    /// "Room is the desired size of the last accepted status less the sizes of
    /// all waiting entries, and 0 where that would be negative or no status has
    /// come."
    #[must_use]
    pub fn room(&self) -> u32 {
        let Some((desired, _)) = self.sizes else {
            return 0;
        };
        (i64::from(desired) - self.waiting_octets()).max(0) as u32
    }

    /// "the sum of waiting sizes"
    #[must_use]
    pub fn waiting_octets(&self) -> i64 {
        let sizes = self
            .waiting()
            .map(|index| i64::from(self.packets[index].size));
        sizes.sum()
    }

    /// The packets still held, in the order they were sent in.
    #[must_use]
    pub fn held(&self) -> Vec<usize> {
        let held = |index: &usize| matches!(self.packets[*index].fate, Fate::Waiting | Fate::Lost);
        (0..self.packets.len()).filter(held).collect()
    }

    /// Number, PDCP number, size and fate of a packet.
    #[must_use]
    pub fn entry(&self, index: usize) -> (u32, u32, u32, Fate) {
        let packet = self.packets[index];
        (
            self.opening.number(index),
            self.pdcp_number(packet.pdcp),
            packet.size,
            packet.fate,
        )
    }

    /// H and the last PDCP number sent.
    #[must_use]
    pub fn pdcp_marks(&self) -> (u32, u32) {
        (
            self.pdcp_number(self.highest),
            self.pdcp_number(self.last_sent),
        )
    }

    /// Whether a final status was accepted.
    #[must_use]
    pub fn is_closed(&self) -> bool {
        self.closed
    }

    /// Desired and minimum size, 0 before any status.
    #[must_use]
    pub fn sizes(&self) -> (u32, u32) {
        self.sizes.unwrap_or_default()
    }

    /// How many packets met that fate.
    #[must_use]
    pub fn count(&self, fate: Fate) -> usize {
        let of_fate = |packet: &&Packet| packet.fate == fate;
        self.packets.iter().filter(of_fate).count()
    }

    /// How many packets were sent.
    #[must_use]
    pub fn sent(&self) -> usize {
        self.packets.len()
    }

    fn pdcp_number(&self, absolute: u64) -> u32 {
        (absolute % self.opening.pdcps()) as u32
    }

    fn waiting(&self) -> impl Iterator<Item = usize> {
        let waits = |index: &usize| self.packets[*index].fate == Fate::Waiting;
        (0..self.packets.len()).filter(waits)
    }

    /// Where a PDCP number counts on to, if it may be sent now.
    fn in_order(&self, pdcp: u32) -> Option<u64> {
        // "In both cases p must differ from H"
        if pdcp == self.pdcp_number(self.highest) {
            return None;
        }
        let next_from = |from: u64| (from..).find(|&next| self.pdcp_number(next) == pdcp);
        let Some(oldest) = self.waiting().next() else {
            // "With none waiting, any p is allowed."
            return next_from(self.last_sent + 1);
        };
        // "forward from the oldest waiting entry's PDCP number to p must exceed
        // that to the last sent, and be below 2^(L-1)"
        let oldest = self.packets[oldest].pdcp;
        let to_last = self.last_sent - oldest;
        let half = self.opening.pdcps() / 2;
        next_from(oldest).filter(|next| next - oldest > to_last && next - oldest < half)
    }

    /// The packets that the ranges name, expanded in order, if they are
    /// "strictly rising numbers of waiting entries".
    fn named(&self, ranges: &[Range]) -> Option<Vec<usize>> {
        let mut named: Vec<usize> = Vec::new();
        for range in ranges {
            let mut number = range.start;
            loop {
                let index = self
                    .waiting()
                    .find(|&index| self.opening.number(index) == number)?;
                if named.last().is_some_and(|&last| index <= last) {
                    return None;
                }
                named.push(index);
                if number == range.end {
                    break;
                }
                number = ((u64::from(number) + 1) % self.opening.numbers()) as u32;
            }
        }
        Some(named)
    }

    /// How many packets, from the first ever, the frame's highest settles.
    fn through(&self, highest: u32, named: &[usize]) -> Result<usize, Refusal> {
        if highest == self.pdcp_number(self.highest) {
            return Ok(0);
        }
        self.waiting()
            .filter(|index| !named.contains(index))
            .find(|&index| self.pdcp_number(self.packets[index].pdcp) == highest)
            .map(|index| index + 1)
            .ok_or(Refusal::HighestNotWaiting)
    }
}
