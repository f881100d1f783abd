//! Why packets are declared lost, and what becomes of those that are dropped.

use super::spared::Spared;
use std::ops::Range;

/// What gave a packet up.
#[derive(Clone, Copy, Debug, PartialEq, Eq)]
pub enum By {
    /// An expiry.
    Expiry,
    /// An arrival 256 or more above it.
    Window,
}

/// Packets declared lost, by what gave them up.
#[derive(Clone, Copy, Debug, Default, PartialEq, Eq)]
pub struct GivenUp {
    /// By expiries.
    pub by_expiry: u64,
    /// By arrivals.
    pub by_window: u64,
}

impl GivenUp {
    /// All of them.
    #[must_use]
    pub fn sum(self) -> u64 {
        self.by_expiry + self.by_window
    }

    fn count(&mut self, by: By) {
        match by {
            By::Expiry => self.by_expiry += 1,
            By::Window => self.by_window += 1,
        }
    }
}

/// What the account knows of a packet.
#[derive(Clone, Copy, Debug)]
struct Packet {
    /// Whether the road dropped it.
    dropped: bool,
    /// Since when it was a gap: a later one was accepted then.
    missing_since: u64,
}

/// The account of all packets that didn't arrive in time.
#[derive(Clone, Debug, Default)]
pub struct Losses {
    packets: Vec<Packet>,
    /// Dropped, and declared lost.
    pub dropped_lost: GivenUp,
    /// Declared lost while it was still on the road: merely late.
    pub late: GivenUp,
    /// Dropped, but a copy from long ago came before it was given up.
    pub saved: u64,
    /// Dropped, and never declared lost: no later packet arrived before the end.
    pub never_declared: u64,
    /// What the marks of expiries spared.
    pub spared: Spared,
    /// How old the youngest gap was that an expiry gave up, in milliseconds.
    pub youngest: Option<u64>,
}

impl Losses {
    /// The next packet went out.
    pub fn sent(&mut self, dropped: bool) {
        self.packets.push(Packet {
            dropped,
            missing_since: 0,
        });
    }

    /// These packets are gaps from now on, those of them that haven't arrived.
    pub fn passed(&mut self, packets: Range<usize>, now: u64) {
        for packet in self.packets.get_mut(packets).unwrap_or_default() {
            packet.missing_since = now;
        }
    }

    /// A packet was accepted by the secondary.
    pub fn arrived(&mut self, packet: usize) {
        self.saved += u64::from(self.packets[packet].dropped);
        self.spared.arrived(packet);
    }

    /// A packet was declared lost.
    pub fn lost(&mut self, packet: usize, by: By, now: u64) {
        let known = self.packets[packet];
        self.spared.lost(packet, known.dropped);
        if known.dropped {
            self.dropped_lost.count(by);
        } else {
            self.late.count(by);
        }
        if by == By::Expiry {
            let age = now - known.missing_since;
            self.youngest = Some(self.youngest.map_or(age, |youngest| youngest.min(age)));
        }
    }

    /// All is over, and every packet from `base` on is still open.
    pub fn end(&mut self, base: usize) {
        let open = self.packets.get(base..).unwrap_or_default();
        self.never_declared = open.iter().filter(|packet| packet.dropped).count() as u64;
        self.spared.end(base);
    }

    /// Packets that the road dropped.
    #[must_use]
    pub fn dropped(&self) -> u64 {
        self.packets.iter().filter(|packet| packet.dropped).count() as u64
    }

    /// Whether the causes add up to all that were declared lost, and what
    /// became of the dropped ones to all of those.
    #[must_use]
    pub fn add_up(&self, declared: u64) -> bool {
        let lost = self.dropped_lost.sum();
        lost + self.late.sum() == declared
            && lost + self.saved + self.never_declared == self.dropped()
    }
}
