//! What the marks of expiries spared: packets that were open at or past a mark,
//! below the highest accepted. Document 01's expiry, called at that moment, would
//! have given them up too.

use std::collections::BTreeSet;

/// What became of them, each packet counted once.
#[derive(Clone, Debug, Default)]
pub struct Spared {
    /// Spared, and open still.
    waiting: BTreeSet<usize>,
    /// Expiries that were accepted.
    pub expiries: u64,
    /// Those of them whose mark spared a packet.
    pub sparing: u64,
    /// Packets spared.
    pub packets: u64,
    /// Arrived after all: good packets, saved by a mark.
    pub arrived: u64,
    /// Given up later, and dropped on the road.
    pub dropped_lost: u64,
    /// Given up later while still on the road: merely late.
    pub late_lost: u64,
    /// Open when all was over.
    pub open: u64,
}

impl Spared {
    /// An expiry was accepted that left these packets missing.
    pub fn expired(&mut self, missing: impl Iterator<Item = usize>) {
        let mut spared = 0;
        for packet in missing {
            spared += 1;
            self.packets += u64::from(self.waiting.insert(packet));
        }
        self.expiries += 1;
        self.sparing += u64::from(spared > 0);
    }

    /// A packet was accepted by the secondary.
    pub fn arrived(&mut self, packet: usize) {
        self.arrived += u64::from(self.waiting.remove(&packet));
    }

    /// A packet was declared lost, which the road had dropped or not.
    pub fn lost(&mut self, packet: usize, dropped: bool) {
        let was_spared = u64::from(self.waiting.remove(&packet));
        if dropped {
            self.dropped_lost += was_spared;
        } else {
            self.late_lost += was_spared;
        }
    }

    /// All is over, and every packet from `base` on is still open.
    pub fn end(&mut self, base: usize) {
        self.open = self.waiting.range(base..).count() as u64;
    }

    /// Whether what became of them adds up to all that were spared.
    #[must_use]
    pub fn add_up(&self) -> bool {
        self.arrived + self.dropped_lost + self.late_lost + self.open == self.packets
    }
}

#[cfg(test)]
mod tests {
    use super::Spared;

    #[test]
    fn each_packet_is_counted_once() {
        let mut spared = Spared::default();
        spared.expired([].into_iter());
        assert_eq!((spared.expiries, spared.sparing), (1, 0));
        spared.expired([3, 5, 6].into_iter());
        spared.arrived(4);
        spared.arrived(5);
        spared.expired([6, 9].into_iter());
        spared.lost(3, true);
        spared.lost(6, false);
        spared.lost(7, true);
        assert_eq!((spared.expiries, spared.sparing), (3, 2));
        let became = [spared.arrived, spared.dropped_lost, spared.late_lost];
        assert_eq!((spared.packets, became), (4, [1, 1, 1]));
        assert!(!spared.add_up());
        spared.end(9);
        assert!(spared.add_up() && spared.open == 1);
        // One that is neither open nor was settled is missed.
        spared.end(10);
        assert!(!spared.add_up());
    }
}
