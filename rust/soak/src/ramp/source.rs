//! The source of packets, and the queue in which they wait at the master.

use super::conditions::{LINE, SIZES, queue};
use crate::rng::Rng;
use std::collections::VecDeque;

/// What holds a packet up.
#[derive(Clone, Copy, Debug, PartialEq, Eq)]
pub enum HeldBy {
    /// The ledger is full (36).
    Ledger,
    /// Its PDCP number would break the order (35).
    Order,
    /// The master sends nothing for now.
    Pause,
    /// Those in front of it take all that the line carries.
    Line,
}

impl HeldBy {
    /// All of them, as a report has them.
    pub const ALL: [(Self, &'static str); 4] = [
        (Self::Ledger, "first held up by the full ledger"),
        (Self::Order, "first held up by the PDCP order"),
        (Self::Pause, "first held up by a pause in sending"),
        (
            Self::Line,
            "first held up by the line, full with those in front",
        ),
    ];
}

/// What became of the packets that the source made.
#[derive(Clone, Debug, Default)]
pub struct Flow {
    /// How long the source has run, in milliseconds.
    pub time: u64,
    /// Made by the source.
    pub offered: u64,
    /// Those that found the queue full.
    pub turned_away: u64,
    /// Those that had to wait, by what held them up first.
    pub waited: [u64; HeldBy::ALL.len()],
    /// The longest the queue ever was.
    pub longest_queue: usize,
    /// The longest that a sent packet waited, in milliseconds.
    pub longest_wait: u64,
    /// Those in the queue when sending ended.
    pub left: u64,
}

/// A packet in the queue.
struct Waiting {
    size: u32,
    since: u64,
    counted: bool,
}

/// The source with its queue.
pub struct Source {
    rng: Rng,
    rate: u64,
    most: usize,
    /// What is made of the next packet, in thousandths.
    part: u64,
    /// What the line still carries in this millisecond, in thousandths.
    line: u64,
    queue: VecDeque<Waiting>,
    flow: Flow,
}

impl Source {
    /// A source of so many packets a second.
    #[must_use]
    pub fn new(rate: u32, rng: Rng) -> Self {
        Self {
            rng,
            rate: rate.into(),
            most: queue(rate),
            part: 0,
            line: 0,
            queue: VecDeque::new(),
            flow: Flow::default(),
        }
    }

    /// Makes a millisecond's packets.
    pub fn offer(&mut self, now: u64) {
        self.flow.time += 1;
        let carries = self.rate * u64::from(LINE);
        self.line = (self.line + carries).min(carries + 1_000);
        self.part += self.rate;
        let made = self.part / 1_000;
        self.part %= 1_000;
        self.flow.offered += made;
        let room = (self.most - self.queue.len()) as u64;
        self.flow.turned_away += made.saturating_sub(room);
        for _ in 0..made.min(room) {
            let size = self.size();
            self.queue.push_back(Waiting {
                size,
                since: now,
                counted: false,
            });
        }
    }

    /// The size of a PDU that is made now.
    fn size(&mut self) -> u32 {
        let mut place = self.rng.within(0..1_000);
        for (times, sizes) in SIZES {
            if place < times {
                return self.rng.within(sizes);
            }
            place -= times;
        }
        1
    }

    /// The size of the packet that is to be sent next, if there is one. If the
    /// line carries no more, what is left in the queue has to wait.
    pub fn next_size(&mut self) -> Option<u32> {
        if self.line < 1_000 {
            self.held(HeldBy::Line);
            return None;
        }
        self.queue.front().map(|packet| packet.size)
    }

    /// The oldest packet was sent.
    pub fn sent(&mut self, now: u64) {
        if let Some(packet) = self.queue.pop_front() {
            self.line -= 1_000;
            let waited = now - packet.since;
            self.flow.longest_wait = self.flow.longest_wait.max(waited);
        }
    }

    /// What is in the queue has to wait.
    pub fn held(&mut self, by: HeldBy) {
        self.flow.longest_queue = self.flow.longest_queue.max(self.queue.len());
        let new = self
            .queue
            .iter_mut()
            .rev()
            .take_while(|packet| !packet.counted);
        for packet in new {
            packet.counted = true;
            self.flow.waited[by as usize] += 1;
        }
    }

    /// What became of all packets so far.
    #[must_use]
    pub fn flow(&self) -> Flow {
        Flow {
            left: self.queue.len() as u64,
            ..self.flow.clone()
        }
    }
}

#[cfg(test)]
mod tests {
    use super::{HeldBy, Source};
    use crate::ramp::conditions::{SIZES, queue};
    use crate::rng::Rng;

    fn source(rate: u32) -> Source {
        Source::new(rate, Rng::new(1))
    }

    /// Sends all that can be sent now; answers how many those are.
    fn send_all(source: &mut Source, now: u64) -> u64 {
        let mut sent = 0;
        while source.next_size().is_some() {
            source.sent(now);
            sent += 1;
        }
        sent
    }

    #[test]
    fn pdus_of_every_size_are_made() {
        assert_eq!(SIZES.iter().map(|(times, _)| times).sum::<u32>(), 1_000);
        let mut source = source(1_000);
        let sizes: Vec<u32> = (0..100_000).map(|_| source.size()).collect();
        for (times, range) in SIZES {
            let made = sizes.iter().filter(|&size| range.contains(size)).count();
            assert!(made >= times as usize * 80, "{made} of {range:?}");
        }
        assert!(sizes.iter().all(|size| (1..=16_384).contains(size)));
    }

    #[test]
    fn a_second_makes_the_rate() {
        for rate in [1, 3, 999, 1_000, 1_001, 2_000, 100_000] {
            let mut source = source(rate);
            let mut sent = 0;
            for now in 1..=1_000 {
                source.offer(now);
                sent += send_all(&mut source, now);
            }
            assert_eq!(source.flow().offered, rate.into());
            assert_eq!(sent, rate.into());
            assert_eq!(source.flow().waited, [0; 4]);
        }
    }

    #[test]
    fn what_waits_is_counted_once_and_sent_at_twice_the_rate() {
        let mut source = source(2_000);
        for now in 1..=10 {
            source.offer(now);
            source.held(HeldBy::Ledger);
        }
        assert_eq!(source.flow().waited, [20, 0, 0, 0]);
        source.offer(11);
        assert!((4..=5).contains(&send_all(&mut source, 11)));
        let flow = source.flow();
        assert_eq!((flow.longest_wait, flow.longest_queue), (10, 20));
        assert_eq!(flow.waited, [20, 0, 0, 2]);
    }

    #[test]
    fn a_full_queue_turns_packets_away() {
        let mut source = source(1_000);
        let most = queue(1_000) as u64;
        for now in 1..=most + 7 {
            source.offer(now);
        }
        let flow = source.flow();
        assert_eq!(
            (flow.offered, flow.turned_away, flow.left),
            (most + 7, 7, most)
        );
    }
}
