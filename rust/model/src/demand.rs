//! Demand 3, checked by packet identity.
//!
//! Packet i is the i-th accepted send: a PDU sent again is another packet.
//! Whoever plays a bearer inside these bounds tells a [`Watch`] of every call and
//! its answer:
//!
//! * E1: refused sends count for nothing.
//! * E2: an arrival that 9 or 10 doesn't refuse is a copy of some packet i < N
//!   with N - 1 - i < M/2.
//! * E3: each frame built reaches the master unchanged, once and in order, at
//!   any later time; no other frame that the master would accept reaches it.
//! * E4: both ends opened alike; every other call at any time, with any
//!   arguments.
//!
//! Then, with R(k) the packets in the ranges of frames 1 to k and C(k) the
//! packets confirmed when frame k was built, the watch checks that
//!
//! * (i) the ranges of all frames built, then the listed runs, expanded in
//!   order, are exactly the packets declared lost, each once, in sending order;
//! * (ii) the master accepts each frame;
//! * (iii) after it accepts frame k, the packets freed so far are exactly
//!   those i in C(k) for which every j < i is in C(k) or in R(k).
//!
//! A further copy of a packet is answered with 12 from the lowest open packet
//! on, with 18 exactly M/2 before it, with 11 elsewhere.
//!
//! And the mark of request Six: it is a packet, the latest through the highest
//! accepted that bears the number. An expiry declares lost exactly the open
//! packets before that one; if there is none, it declares nothing and is refused
//! with 19 where the number lies ahead of base, beyond the highest accepted, and
//! with 17 elsewhere.
//!
//! And the question of request Eight. An open secondary has nothing to say, with k
//! frames built so far, exactly if each packet declared lost is in R(k), and each
//! packet confirmed by now for which every earlier one is confirmed or declared
//! lost is freed by these frames: it is in C(k), and every earlier one in C(k) or
//! in R(k). A closed one refuses to say (9).
//!
//! And what (iii) stands on: of the packets that wait at the master, no PDCP
//! number is H, and measured from the oldest's they strictly rise, below half
//! the circle. So no two are the same.
//!
//! And the room of request Four: each packet keeps the size it was sent with, at
//! the master and where it is taken, and the room is the desired size of the
//! frame accepted last less the sizes of all packets that wait, never below 0.
//!
//! And the sum of request Five: the octets that the master says wait are those
//! of all packets that do, at any moment.
//!
//! "Declared lost" follows the documents' sentences on packet indexes; nothing
//! here knows how the library keeps its state.

use crate::Opening;
use std::collections::VecDeque;
use x2u::Refusal;
use x2u::frame::{Range, Report};
use x2u::ledger::{Entry, Fate as Held, Settled};

/// What is wrong, in words.
pub type Verdict = Result<(), String>;

/// "Each number from the first on is open, received or lost."
#[derive(Clone, Copy, Debug, PartialEq, Eq)]
enum Fate {
    Open,
    Received,
    Lost,
}

/// No frame yet.
const NEVER: u32 = u32::MAX;

/// A packet, for ever.
#[derive(Clone, Copy, Debug)]
struct Packet {
    pdcp: u32,
    size: u16,
    fate: Fate,
    /// The first frame k with this packet in C(k) or in R(k).
    frame: u32,
    taken: bool,
}

/// What has happened so far, in figures for a report.
#[derive(Clone, Copy, Debug, Default, PartialEq, Eq)]
pub struct Tally {
    /// Packets declared lost.
    pub lost: u64,
    /// Lost packets reported in frames.
    pub reported: u64,
    /// Packets confirmed.
    pub confirmed: u64,
    /// Packets freed by the master.
    pub freed: u64,
    /// Packets taken from the master.
    pub taken: u64,
    /// Frames built.
    pub built: u32,
    /// Frames accepted.
    pub accepted: u32,
    /// Octets of packets.
    pub octets: Octets,
}

/// The octets of all packets that met this or that.
#[derive(Clone, Copy, Debug, Default, PartialEq, Eq)]
pub struct Octets {
    /// Of those sent.
    pub sent: u64,
    /// Of those declared lost.
    pub lost: u64,
    /// Of those freed by the master.
    pub freed: u64,
    /// Of those taken from the master.
    pub taken: u64,
}

/// The watch over one bearer.
#[derive(Clone, Debug)]
pub struct Watch {
    opening: Opening,
    packets: Vec<Packet>,
    base: usize,
    highest_accepted: Option<usize>,
    /// Declared lost and in no frame yet, in sending order.
    unreported: VecDeque<usize>,
    /// Every packet before this one is in C(k) or R(k), k the frame built last;
    /// only saves time.
    told: usize,
    /// Whether that frame was a Final.
    closed: bool,
    /// Every packet before this one is in C(k) or R(k), k the frame accepted last.
    settled: usize,
    /// H, the highest of the frame accepted last.
    highest: u32,
    /// Its desired size, 0 before any.
    desired: u32,
    /// What each frame built says that wasn't accepted yet.
    reports: VecDeque<Report>,
    /// Nothing before this packet is held by the master; only saves time.
    held_from: usize,
    /// Nothing before this packet waits at the master; only saves time.
    waiting_from: usize,
    tally: Tally,
}

macro_rules! check {
    ($holds:expr, $($words:tt)+) => {
        if !$holds {
            return Err(format!($($words)+));
        }
    };
}

impl Watch {
    /// A bearer on which nothing has happened.
    #[must_use]
    pub fn new(opening: Opening) -> Self {
        Self {
            opening,
            packets: Vec::new(),
            base: 0,
            highest_accepted: None,
            unreported: VecDeque::new(),
            told: 0,
            closed: false,
            settled: 0,
            highest: ((opening.first_pdcp + opening.pdcps() - 1) % opening.pdcps()) as u32,
            desired: 0,
            reports: VecDeque::new(),
            held_from: 0,
            waiting_from: 0,
            tally: Tally::default(),
        }
    }

    /// N, the packets sent so far.
    #[must_use]
    pub fn sent_count(&self) -> usize {
        self.packets.len()
    }

    /// Number and PDCP number of a packet.
    #[must_use]
    pub fn numbers(&self, packet: usize) -> (u32, u32) {
        (self.opening.number(packet), self.packets[packet].pdcp)
    }

    /// The lowest packet that is neither received nor lost.
    #[must_use]
    pub fn base(&self) -> usize {
        self.base
    }

    /// The highest packet accepted so far.
    #[must_use]
    pub fn highest_accepted(&self) -> Option<usize> {
        self.highest_accepted
    }

    /// Whether a packet that is missing has a received one above it.
    #[must_use]
    pub fn has_gap(&self) -> bool {
        self.highest_accepted > Some(self.base)
    }

    /// The packets that are missing with a received one above them.
    pub fn missing(&self) -> impl Iterator<Item = usize> + '_ {
        let highest = self.highest_accepted.unwrap_or(0);
        (self.base..highest).filter(|&packet| self.packets[packet].fate == Fate::Open)
    }

    /// Whether a packet may still arrive within E2.
    #[must_use]
    pub fn may_arrive(&self, packet: usize) -> bool {
        self.packets.len() - 1 - packet < self.half()
    }

    /// The oldest packet that may still arrive within E2.
    #[must_use]
    pub fn oldest_copy(&self) -> Option<usize> {
        let sent = self.packets.len();
        (sent > 0).then_some(sent.saturating_sub(self.half()))
    }

    /// The `count` packets that were declared lost last, of those in no frame
    /// yet, in sending order.
    pub fn last_lost(&self, count: u32) -> impl Iterator<Item = usize> + '_ {
        let from = self.unreported.len().saturating_sub(count as usize);
        self.unreported.range(from..).copied()
    }

    /// The figures so far.
    #[must_use]
    pub fn tally(&self) -> Tally {
        self.tally
    }

    /// The size of a packet's PDU.
    #[must_use]
    pub fn size(&self, packet: usize) -> u32 {
        self.packets[packet].size.into()
    }

    /// A send was accepted.
    pub fn sent(&mut self, pdcp: u32, size: u32, number: u32) -> Verdict {
        let packet = self.packets.len();
        let expected = self.opening.number(packet);
        check!(
            number == expected,
            "packet {packet} went out as {number}, not {expected}"
        );
        let allowed = (1..=16_384).contains(&size);
        check!(allowed, "packet {packet} went out with {size} octets");
        self.tally.octets.sent += u64::from(size);
        self.packets.push(Packet {
            pdcp,
            size: size as u16,
            fate: Fate::Open,
            frame: NEVER,
            taken: false,
        });
        // Those that wait between the oldest and the newest were seen before.
        let oldest = self.oldest_waiting();
        let before = (oldest..packet).rev().find(|&before| self.waits(before));
        let oldest = Some(oldest).filter(|&oldest| Some(oldest) < before);
        self.in_order(oldest.into_iter().chain(before).chain([packet]))
    }

    /// A copy of `packet` arrived.
    pub fn arrived(&mut self, packet: usize, answer: Result<u32, Refusal>) -> Verdict {
        if answer == Err(Refusal::Closed) {
            return Ok(());
        }
        if self.packets[packet].fate != Fate::Open {
            let stray = self.stray(packet);
            check!(
                answer == Err(stray),
                "a further copy of packet {packet} was answered {answer:?}, not {stray:?}"
            );
            return Ok(());
        }
        check!(
            answer.is_ok(),
            "open packet {packet} was refused: {answer:?}"
        );
        self.packets[packet].fate = Fate::Received;
        self.highest_accepted = self.highest_accepted.max(Some(packet));
        // "each open number that is 256 or more below the arrival"
        self.lost_below((packet + 1).saturating_sub(256), answer)
    }

    /// Expiry was called with the mark of that number.
    pub fn expired(&mut self, number: u32, answer: Result<u32, Refusal>) -> Verdict {
        if answer == Err(Refusal::Closed) {
            return Ok(());
        }
        match self.marked(number) {
            Ok(mark) => self.lost_below(mark, answer),
            Err(refusal) => {
                check!(
                    answer == Err(refusal),
                    "expiry at {number} was answered {answer:?}, not {refusal:?}"
                );
                Ok(())
            }
        }
    }

    /// A number below M was confirmed.
    pub fn confirmed(&mut self, number: u32, answer: Result<(), Refusal>) -> Verdict {
        if answer == Err(Refusal::Closed) {
            return Ok(());
        }
        let frame = self.tally.built + 1;
        let expected = self.unconfirmed(number);
        match expected {
            Some(packet) if answer.is_ok() => {
                self.packets[packet].frame = frame;
                self.tally.confirmed += 1;
            }
            None if answer == Err(Refusal::NotConfirmable) => {}
            _ => {
                return Err(format!(
                    "confirm of {number} ({expected:?}) was answered {answer:?}"
                ));
            }
        }
        Ok(())
    }

    /// A frame that says this, with these ranges, was built.
    pub fn built(&mut self, report: &Report, ranges: impl IntoIterator<Item = Range>) -> Verdict {
        self.tally.built += 1;
        self.closed = report.is_final;
        self.reports.push_back(*report);
        for range in ranges {
            for number in self.expand(range) {
                let lost = self.unreported.pop_front();
                let named = lost.map(|packet| self.opening.number(packet));
                check!(
                    named == Some(number),
                    "frame {} names {number}, but the next loss is {named:?}",
                    self.tally.built
                );
                if let Some(packet) = lost {
                    self.packets[packet].frame = self.tally.built;
                    self.tally.reported += 1;
                }
            }
        }
        Ok(())
    }

    /// The secondary was asked whether it has anything to say.
    pub fn anything(&mut self, answer: Result<bool, Refusal>) -> Verdict {
        let expected = if self.closed {
            Err(Refusal::Closed)
        } else {
            Ok(!self.unreported.is_empty() || self.confirmed_untold())
        };
        check!(
            answer == expected,
            "asked for anything to say, the answer was {answer:?}, not {expected:?}"
        );
        Ok(())
    }

    /// Base and the listed runs at any moment.
    pub fn stands(&self, base: u32, runs: &[Range]) -> Verdict {
        let lowest = self.opening.number(self.base);
        check!(
            base == lowest,
            "base is {base}, but the lowest open number is {lowest}"
        );
        self.listed(runs)
    }

    /// The listed runs at any moment.
    pub fn listed(&self, runs: &[Range]) -> Verdict {
        let listed = runs.iter().flat_map(|&run| self.expand(run));
        let declared = self.unreported.iter();
        check!(
            listed.eq(declared.map(|&packet| self.opening.number(packet))),
            "listed are {runs:?}, but declared lost and unreported are {:?}",
            self.unreported
        );
        Ok(())
    }

    /// The next frame in order reached the master, which holds `entries` now and
    /// says that so many octets of them wait.
    pub fn accepted<'a>(
        &mut self,
        answer: Result<Settled, Refusal>,
        entries: impl Iterator<Item = &'a Entry>,
        octets: u32,
    ) -> Verdict {
        let frame = self.tally.accepted + 1;
        let settled =
            answer.map_err(|refusal| format!("frame {frame} was refused: {refusal:?}"))?;
        self.tally.accepted = frame;
        if let Some(report) = self.reports.pop_front() {
            self.highest = report.highest;
            self.desired = report.desired;
        }
        let freed = self.settle(frame);
        check!(
            freed == settled.freed,
            "frame {frame} freed {}, not {freed}",
            settled.freed
        );
        self.tally.freed += u64::from(freed);
        self.held(entries, octets)
    }

    /// What the master holds at any moment is each packet that is neither
    /// freed nor taken, lost if an accepted frame named it; the octets that it
    /// says wait are those of the packets that do.
    pub fn held<'a>(&mut self, entries: impl Iterator<Item = &'a Entry>, octets: u32) -> Verdict {
        while self.held_from < self.settled && self.has_left(self.held_from) {
            self.held_from += 1;
        }
        let expected = (self.held_from..self.packets.len())
            .filter(|&packet| !self.has_left(packet))
            .map(|packet| self.entry(packet));
        let mut entries = entries.copied();
        for entry in expected {
            let held = entries.next();
            check!(
                held == Some(entry),
                "the master holds {held:?}, not {entry:?}"
            );
        }
        let more = entries.next();
        check!(more.is_none(), "the master still holds {more:?}");
        let expected = self.waiting_octets();
        check!(
            u64::from(octets) == expected,
            "the master says that {octets} octets wait, but {expected} do"
        );
        let from = self.oldest_waiting();
        self.in_order(self.waiting(from))
    }

    /// The master was asked for the room.
    pub fn room(&mut self, answer: u32) -> Verdict {
        let octets = self.waiting_octets();
        let desired = u64::from(self.desired);
        let expected = desired.saturating_sub(octets);
        check!(
            u64::from(answer) == expected,
            "room is {answer}, not {expected}: {desired} are desired, {octets} wait"
        );
        Ok(())
    }

    /// Take was called, on a closed master or an open one; it answers a number,
    /// a PDCP number and a size.
    pub fn taken(&mut self, closed: bool, answer: Result<(u32, u32, u32), Refusal>) -> Verdict {
        let oldest = (self.held_from..self.packets.len())
            .filter(|&packet| !self.has_left(packet))
            .find(|&packet| closed || self.is_named(packet));
        let expected = oldest
            .map(|packet| self.entry(packet))
            .map(|entry| (entry.number, entry.pdcp, entry.size.into()))
            .ok_or(Refusal::NothingToTake);
        check!(answer == expected, "take gave {answer:?}, not {expected:?}");
        if let Some(packet) = oldest {
            self.packets[packet].taken = true;
            self.tally.taken += 1;
            self.tally.octets.taken += u64::from(self.size(packet));
        }
        Ok(())
    }

    /// M/2.
    fn half(&self) -> usize {
        self.opening.numbers() as usize / 2
    }

    /// The packet that an expiry's mark is, if an open one lies before it.
    fn marked(&self, number: u32) -> Result<usize, Refusal> {
        if u64::from(number) >= self.opening.numbers() {
            return Err(Refusal::NumberTooLarge);
        }
        let ahead = self.opening.index_from(self.base, number);
        if ahead < self.base + self.half() && self.highest_accepted < Some(ahead) {
            return Err(Refusal::MarkBeyond);
        }
        let through = |last| self.opening.index_through(last, number);
        let mark = self.highest_accepted.and_then(through);
        mark.filter(|&mark| self.base < mark)
            .ok_or(Refusal::NothingOpen)
    }

    /// What a copy of a packet that is received or lost is refused with.
    fn stray(&self, packet: usize) -> Refusal {
        if packet >= self.base {
            Refusal::Repeated
        } else if self.base - packet == self.half() {
            Refusal::Opposite
        } else {
            Refusal::Late
        }
    }

    /// Declares lost each open packet below `mark`, as `answer` should say.
    fn lost_below(&mut self, mark: usize, answer: Result<u32, Refusal>) -> Verdict {
        let mut lost = 0;
        for packet in self.base..mark {
            if self.packets[packet].fate == Fate::Open {
                self.packets[packet].fate = Fate::Lost;
                self.tally.octets.lost += u64::from(self.size(packet));
                self.unreported.push_back(packet);
                lost += 1;
            }
        }
        while let Some(packet) = self.packets.get(self.base)
            && packet.fate != Fate::Open
        {
            self.base += 1;
        }
        self.tally.lost += u64::from(lost);
        check!(
            answer == Ok(lost),
            "{lost} became lost, but the answer was {answer:?}"
        );
        Ok(())
    }

    /// The packet that a confirm of `number` may name: the newest of that
    /// number, if it is received, before base and unconfirmed.
    fn unconfirmed(&self, number: u32) -> Option<usize> {
        let turn = self.opening.numbers() as usize;
        let oldest = self.packets.len().saturating_sub(turn);
        let packet = self.opening.index_from(oldest, number);
        let confirmable = packet < self.base
            && self.packets[packet].fate == Fate::Received
            && self.packets[packet].frame == NEVER;
        confirmable.then_some(packet)
    }

    /// Moves `settled` over all packets in C(frame) or R(frame) and answers how
    /// many of them are freed by that.
    fn settle(&mut self, frame: u32) -> u32 {
        let mut freed = 0;
        while let Some(packet) = self.packets.get(self.settled)
            && packet.frame <= frame
        {
            if packet.fate == Fate::Received {
                self.tally.octets.freed += u64::from(packet.size);
                freed += 1;
            }
            self.settled += 1;
        }
        freed
    }

    /// Whether a packet is confirmed, and every one before it confirmed or declared
    /// lost, that the frames built so far don't free.
    fn confirmed_untold(&mut self) -> bool {
        while let Some(packet) = self.packets.get(self.told)
            && packet.frame <= self.tally.built
        {
            self.told += 1;
        }
        let is_confirmed = |packet: &Packet| packet.frame != NEVER && packet.fate == Fate::Received;
        self.packets[self.told..]
            .iter()
            .take_while(|packet| is_confirmed(packet) || packet.fate == Fate::Lost)
            .any(is_confirmed)
    }

    fn has_left(&self, packet: usize) -> bool {
        let freed = packet < self.settled && self.packets[packet].fate == Fate::Received;
        freed || self.packets[packet].taken
    }

    /// Whether an accepted frame named a packet lost.
    fn is_named(&self, packet: usize) -> bool {
        let known = self.packets[packet];
        known.fate == Fate::Lost && known.frame <= self.tally.accepted
    }

    fn waits(&self, packet: usize) -> bool {
        !self.has_left(packet) && !self.is_named(packet)
    }

    /// The oldest packet that waits at the master, or N if none does.
    fn oldest_waiting(&mut self) -> usize {
        while self.waiting_from < self.packets.len() && !self.waits(self.waiting_from) {
            self.waiting_from += 1;
        }
        self.waiting_from
    }

    /// The packets that wait, from this one on.
    fn waiting(&self, from: usize) -> impl Iterator<Item = usize> {
        (from..self.packets.len()).filter(|&packet| self.waits(packet))
    }

    /// The sizes of all packets that wait.
    fn waiting_octets(&mut self) -> u64 {
        let from = self.oldest_waiting();
        let sizes = self
            .waiting(from)
            .map(|packet| u64::from(self.size(packet)));
        sizes.sum()
    }

    /// Checks the order of packets that wait, from the oldest on.
    fn in_order(&self, waiting: impl Iterator<Item = usize>) -> Verdict {
        let pdcps = waiting.map(|packet| self.packets[packet].pdcp);
        waiting_in_order(self.opening, self.highest, pdcps)
    }

    fn entry(&self, packet: usize) -> Entry {
        let named = self.is_named(packet);
        Entry {
            number: self.opening.number(packet),
            pdcp: self.packets[packet].pdcp,
            size: self.packets[packet].size,
            fate: if named { Held::Lost } else { Held::Waiting },
        }
    }

    fn expand(&self, range: Range) -> impl Iterator<Item = u32> + use<> {
        let modulus = self.opening.numbers();
        let start = u64::from(range.start);
        let count = (u64::from(range.end) + modulus - start) % modulus + 1;
        (start..start + count).map(move |number| (number % modulus) as u32)
    }
}

/// What send's rule keeps true of the PDCP numbers that wait, in sending order:
/// none is H, and measured from the oldest they strictly rise, below half the
/// circle.
pub fn waiting_in_order(
    opening: Opening,
    highest: u32,
    waiting: impl Iterator<Item = u32>,
) -> Verdict {
    let (mut oldest, mut last) = (None, None);
    for pdcp in waiting {
        let ahead = opening.pdcps_forward(*oldest.get_or_insert(pdcp), pdcp);
        check!(pdcp != highest, "PDCP number {pdcp} waits, which is H");
        check!(
            last < Some(ahead) && ahead < opening.pdcps() / 2,
            "PDCP number {pdcp} waits, {ahead} forward from the oldest, after {last:?}"
        );
        last = Some(ahead);
    }
    Ok(())
}
