//! Both ends of the library's bearer with a watch over every call.

use crate::Opening;
use crate::demand::{Tally, Watch};
use std::collections::VecDeque;
use x2u::frame::{self, Frame, LONGEST};
use x2u::ledger::{Entry, Settled};
use x2u::{Answer, Keeper, Ledger};

/// A call's answer, or what was wrong with it.
pub type Watched<T> = Result<Answer<T>, String>;

/// Keeper and ledger of one bearer, and the frames on their way between them.
#[derive(Clone, Debug)]
pub struct Pair {
    /// The secondary.
    pub keeper: Keeper,
    /// The master.
    pub ledger: Ledger,
    /// The watch.
    pub watch: Watch,
    frames: VecDeque<Vec<u8>>,
}

impl Pair {
    /// Opens both ends alike.
    #[must_use]
    pub fn open(opening: Opening) -> Self {
        let (first, first_pdcp) = (opening.first as u32, opening.first_pdcp as u32);
        let open = "the opening was made to be accepted";
        Self {
            keeper: Keeper::open(opening.bits, first, first_pdcp).expect(open),
            ledger: Ledger::open(opening.bits, first, first_pdcp).expect(open),
            watch: Watch::new(opening),
            frames: VecDeque::new(),
        }
    }

    /// The figures so far.
    #[must_use]
    pub fn tally(&self) -> Tally {
        self.watch.tally()
    }

    /// How many frames are on their way.
    #[must_use]
    pub fn frames_under_way(&self) -> usize {
        self.frames.len()
    }

    /// The frames on their way, the oldest first.
    pub fn frames(&self) -> impl Iterator<Item = &[u8]> {
        self.frames.iter().map(Vec::as_slice)
    }

    /// The frame that will reach the master next.
    #[must_use]
    pub fn next_frame(&self) -> Option<&[u8]> {
        self.frames().next()
    }

    /// Sends a packet whose PDU has `size` octets.
    pub fn send(&mut self, pdcp: u32, size: u32) -> Watched<u32> {
        let answer = self.ledger.send(pdcp, size);
        if let Ok(number) = answer {
            self.watch.sent(pdcp, size, number)?;
        }
        Ok(answer)
    }

    /// A copy of `packet` arrives.
    pub fn arrive(&mut self, packet: usize) -> Watched<u32> {
        let (number, pdcp) = self.watch.numbers(packet);
        let answer = self.keeper.arrive(number, pdcp);
        self.watch.arrived(packet, answer)?;
        Ok(answer)
    }

    /// The secondary gives up its gaps before a mark.
    pub fn expire(&mut self, mark: u32) -> Watched<u32> {
        let answer = self.keeper.expire(mark);
        self.watch.expired(mark, answer)?;
        Ok(answer)
    }

    /// The handset confirms a number below M.
    pub fn confirm(&mut self, number: u32) -> Watched<()> {
        let answer = self.keeper.confirm(number);
        self.watch.confirmed(number, answer)?;
        Ok(answer)
    }

    /// The secondary builds a status, which then is on its way.
    pub fn status(&mut self, sizes: [u32; 2], is_final: bool, room: usize) -> Watched<&[u8]> {
        let mut buffer = [0; LONGEST];
        let [desired, minimum] = sizes;
        let room = room.min(LONGEST);
        match self
            .keeper
            .status(desired, minimum, is_final, &mut buffer[..room])
        {
            Err(refusal) => Ok(Err(refusal)),
            Ok(length) => {
                let Frame::Status { report, ranges, .. } = frame::read(&buffer[..length]) else {
                    return Err(format!("{:?} is no status", &buffer[..length]));
                };
                self.watch.built(&report, ranges)?;
                self.watch.listed(self.keeper.listed_runs())?;
                self.frames.push_back(buffer[..length].to_vec());
                Ok(Ok(self.frames.back().map_or(&[], Vec::as_slice)))
            }
        }
    }

    /// The secondary is asked whether it has anything to say.
    pub fn anything(&mut self) -> Watched<bool> {
        let answer = self.keeper.anything();
        self.watch.anything(answer)?;
        Ok(answer)
    }

    /// The oldest frame on its way reaches the master.
    pub fn deliver(&mut self) -> Option<Watched<Settled>> {
        let frame = self.frames.pop_front()?;
        let answer = self.ledger.accept(&frame);
        let octets = self.ledger.waiting_octets();
        let verdict = self.watch.accepted(answer, self.ledger.entries(), octets);
        Some(verdict.map(|()| answer))
    }

    /// A packet is taken from the master.
    pub fn take(&mut self) -> Watched<Entry> {
        let closed = self.ledger.is_closed();
        let answer = self.ledger.take();
        let taken = answer.map(|entry| (entry.number, entry.pdcp, entry.size.into()));
        self.watch.taken(closed, taken)?;
        Ok(answer)
    }

    /// The master is asked for the room, which no end refuses.
    pub fn room(&mut self) -> Result<u32, String> {
        let room = self.ledger.room();
        self.watch.room(room)?;
        Ok(room)
    }

    /// Compares both ends with what the watch knows of them.
    pub fn check(&mut self) -> Result<(), String> {
        let Self { keeper, watch, .. } = self;
        watch.stands(keeper.base(), keeper.listed_runs())?;
        let octets = self.ledger.waiting_octets();
        self.watch.held(self.ledger.entries(), octets)
    }
}
