//! A bearer inside demand 3's bounds, played step by step on the library's
//! ends under watch, and recorded for another make to play.

use crate::marks::marks;
use crate::sizes::{desireds, sizes};
use crate::trace::{Event, Trace};
use model::pair::Watched;
use model::{Opening, Pair};
use programs::replay::Call;
use proptest::prelude::*;
use proptest::sample::{Index, select};
use soak::marks::{Mark, Marks, highest_accepted};
use soak::order::{Before, Edge, Sends};
use soak::sizes::{self as octets, Desired, Size, Sizes};
use x2u::circle::Circle;
use x2u::frame::LONGEST;

/// Bearers that begin at most 700 packets before their circles roll over,
/// with the long form as often as `long` says.
pub fn openings(long: u32) -> impl Strategy<Value = Opening> {
    openings_of(prop_oneof![6 => Just(12_u32), 6 => Just(15), long => Just(18)])
}

/// Such bearers with PDCP numbers of so many bits.
pub fn openings_of(bits: impl Strategy<Value = u32>) -> impl Strategy<Value = Opening> {
    (bits, 0_u64..700, 0_u64..700).prop_map(|(bits, back, pdcp_back)| {
        let mut opening = Opening {
            bits,
            first: 0,
            first_pdcp: 0,
        };
        opening.first = (opening.numbers() - back) % opening.numbers();
        opening.first_pdcp = (opening.pdcps() - pdcp_back) % opening.pdcps();
        opening
    })
}

/// What may happen on a bearer.
#[derive(Clone, Debug)]
pub enum Step {
    /// Sends, each leaving out `skip` PDCP numbers.
    Send {
        /// PDCP numbers left out.
        skip: u32,
        /// How many sends.
        count: u32,
        /// The size of the first PDU; later ones have others.
        size: Size,
    },
    /// A send of any PDCP number.
    SendAny(u32, Size),
    /// A send at a limit of the PDCP order, or so far beside it.
    SendAt(Edge, i32, Size),
    /// The bearer rests on the master's own radio: once nothing waits, a part
    /// of the PDCP circle goes by in 1,024ths, and `off`; then one is sent.
    Rest {
        /// How much of the circle.
        part: u32,
        /// How much more, or less.
        off: i32,
    },
    /// The next packets arrive, but for `dropped` of every `period`.
    Arrive {
        /// How many are dropped.
        dropped: usize,
        /// Of so many.
        period: usize,
        /// How many packets.
        count: usize,
    },
    /// Some packet of those sent arrives, for the first time or again.
    ArriveSome(Index),
    /// The oldest packet that may still arrive does.
    ArriveOldest,
    /// Out of the circle, so refused before it is anything.
    ArriveOutside(u32),
    /// An expiry with its mark there.
    Expire(Mark),
    /// The host's gap timer starts: the highest accepted is its mark, if there is
    /// a gap.
    StartTimer,
    /// It ends: an expiry with the mark that it started with, if it runs.
    EndTimer,
    /// Confirms from the oldest unsettled packet on, but for every `passed`-th.
    Confirm {
        /// Which ones are left out.
        passed: usize,
        /// How many packets.
        count: usize,
    },
    /// A confirm of any number.
    ConfirmAny(u16),
    /// A status.
    Status {
        /// Its desired size.
        desired: Desired,
        /// Whether it is the last one.
        is_final: bool,
        /// The length of the buffer.
        room: usize,
    },
    /// So many frames reach the master.
    Deliver(usize),
    /// A frame of the far end's making, unless the master would accept it.
    Junk(Vec<u8>),
    /// So many takes.
    Take(usize),
}

impl Step {
    /// So many sends as they mostly are.
    #[must_use]
    pub fn send(count: u32) -> Self {
        Self::Send {
            skip: 0,
            count,
            size: PDU,
        }
    }

    /// An expiry that gives up every gap.
    #[must_use]
    pub fn expire() -> Self {
        Self::Expire(Mark::Highest(0))
    }

    /// A status as it mostly is.
    #[must_use]
    pub fn status(is_final: bool) -> Self {
        Self::Status {
            desired: Desired::Left(20_000),
            is_final,
            room: LONGEST,
        }
    }
}

/// The size of a PDU like any other.
pub const PDU: Size = Size::Octets(1_400);

/// Steps of every kind.
pub fn steps() -> impl Strategy<Value = Step> {
    let many = prop_oneof![3 => 1_usize..40, 1 => 200_usize..520];
    let rooms = prop_oneof![4 => Just(1_018_usize), 1 => 0_usize..1_018];
    prop_oneof![
        8 => (prop_oneof![9 => Just(0_u32), 1 => 0_u32..4], many.clone(), sizes())
            .prop_map(|(skip, count, size)| Step::Send { skip, count: count as u32, size }),
        4 => sizes().prop_map(|size| Step::Send { skip: 0, count: 1, size }),
        1 => (any::<u32>(), sizes()).prop_map(|(pdcp, size)| Step::SendAny(pdcp, size)),
        3 => (select(Edge::ALL.to_vec()), -2_i32..3, sizes())
            .prop_map(|(edge, off, size)| Step::SendAt(edge, off, size)),
        3 => rests(),
        8 => (0_usize..3, 2_usize..9, many.clone())
            .prop_map(|(dropped, period, count)| Step::Arrive { dropped, period, count }),
        3 => Just(Step::Arrive { dropped: 1, period: 2, count: 400 }),
        4 => any::<Index>().prop_map(Step::ArriveSome),
        1 => Just(Step::ArriveOldest),
        1 => any::<u32>().prop_map(Step::ArriveOutside),
        9 => marks().prop_map(Step::Expire),
        2 => Just(Step::StartTimer),
        2 => Just(Step::EndTimer),
        8 => (prop_oneof![2 => Just(1_000_usize), 1 => 1_usize..60], many)
            .prop_map(|(passed, count)| Step::Confirm { passed, count }),
        1 => any::<u16>().prop_map(Step::ConfirmAny),
        6 => (desireds(), prop::bool::weighted(0.02), rooms)
            .prop_map(|(desired, is_final, room)| Step::Status { desired, is_final, room }),
        5 => (1_usize..4).prop_map(Step::Deliver),
        1 => prop::collection::vec(any::<u8>(), 0..20).prop_map(Step::Junk),
        4 => (1_usize..300).prop_map(Step::Take),
    ]
}

/// Rests up to two turns of the PDCP circle, many of half a turn or a whole one:
/// one PDU less than that, and the next bears H.
fn rests() -> impl Strategy<Value = Step> {
    let parts = prop_oneof![1 => Just(512_u32), 2 => Just(1_024), 2 => 0_u32..2_048];
    let offs = prop_oneof![2 => Just(-1_i32), 3 => -3_i32..4];
    (parts, offs).prop_map(|(part, off)| Step::Rest { part, off })
}

/// A bearer being played.
pub struct Bearer {
    /// The circle of PDCP numbers.
    pub circle: Circle,
    /// The circle of X2-U numbers.
    numbers: Circle,
    /// Both ends, under watch.
    pub pair: Pair,
    /// All calls so far.
    pub trace: Trace,
    /// What its sends met.
    pub sends: Sends,
    /// What its sends and rooms met of sizes.
    pub sizes: Sizes,
    /// What its expiries met by their marks.
    pub marks: Marks,
    /// The mark of the host's gap timer, while it runs.
    timer: Option<u32>,
    /// The next packet that has not been on its way yet.
    fresh: usize,
}

impl Bearer {
    /// Opens one.
    #[must_use]
    pub fn new(opening: Opening) -> Self {
        let fits = "the opening was made to be accepted";
        let bearer = x2u::Bearer::judged(opening.bits, 0, 0).expect(fits);
        Self {
            circle: bearer.pdcp,
            numbers: bearer.numbers(),
            pair: Pair::open(opening),
            trace: Trace::new(opening),
            sends: Sends::default(),
            sizes: Sizes::default(),
            marks: Marks::default(),
            timer: None,
            fresh: 0,
        }
    }

    /// The next PDCP number, after `skip` that are left out.
    #[must_use]
    pub fn pdcp_after_last(&self, skip: u32) -> u32 {
        let last = self.pair.ledger.last_sent();
        self.circle.step(last, skip.wrapping_add(1))
    }

    /// Makes a step. Says so if demand 3 doesn't hold then, or if the room isn't
    /// what the packets leave.
    pub fn make(&mut self, step: &Step) -> Result<(), String> {
        match step {
            Step::Send { .. } | Step::SendAny(..) | Step::SendAt(..) | Step::Rest { .. } => {
                self.make_sends(step)?;
            }
            Step::Arrive {
                dropped,
                period,
                count,
            } => self.arrive(*dropped, *period, *count)?,
            Step::ArriveSome(index) => {
                let sent = self.pair.watch.sent_count();
                self.arrive_again((sent > 0).then(|| index.index(sent)))?;
            }
            Step::ArriveOldest => self.arrive_again(self.pair.watch.oldest_copy())?,
            Step::ArriveOutside(number) => self.arrive_outside(number | 1 << 24)?,
            Step::Expire(mark) => self.expire(mark.at(self.numbers, &self.pair.keeper))?,
            Step::StartTimer => self.timer = highest_accepted(self.numbers, &self.pair.keeper),
            Step::EndTimer => {
                if let Some(mark) = self.timer.take() {
                    self.expire(mark)?;
                }
            }
            Step::Confirm { passed, count } => self.confirm_some(*passed, *count)?,
            Step::ConfirmAny(number) => self.confirm(u32::from(*number))?,
            Step::Status {
                desired,
                is_final,
                room,
            } => self.status(*desired, *is_final, *room)?,
            Step::Deliver(count) => self.deliver(*count)?,
            Step::Junk(octets) => self.junk(octets),
            Step::Take(count) => self.take(*count)?,
        }
        self.trace.call(&Call::Keeper, Event::Keeper);
        self.look()?;
        self.room()
    }

    /// Makes a step of the master's that sends.
    fn make_sends(&mut self, step: &Step) -> Result<(), String> {
        match *step {
            Step::Send { skip, count, size } => {
                for turn in 0..count {
                    let _ = self.send(self.pdcp_after_last(skip), size.later(turn))?;
                }
            }
            Step::SendAny(pdcp, size) => {
                let _ = self.send(pdcp, size)?;
            }
            Step::SendAt(edge, off, size) => {
                let _ = self.send(edge.near(self.circle, &self.pair.ledger, off), size)?;
            }
            Step::Rest { part, off } => {
                self.drain()?;
                let pdus = self.circle.size() / 1_024 * part;
                let pdcp = self.pdcp_after_last(pdus.wrapping_add_signed(off));
                let _ = self.send(pdcp, PDU)?;
            }
            _ => {}
        }
        Ok(())
    }

    /// Sends so many packets, batch by batch: each arrives, is confirmed,
    /// reported and freed.
    pub fn flow(&mut self, packets: usize) -> Result<(), String> {
        let end = self.pair.watch.sent_count() + packets;
        while self.pair.watch.sent_count() < end {
            let count = (end - self.pair.watch.sent_count()).min(256);
            for step in [
                Step::send(count as u32),
                Step::Arrive {
                    dropped: 0,
                    period: 1,
                    count,
                },
                Step::Confirm {
                    passed: count + 1,
                    count,
                },
                Step::status(false),
                Step::Deliver(1),
            ] {
                self.make(&step)?;
            }
        }
        Ok(())
    }

    /// Sends a packet of that PDCP number, with a PDU of that size.
    pub fn send(&mut self, pdcp: u32, size: Size) -> Watched<u32> {
        let size = size.at(&self.pair.ledger);
        self.trace
            .call(&Call::Send([pdcp, size]), Event::Sent(pdcp, size));
        let before = Before::send(self.circle, &self.pair.ledger, pdcp);
        self.sizes.send(&self.pair.ledger, pdcp, size);
        let answer = self.pair.send(pdcp, size)?;
        self.sends.count(before, answer);
        Ok(answer)
    }

    /// All that was sent arrives, is confirmed, reported and settled, so that
    /// nothing waits unless an end is closed.
    pub fn drain(&mut self) -> Result<(), String> {
        let sent = self.pair.watch.sent_count();
        for packet in self.pair.watch.base()..sent {
            self.arrive_again(Some(packet))?;
        }
        self.fresh = sent;
        self.confirm_some(usize::MAX, usize::MAX)?;
        // A full list takes two.
        for _ in 0..2 {
            self.status(Desired::Left(20_000), false, LONGEST)?;
        }
        self.deliver(usize::MAX)
    }

    /// A copy of `packet` arrives.
    pub fn arrive_packet(&mut self, packet: usize) -> Watched<u32> {
        let (number, pdcp) = self.pair.watch.numbers(packet);
        self.trace
            .call(&Call::Arrive([number, pdcp]), Event::Arrived(packet));
        self.pair.arrive(packet)
    }

    /// A copy of `packet` arrives, if it still may.
    fn arrive_again(&mut self, packet: Option<usize>) -> Result<(), String> {
        if let Some(packet) = packet
            && self.pair.watch.may_arrive(packet)
        {
            let _ = self.arrive_packet(packet)?;
        }
        Ok(())
    }

    fn arrive_outside(&mut self, number: u32) -> Result<(), String> {
        self.trace.call(&Call::Arrive([number, 0]), Event::Refused);
        if self.pair.keeper.arrive(number, 0).is_ok() {
            return Err(format!("{number} was accepted"));
        }
        Ok(())
    }

    /// The next packets arrive, but for `dropped` of every `period`.
    pub fn arrive(&mut self, dropped: usize, period: usize, count: usize) -> Result<(), String> {
        for i in 0..count.min(self.pair.watch.sent_count() - self.fresh) {
            if i % period >= dropped {
                let _ = self.arrive_packet(self.fresh + i)?;
            }
        }
        self.fresh = self.pair.watch.sent_count().min(self.fresh + count);
        Ok(())
    }

    /// An expiry with that mark.
    fn expire(&mut self, mark: u32) -> Result<(), String> {
        self.trace.call(&Call::Expire(mark), Event::Expired(mark));
        self.marks.expire(self.numbers, &self.pair.keeper, mark);
        self.pair.expire(mark).map(|_| ())
    }

    fn confirm(&mut self, number: u32) -> Result<(), String> {
        self.trace
            .call(&Call::Confirm(number), Event::Confirmed(number));
        self.pair.confirm(number).map(|_| ())
    }

    fn confirm_some(&mut self, passed: usize, count: usize) -> Result<(), String> {
        let numbers: Vec<u32> = self.pair.keeper.records().map(|r| r.number).collect();
        for (i, number) in numbers.into_iter().enumerate().take(count) {
            if i % passed != passed - 1 {
                self.confirm(number)?;
            }
        }
        Ok(())
    }

    fn status(&mut self, desired: Desired, is_final: bool, room: usize) -> Result<(), String> {
        let Pair { keeper, ledger, .. } = &self.pair;
        let left = octets::left_by_status(ledger, self.pair.frames(), keeper, is_final);
        let desired = desired.at(left);
        let minimum = desired / 2 + 7;
        let call = Call::Status {
            desired,
            minimum,
            is_final,
            room,
        };
        self.trace.call(&call, Event::Built);
        let built = self.pair.status([desired, minimum], is_final, room);
        built.map(|_| ())
    }

    /// A look at the master, and at the sum of what waits there.
    fn look(&mut self) -> Result<(), String> {
        self.trace.call(&Call::Ledger, Event::Ledger);
        self.pair.check()
    }

    /// The room is asked for.
    fn room(&mut self) -> Result<(), String> {
        self.trace.call(&Call::Room, Event::Room);
        self.sizes.room(&self.pair.ledger);
        self.pair.room().map(|_| ())
    }

    fn deliver(&mut self, count: usize) -> Result<(), String> {
        for _ in 0..count {
            let mut room = [0; LONGEST];
            let Some(octets) = self.pair.next_frame() else {
                return Ok(());
            };
            let frame = &mut room[..octets.len()];
            frame.copy_from_slice(octets);
            self.trace.call(&Call::Accept(frame), Event::Accepted);
            self.trace.call(&Call::Ledger, Event::Ledger);
            let _ = self.pair.deliver().transpose()?;
            self.room()?;
        }
        Ok(())
    }

    /// Takes, with a look behind the first, and behind each on a closed end:
    /// there what waits is given out too.
    fn take(&mut self, count: usize) -> Result<(), String> {
        for turn in 0..count {
            self.trace.call(&Call::Take, Event::Taken);
            if self.pair.take()?.is_err() {
                continue;
            }
            let closed = self.pair.ledger.is_closed();
            if closed || turn == 0 {
                self.look()?;
            }
            if closed {
                self.room()?;
            }
        }
        Ok(())
    }

    fn junk(&mut self, octets: &[u8]) {
        if self.pair.ledger.clone().accept(octets).is_err() {
            self.trace.call(&Call::Accept(octets), Event::Refused);
            let _ = self.pair.ledger.accept(octets);
        }
    }
}
