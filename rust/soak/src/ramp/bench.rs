//! Both ends under watch, and the program under test beside them.

use super::Settings;
use super::conditions::MINIMUM_PART;
use super::link::{Link, Mismatch};
use super::source::HeldBy;
use crate::table::Table;
use model::{Opening, Pair};
use programs::replay::{Call, answer};
use std::io;
use x2u::frame::LONGEST;
use x2u::ledger::{Entry, Settled};
use x2u::{Answer, Refusal};

/// Why a ramp can't go on.
#[derive(Clone, Debug, PartialEq, Eq)]
pub enum Trouble {
    /// The program can't be started.
    Start(String),
    /// Demand 3 is violated.
    Demand(String),
    /// The library's room isn't that of the packets.
    Room(String),
    /// The program and the library differ; the link knows where.
    Differs,
}

/// A call's answer from the library, seen to keep demand 3.
type Seen<T> = Result<Answer<T>, Trouble>;

/// The ends, the program, and counts of calls and refusals.
pub struct Bench {
    /// The library's ends.
    pub pair: Pair,
    link: Link,
    /// Calls made.
    pub calls: u64,
    /// Answers by kind.
    pub table: Table,
}

impl Bench {
    /// Opens a bearer on the library and on the program.
    pub fn open(settings: &Settings, opening: Opening) -> io::Result<Self> {
        let mut bench = Self {
            pair: Pair::open(opening),
            link: Link::start(&settings.program, settings.patience)?,
            calls: 0,
            table: Table::default(),
        };
        let numbers = [
            opening.bits,
            opening.first as u32,
            opening.first_pdcp as u32,
        ];
        // A wrong answer to this shows at the next call.
        let _ = bench.tell(Call::Open(numbers), Ok(()), answer::ok);
        Ok(bench)
    }

    /// Makes the call on the program, which must answer as the library did.
    fn tell<T: Copy>(
        &mut self,
        call: Call<'_>,
        answered: Answer<T>,
        print: fn(Answer<T>, &mut Vec<u8>) -> io::Result<()>,
    ) -> Result<(), Trouble> {
        self.calls += 1;
        if let Err(refusal) = answered {
            self.table.count_refusal(word_of(&call), refusal);
        }
        let alike = self
            .link
            .call(|out| call.print(out), |out| print(answered, out));
        alike.then_some(()).ok_or(Trouble::Differs)
    }

    /// Sends a packet whose PDU has `size` octets.
    pub fn send(&mut self, pdcp: u32, size: u32) -> Seen<u32> {
        let answered = self.pair.send(pdcp, size).map_err(Trouble::Demand)?;
        self.tell(Call::Send([pdcp, size]), answered, answer::sent)?;
        Ok(answered)
    }

    /// A copy of `packet` arrives.
    pub fn arrive(&mut self, packet: usize) -> Seen<u32> {
        let (number, pdcp) = self.pair.watch.numbers(packet);
        let answered = self.pair.arrive(packet).map_err(Trouble::Demand)?;
        self.tell(Call::Arrive([number, pdcp]), answered, answer::lost)?;
        Ok(answered)
    }

    /// The secondary gives up its gaps before a mark.
    pub fn expire(&mut self, mark: u32) -> Seen<u32> {
        let answered = self.pair.expire(mark).map_err(Trouble::Demand)?;
        self.tell(Call::Expire(mark), answered, answer::lost)?;
        Ok(answered)
    }

    /// The handset confirms a packet.
    pub fn confirm(&mut self, packet: usize) -> Seen<()> {
        let (number, _) = self.pair.watch.numbers(packet);
        let answered = self.pair.confirm(number).map_err(Trouble::Demand)?;
        self.tell(Call::Confirm(number), answered, answer::ok)?;
        Ok(answered)
    }

    /// The secondary builds a status. Answers its octets.
    pub fn status(&mut self, desired: u32, is_final: bool, room: usize) -> Seen<Vec<u8>> {
        let minimum = desired / MINIMUM_PART;
        let built = self.pair.status([desired, minimum], is_final, room);
        let built = built.map_err(Trouble::Demand)?.map(<[u8]>::to_vec);
        let call = Call::Status {
            desired,
            minimum,
            is_final,
            room,
        };
        let octets = built
            .as_ref()
            .map(Vec::as_slice)
            .map_err(|refusal| *refusal);
        self.tell(call, octets, answer::frame)?;
        Ok(built)
    }

    /// The oldest status under way reaches the master.
    pub fn deliver(&mut self) -> Result<Option<Settled>, Trouble> {
        let mut room = [0; LONGEST];
        let Some(octets) = self.pair.next_frame() else {
            return Ok(None);
        };
        let frame = &mut room[..octets.len()];
        frame.copy_from_slice(octets);
        let answered = self.pair.deliver().transpose().map_err(Trouble::Demand)?;
        let Some(Ok(settled)) = answered else {
            return Ok(None);
        };
        self.tell(Call::Accept(frame), Ok(settled), answer::settled)?;
        Ok(Some(settled))
    }

    /// A packet is taken from the master.
    pub fn take(&mut self) -> Seen<Entry> {
        let answered = self.pair.take().map_err(Trouble::Demand)?;
        self.tell(Call::Take, answered, answer::taken)?;
        Ok(answered)
    }

    /// The master is asked for the room.
    pub fn room(&mut self) -> Result<u32, Trouble> {
        let room = self.pair.room().map_err(Trouble::Room)?;
        self.calls += 1;
        let alike = self
            .link
            .call(|out| Call::Room.print(out), |out| answer::room(room, out));
        alike.then_some(room).ok_or(Trouble::Differs)
    }

    /// Shows both ends, so that all they hold is compared.
    pub fn show(&mut self) -> Result<(), Trouble> {
        self.pair.check().map_err(Trouble::Demand)?;
        let Pair { keeper, ledger, .. } = &self.pair;
        self.calls += 2;
        let link = &mut self.link;
        let alike = link.call(
            |out| Call::Keeper.print(out),
            |out| answer::keeper(keeper, out),
        ) && link.call(
            |out| Call::Ledger.print(out),
            |out| answer::ledger(ledger, out),
        );
        alike.then_some(()).ok_or(Trouble::Differs)
    }

    /// Ends the program and answers its first mismatch, if there was one.
    pub fn finish(self) -> (Pair, Table, Option<Mismatch>) {
        (self.pair, self.table, self.link.finish())
    }
}

fn word_of(call: &Call<'_>) -> &'static str {
    match call {
        Call::Open(_) => "open",
        Call::Arrive(_) => "arrive",
        Call::Expire(_) => "expire",
        Call::Confirm(_) => "confirm",
        Call::Status { .. } => "status",
        Call::Send(_) => "send",
        Call::Accept(_) => "accept",
        Call::Take => "take",
        Call::Room => "room",
        Call::Keeper => "keeper",
        Call::Ledger => "ledger",
    }
}

/// What holds a packet up, if a refused send only means that it has to wait.
#[must_use]
pub fn held_by(refusal: Refusal) -> Option<HeldBy> {
    match refusal {
        Refusal::LedgerFull => Some(HeldBy::Ledger),
        Refusal::PdcpOrder => Some(HeldBy::Order),
        _ => None,
    }
}
