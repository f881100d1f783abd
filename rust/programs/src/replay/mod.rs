//! The replay program: a call a line, its answer a line.

pub mod answer;
mod call;

pub use call::{Call, MOST_ROOM};
use std::io::{self, Write};
use x2u::frame::LONGEST;
use x2u::{Answer, Keeper, Ledger};

/// Both ends of the one bearer that calls are made on.
#[derive(Default)]
pub struct Replay {
    ends: Option<Box<Ends>>,
}

struct Ends {
    keeper: Keeper,
    ledger: Ledger,
}

impl Replay {
    /// Makes the call that `line` spells and prints its answer; `None` is a
    /// line too long to spell one.
    pub fn answer(&mut self, line: Option<&[u8]>, out: &mut impl Write) -> io::Result<()> {
        let mut room = [0; LONGEST];
        let call = line.and_then(|line| Call::of_line(line, &mut room));
        match (call, &mut self.ends) {
            (None, _) => out.write_all(b"unreadable")?,
            (Some(Call::Open(numbers)), _) => answer::ok(self.open(numbers), out)?,
            (Some(_), None) => out.write_all(b"unopened")?,
            (Some(call), Some(ends)) => ends.make(call, out)?,
        }
        out.write_all(b"\n")
    }

    fn open(&mut self, [bits, first, first_pdcp]: [u32; 3]) -> Answer<()> {
        let opened = Ends {
            keeper: Keeper::open(bits, first, first_pdcp)?,
            ledger: Ledger::open(bits, first, first_pdcp)?,
        };
        self.ends = Some(Box::new(opened));
        Ok(())
    }
}

impl Ends {
    fn make(&mut self, call: Call<'_>, out: &mut impl Write) -> io::Result<()> {
        let Self { keeper, ledger } = self;
        match call {
            Call::Open(_) => Ok(()),
            Call::Arrive([number, pdcp]) => answer::lost(keeper.arrive(number, pdcp), out),
            Call::Expire(mark) => answer::lost(keeper.expire(mark), out),
            Call::Confirm(number) => answer::ok(keeper.confirm(number), out),
            Call::Status {
                desired,
                minimum,
                is_final,
                room,
            } => {
                let mut buffer = [0; MOST_ROOM];
                let built = keeper.status(desired, minimum, is_final, &mut buffer[..room]);
                answer::frame(built.map(|length| &buffer[..length]), out)
            }
            Call::Send([pdcp, size]) => answer::sent(ledger.send(pdcp, size), out),
            Call::Accept(octets) => answer::settled(ledger.accept(octets), out),
            Call::Take => answer::taken(ledger.take(), out),
            Call::Room => answer::room(ledger.room(), out),
            Call::Keeper => answer::keeper(keeper, out),
            Call::Ledger => answer::ledger(ledger, out),
        }
    }
}
