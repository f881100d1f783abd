//! The answers to calls, as text without a line end.

use crate::text::Text;
use std::io::{self, Write};
use x2u::ledger::{Entry, Fate, Settled};
use x2u::{Answer, Keeper, Ledger};

/// Prints the refusal, or the answer as `show` does.
fn print<T, W: Write>(
    answer: Answer<T>,
    out: &mut W,
    show: impl FnOnce(T, &mut W) -> io::Result<()>,
) -> io::Result<()> {
    match answer {
        Ok(answer) => show(answer, out),
        Err(refusal) => {
            out.write_all(b"refused")?;
            out.fields(&[u32::from(refusal.number())])
        }
    }
}

/// The answer to an open or a confirm.
pub fn ok(answer: Answer<()>, out: &mut impl Write) -> io::Result<()> {
    print(answer, out, |(), out| out.write_all(b"ok"))
}

/// The answer to an arrival or an expiry.
pub fn lost(answer: Answer<u32>, out: &mut impl Write) -> io::Result<()> {
    print(answer, out, |lost, out| {
        out.write_all(b"lost")?;
        out.fields(&[lost])
    })
}

/// The answer to a status.
pub fn frame(answer: Answer<&[u8]>, out: &mut impl Write) -> io::Result<()> {
    print(answer, out, |octets, out| {
        out.write_all(b"frame\t")?;
        out.hexadecimal(octets)
    })
}

/// The answer to a send.
pub fn sent(answer: Answer<u32>, out: &mut impl Write) -> io::Result<()> {
    print(answer, out, |number, out| {
        out.write_all(b"sent")?;
        out.fields(&[number])
    })
}

/// The answer to a frame that reached the master.
pub fn settled(answer: Answer<Settled>, out: &mut impl Write) -> io::Result<()> {
    print(answer, out, |settled, out| {
        out.write_all(b"freed")?;
        out.fields(&[settled.freed])?;
        out.write_all(b"\tlost")?;
        out.fields(&[settled.lost])?;
        out.write_all(b"\tfinal")?;
        out.fields(&[u32::from(settled.is_final)])
    })
}

/// The answer to a take.
pub fn taken(answer: Answer<Entry>, out: &mut impl Write) -> io::Result<()> {
    print(answer, out, |entry, out| {
        out.write_all(b"taken")?;
        out.fields(&[entry.number, entry.pdcp, entry.size.into()])
    })
}

/// The room, which is never refused.
pub fn room(octets: u32, out: &mut impl Write) -> io::Result<()> {
    out.write_all(b"room")?;
    out.fields(&[octets])
}

/// The secondary as it stands.
pub fn keeper(keeper: &Keeper, out: &mut impl Write) -> io::Result<()> {
    out.write_all(b"keeper")?;
    out.fields(&[
        keeper.base(),
        keeper.reported_highest(),
        u32::from(keeper.is_closed()),
    ])?;
    out.write_all(b"\t")?;
    out.ranges(keeper.listed_runs().iter().copied())?;
    out.write_all(b"\t")?;
    out.joined(keeper.records(), |out, record| {
        let mark: &[u8] = if record.confirmed { b":1" } else { b":0" };
        pair(out, record.number, record.pdcp, mark)
    })
}

/// The master as it stands, and how many octets wait there.
pub fn ledger(ledger: &Ledger, out: &mut impl Write) -> io::Result<()> {
    out.write_all(b"ledger")?;
    out.fields(&[
        ledger.next_number(),
        ledger.highest(),
        ledger.last_sent(),
        u32::from(ledger.is_closed()),
        ledger.desired(),
        ledger.minimum(),
        ledger.waiting_octets(),
    ])?;
    out.write_all(b"\t")?;
    out.joined(ledger.entries(), |out, entry| {
        let mark: &[u8] = match entry.fate {
            Fate::Waiting => b":w:",
            Fate::Lost => b":l:",
        };
        pair(out, entry.number, entry.pdcp, mark)?;
        out.decimal(entry.size.into())
    })
}

fn pair(out: &mut impl Write, number: u32, pdcp: u32, mark: &[u8]) -> io::Result<()> {
    out.decimal(number)?;
    out.write_all(b":")?;
    out.decimal(pdcp)?;
    out.write_all(mark)
}
