//! A line of a script, taken apart.

use crate::text::{Text, number_of, octets_of};
use std::io::{self, Write};
use x2u::frame::LONGEST;

/// The longest buffer that a script can lend to a status.
pub const MOST_ROOM: usize = 2_048;

/// A call with its arguments, in the order they stand in the line.
#[derive(Clone, Copy, Debug, PartialEq, Eq)]
pub enum Call<'a> {
    /// Both ends: L, first number, first PDCP number.
    Open([u32; 3]),
    /// Secondary: number, PDCP number.
    Arrive([u32; 2]),
    /// Secondary: mark.
    Expire(u32),
    /// Secondary: number.
    Confirm(u32),
    /// Secondary.
    Status {
        /// Desired buffer size.
        desired: u32,
        /// Minimum desired buffer size.
        minimum: u32,
        /// Whether it is the last one.
        is_final: bool,
        /// The length of the buffer lent.
        room: usize,
    },
    /// Master: PDCP number, size.
    Send([u32; 2]),
    /// Master: a frame's octets.
    Accept(&'a [u8]),
    /// Master.
    Take,
    /// Master.
    Room,
    /// Shows the secondary.
    Keeper,
    /// Shows the master.
    Ledger,
}

impl<'a> Call<'a> {
    /// The call that `line` spells, if it is one. A frame is laid in `room`.
    pub fn of_line(line: &[u8], room: &'a mut [u8; LONGEST]) -> Option<Self> {
        let mut fields = line.split(|&octet| octet == b'\t');
        let call = match fields.next()? {
            b"open" => Self::Open(numbers(&mut fields)?),
            b"arrive" => Self::Arrive(numbers(&mut fields)?),
            b"expire" => Self::Expire(number(&mut fields)?),
            b"confirm" => Self::Confirm(number(&mut fields)?),
            b"status" => Self::status(numbers(&mut fields)?)?,
            b"send" => Self::Send(numbers(&mut fields)?),
            b"accept" => Self::Accept(octets_of(fields.next()?, room)?),
            b"take" => Self::Take,
            b"room" => Self::Room,
            b"keeper" => Self::Keeper,
            b"ledger" => Self::Ledger,
            _ => return None,
        };
        fields.next().is_none().then_some(call)
    }

    /// Prints the line that spells this call, without its line end.
    pub fn print(&self, out: &mut impl Write) -> io::Result<()> {
        match *self {
            Self::Open(numbers) => print(out, b"open", &numbers),
            Self::Arrive(numbers) => print(out, b"arrive", &numbers),
            Self::Expire(mark) => print(out, b"expire", &[mark]),
            Self::Confirm(number) => print(out, b"confirm", &[number]),
            Self::Status {
                desired,
                minimum,
                is_final,
                room,
            } => {
                let numbers = [desired, minimum, u32::from(is_final), room as u32];
                print(out, b"status", &numbers)
            }
            Self::Send(numbers) => print(out, b"send", &numbers),
            Self::Accept(octets) => {
                out.write_all(b"accept\t")?;
                out.hexadecimal(octets)
            }
            Self::Take => print(out, b"take", &[]),
            Self::Room => print(out, b"room", &[]),
            Self::Keeper => print(out, b"keeper", &[]),
            Self::Ledger => print(out, b"ledger", &[]),
        }
    }

    fn status([desired, minimum, last, room]: [u32; 4]) -> Option<Self> {
        let room = room as usize;
        (last <= 1 && room <= MOST_ROOM).then_some(Self::Status {
            desired,
            minimum,
            is_final: last == 1,
            room,
        })
    }
}

fn print(out: &mut impl Write, word: &[u8], numbers: &[u32]) -> io::Result<()> {
    out.write_all(word)?;
    out.fields(numbers)
}

/// The next field as a number.
fn number<'l>(fields: &mut impl Iterator<Item = &'l [u8]>) -> Option<u32> {
    number_of(fields.next()?)
}

/// The next `N` fields as numbers.
fn numbers<'l, const N: usize>(fields: &mut impl Iterator<Item = &'l [u8]>) -> Option<[u32; N]> {
    let mut numbers = [0; N];
    for place in &mut numbers {
        *place = number(fields)?;
    }
    Some(numbers)
}

#[cfg(test)]
mod tests {
    use super::{Call, LONGEST, MOST_ROOM};

    #[test]
    fn a_printed_call_is_read_back() {
        let status = Call::Status {
            desired: u32::MAX,
            minimum: 0,
            is_final: true,
            room: MOST_ROOM,
        };
        for call in [
            Call::Open([12, 0, 4_095]),
            Call::Arrive([65_535, 7]),
            Call::Expire(u32::MAX),
            Call::Confirm(10),
            status,
            Call::Send([0, u32::MAX]),
            Call::Accept(&[]),
            Call::Accept(&[0xAB, 0x01]),
            Call::Take,
            Call::Room,
            Call::Keeper,
            Call::Ledger,
        ] {
            let mut line = Vec::new();
            call.print(&mut line).unwrap();
            let mut room = [0; LONGEST];
            assert_eq!(Call::of_line(&line, &mut room), Some(call));
        }
    }
}
