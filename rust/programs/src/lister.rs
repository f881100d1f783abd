//! The lister: a frame a line in hexadecimal, its fields a line in decimal.

use crate::text::{Text, octets_of};
use std::io::{self, Write};
use x2u::Form;
use x2u::frame::{self, Frame, LONGEST};

/// Prints what stands in the frame that `line` spells; `None` is a line too
/// long to spell one.
pub fn answer(line: Option<&[u8]>, out: &mut impl Write) -> io::Result<()> {
    let mut room = [0; LONGEST];
    match line.and_then(|digits| octets_of(digits, &mut room)) {
        Some(octets) => print(frame::read(octets), out)?,
        None => out.write_all(b"unreadable")?,
    }
    out.write_all(b"\n")
}

fn print(frame: Frame<'_>, out: &mut impl Write) -> io::Result<()> {
    match frame {
        Frame::Data { form, number } => {
            out.write_all(match form {
                Form::Short => b"0",
                Form::Long => b"3",
            })?;
            out.fields(&[number])
        }
        Frame::Status {
            form,
            report,
            ranges,
        } => {
            out.write_all(match form {
                Form::Short => b"1",
                Form::Long => b"2",
            })?;
            out.fields(&[report.highest, report.desired, report.minimum])?;
            out.fields(&[u32::from(report.is_final)])?;
            out.write_all(b"\t")?;
            out.ranges(ranges)
        }
        Frame::Refused(refusal) => {
            out.write_all(b"refused")?;
            out.fields(&[u32::from(refusal.number())])
        }
    }
}
