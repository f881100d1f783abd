//! Reading and writing X2-U frames (TS 36.425, 5.5; most significant octet
//! first).
//!
//! The number width, 2 octets in the short form and 3 in the long, is a
//! constant of the inner functions, so that one text serves both forms and
//! each is compiled for its own width.

use crate::Answer;
use crate::bearer::Form;
use crate::refusal::{Refusal, refuse_if};

/// The longest frame.
pub const LONGEST: usize = 1_018;
/// The most ranges in one frame.
pub const MOST_RANGES: usize = 162;

const SHORTEST: usize = 6;
const DATA_SHORT: u8 = 0;
const STATUS_SHORT: u8 = 1;
const STATUS_LONG: u8 = 2;
const DATA_LONG: u8 = 3;
const FINAL_BIT: u8 = 0b10;
const LIST_BIT: u8 = 0b01;
/// The octets of a status before its list, but for the highest PDCP number.
const STATUS_REST: usize = 1 + 4 + 4;

/// Numbers from `start` forward through `end`.
#[derive(Clone, Copy, Debug, PartialEq, Eq)]
pub struct Range {
    /// The first number.
    pub start: u32,
    /// The last number, which may be a smaller integer after a rollover.
    pub end: u32,
}

/// The fields of a status that stand before its list.
#[derive(Clone, Copy, Debug, PartialEq, Eq)]
pub struct Report {
    /// Highest PDCP number delivered in sequence.
    pub highest: u32,
    /// Desired buffer size for the bearer, in octets.
    pub desired: u32,
    /// Minimum desired buffer size for the handset, in octets.
    pub minimum: u32,
    /// Whether this is the last status of the bearer.
    pub is_final: bool,
}

/// What a frame was read as.
#[derive(Clone, Debug, PartialEq, Eq)]
pub enum Frame<'a> {
    /// Type 0 or 3.
    Data {
        /// Short for type 0, long for type 3.
        form: Form,
        /// The packet's X2-U number.
        number: u32,
    },
    /// Type 1 or 2.
    Status {
        /// Short for type 1, long for type 2.
        form: Form,
        /// The fields before the list.
        report: Report,
        /// The list, empty if there is none.
        ranges: Ranges<'a>,
    },
    /// No frame.
    Refused(Refusal),
}

/// The ranges of a status, walked one after another over the caller's frame.
#[derive(Clone, Debug, PartialEq, Eq)]
pub struct Ranges<'a> {
    form: Form,
    pairs: &'a [u8],
}

impl Ranges<'_> {
    fn take<const WIDTH: usize>(&mut self) -> Option<Range> {
        let (start, rest) = self.pairs.split_first_chunk::<WIDTH>()?;
        let (end, rest) = rest.split_first_chunk::<WIDTH>()?;
        self.pairs = rest;
        Some(Range {
            start: value(start),
            end: value(end),
        })
    }
}

impl Iterator for Ranges<'_> {
    type Item = Range;

    fn next(&mut self) -> Option<Range> {
        match self.form {
            Form::Short => self.take::<2>(),
            Form::Long => self.take::<3>(),
        }
    }

    fn size_hint(&self) -> (usize, Option<usize>) {
        let pair = match self.form {
            Form::Short => 4,
            Form::Long => 6,
        };
        let left = self.pairs.len() / pair;
        (left, Some(left))
    }
}

impl ExactSizeIterator for Ranges<'_> {}

fn value(octets: &[u8]) -> u32 {
    octets
        .iter()
        .fold(0, |sum, &octet| sum << 8 | u32::from(octet))
}

/// Reads a frame. What follows its last field is not looked at.
#[must_use]
pub fn read(octets: &[u8]) -> Frame<'_> {
    let length = octets.len();
    if !(SHORTEST..=LONGEST).contains(&length) || length % 4 != 2 {
        return Frame::Refused(Refusal::FrameLength);
    }
    match octets[0] >> 4 {
        DATA_SHORT => read_data::<2>(Form::Short, octets),
        STATUS_SHORT => read_status::<2>(Form::Short, octets).unwrap_or_else(Frame::Refused),
        STATUS_LONG => read_status::<3>(Form::Long, octets).unwrap_or_else(Frame::Refused),
        DATA_LONG => read_data::<3>(Form::Long, octets),
        _ => Frame::Refused(Refusal::ReservedType),
    }
}

fn read_data<const WIDTH: usize>(form: Form, octets: &[u8]) -> Frame<'_> {
    Frame::Data {
        form,
        number: value(&octets[1..=WIDTH]),
    }
}

fn read_status<const WIDTH: usize>(form: Form, octets: &[u8]) -> Answer<Frame<'_>> {
    let listed = octets[0] & LIST_BIT != 0;
    let fixed = STATUS_REST + WIDTH + usize::from(listed);
    let (head, rest) = octets.split_at_checked(fixed).ok_or(Refusal::FieldsCut)?;
    let report = Report {
        highest: value(&head[1..=WIDTH]),
        desired: value(&head[1 + WIDTH..5 + WIDTH]),
        minimum: value(&head[5 + WIDTH..9 + WIDTH]),
        is_final: octets[0] & FINAL_BIT != 0,
    };
    refuse_if(
        report.highest > form.largest_highest(),
        Refusal::HighestTooLarge,
    )?;
    let pairs = if listed {
        let count = usize::from(head[fixed - 1]);
        refuse_if(!(1..=MOST_RANGES).contains(&count), Refusal::RangeCount)?;
        rest.get(..count * 2 * WIDTH).ok_or(Refusal::ListCut)?
    } else {
        &[]
    };
    Ok(Frame::Status {
        form,
        report,
        ranges: Ranges { form, pairs },
    })
}

/// Writes a data frame to the front of `buffer` and answers its length.
pub fn write_data(form: Form, number: u32, buffer: &mut [u8]) -> Answer<usize> {
    refuse_if(!form.numbers().holds(number), Refusal::NumberTooLarge)?;
    match form {
        Form::Short => {
            let mut pen = Pen::at(buffer, 1 + 2)?;
            pen.octet(DATA_SHORT << 4);
            pen.number::<2>(number);
            Ok(pen.finish())
        }
        Form::Long => {
            let mut pen = Pen::at(buffer, 1 + 3)?;
            pen.octet(DATA_LONG << 4);
            pen.number::<3>(number);
            Ok(pen.finish())
        }
    }
}

/// Writes a status to the front of `buffer` and answers its length. An empty
/// list is left out, with its count.
pub fn write_status(
    form: Form,
    report: &Report,
    ranges: &[Range],
    buffer: &mut [u8],
) -> Answer<usize> {
    refuse_if(
        report.highest > form.largest_highest(),
        Refusal::HighestTooLarge,
    )?;
    refuse_if(ranges.len() > MOST_RANGES, Refusal::RangeCount)?;
    let circle = form.numbers();
    let held = ranges
        .iter()
        .all(|range| circle.holds(range.start) && circle.holds(range.end));
    refuse_if(!held, Refusal::NumberTooLarge)?;
    match form {
        Form::Short => put_status::<2>(STATUS_SHORT, report, ranges, buffer),
        Form::Long => put_status::<3>(STATUS_LONG, report, ranges, buffer),
    }
}

fn put_status<const WIDTH: usize>(
    kind: u8,
    report: &Report,
    ranges: &[Range],
    buffer: &mut [u8],
) -> Answer<usize> {
    let list = match ranges.len() {
        0 => 0,
        count => 1 + count * 2 * WIDTH,
    };
    let mut pen = Pen::at(buffer, STATUS_REST + WIDTH + list)?;
    pen.octet(kind << 4 | u8::from(report.is_final) << 1 | u8::from(list > 0));
    pen.number::<WIDTH>(report.highest);
    pen.number::<4>(report.desired);
    pen.number::<4>(report.minimum);
    if list > 0 {
        pen.octet(ranges.len() as u8);
        for range in ranges {
            pen.number::<WIDTH>(range.start);
            pen.number::<WIDTH>(range.end);
        }
    }
    Ok(pen.finish())
}

/// The length of a frame of `unpadded` octets: the next 4k - 2.
const fn padded(unpadded: usize) -> usize {
    (unpadded + 1) / 4 * 4 + 2
}

/// Writes octet after octet over exactly the room of one frame.
struct Pen<'a> {
    length: usize,
    rest: &'a mut [u8],
}

impl<'a> Pen<'a> {
    fn at(buffer: &'a mut [u8], unpadded: usize) -> Answer<Self> {
        let length = padded(unpadded);
        let rest = buffer.get_mut(..length).ok_or(Refusal::BufferShort)?;
        Ok(Self { length, rest })
    }

    fn octet(&mut self, octet: u8) {
        self.number::<1>(u32::from(octet));
    }

    fn number<const WIDTH: usize>(&mut self, number: u32) {
        let (here, rest) = core::mem::take(&mut self.rest).split_at_mut(WIDTH);
        here.copy_from_slice(&number.to_be_bytes()[4 - WIDTH..]);
        self.rest = rest;
    }

    /// Pads with zeros and answers the frame's length.
    fn finish(self) -> usize {
        self.rest.fill(0);
        self.length
    }
}
