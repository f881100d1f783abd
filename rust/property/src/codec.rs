//! The product's codec beside the library's, through the C boundary.

use crate::frames::{Layout, Octets};
use crate::suite::Verdict;
use proptest::collection::vec;
use proptest::prelude::*;
use soak::table::Table;
use x2u::frame::{self, Frame, LONGEST, MOST_RANGES, Range, Report};
use x2u::{Answer, Form, Refusal};

/// What stands in memory that the product may leave as it is.
const FILL: u32 = 0xA5A5_5A5A;

macro_rules! same {
    ($what:expr, $library:expr, $product:expr) => {
        let (library, product) = ($library, $product);
        if library != product {
            let what = $what;
            return Err(format!(
                "{what}: the library {library:?}, the product {product:?}"
            ));
        }
    };
}

/// An answer as the boundary gives it.
fn number<T: Into<i64>>(answer: Answer<T>) -> i64 {
    match answer {
        Ok(answer) => answer.into(),
        Err(refusal) => -i64::from(refusal.number()),
    }
}

fn form_of(long: bool) -> Form {
    if long { Form::Long } else { Form::Short }
}

/// What the product reads: its answer and fields, and the ranges it walks.
#[derive(Debug, PartialEq, Eq)]
struct Reading {
    answer: i64,
    fields: boundary::Fields,
    first: i64,
    ranges: Vec<Range>,
}

/// What stands in the memory that a call is lent.
const LENT: boundary::Fields = boundary::Fields {
    number: FILL,
    highest: FILL,
    desired: FILL,
    minimum: FILL,
    is_final: FILL,
    ranges: FILL,
};
const LENT_RANGE: boundary::Range = boundary::Range {
    start: FILL,
    end: FILL,
};

fn read_by_product(octets: &[u8]) -> Result<Reading, String> {
    let mut fields = LENT;
    let answer = boundary::read(octets, &mut fields);
    let mut fields_of_all = LENT;
    let (mut starts, mut ends) = (boundary::Room::uninit(), boundary::Room::uninit());
    let (all, starts, ends) =
        boundary::read_all(octets, &mut fields_of_all, &mut starts, &mut ends);
    same!("reading all", (answer, fields), (all, fields_of_all));
    let mut cursor = [FILL; boundary::CURSOR];
    let first = boundary::first_range(octets, &mut cursor);
    let mut ranges = Vec::new();
    if first < 0 {
        same!(
            "the cursor of a refused frame",
            [FILL; boundary::CURSOR],
            cursor
        );
        return Ok(Reading {
            answer,
            fields,
            first,
            ranges,
        });
    }
    let mut range = LENT_RANGE;
    while boundary::next_range(octets, &mut cursor, &mut range) == 1 {
        let (start, end) = (range.start, range.end);
        ranges.push(Range { start, end });
        if ranges.len() > MOST_RANGES {
            return Err("the walk over the ranges doesn't end".to_owned());
        }
    }
    let taken = |number: fn(&Range) -> u32| ranges.iter().map(number).collect::<Vec<_>>();
    same!("all starts", taken(|r| r.start), starts.to_vec());
    same!("all ends", taken(|r| r.end), ends.to_vec());
    // At the end it stays, and nothing is changed any more.
    let (end, last) = (cursor, range);
    same!(
        "a step past the last range",
        0,
        boundary::next_range(octets, &mut cursor, &mut range)
    );
    same!("the cursor past the last range", end, cursor);
    same!("the range past the last one", last, range);
    Ok(Reading {
        answer,
        fields,
        first,
        ranges,
    })
}

/// The fields of a data frame: its number alone.
fn data_fields(number: u32) -> boundary::Fields {
    boundary::Fields {
        number,
        ..boundary::Fields::default()
    }
}

fn read_by_library(octets: &[u8]) -> Reading {
    match frame::read(octets) {
        Frame::Refused(refusal) => Reading {
            answer: number::<u32>(Err(refusal)),
            fields: LENT,
            first: number::<u32>(Err(refusal)),
            ranges: Vec::new(),
        },
        Frame::Data { form, number } => Reading {
            answer: if form == Form::Long { 3 } else { 0 },
            fields: data_fields(number),
            first: 0,
            ranges: Vec::new(),
        },
        Frame::Status {
            form,
            report,
            ranges,
        } => Reading {
            answer: if form == Form::Long { 2 } else { 1 },
            fields: boundary::Fields {
                number: 0,
                highest: report.highest,
                desired: report.desired,
                minimum: report.minimum,
                is_final: report.is_final.into(),
                ranges: ranges.len() as u32,
            },
            first: ranges.len() as i64,
            ranges: ranges.collect(),
        },
    }
}

/// Both read a frame alike, to its last range.
pub fn reads_alike(octets: &Octets, table: &mut Table) -> Verdict {
    let product = read_by_product(&octets.0)?;
    count(table, "read", product.answer);
    same!("reading", read_by_library(&octets.0), product);
    Ok(())
}

fn count(table: &mut Table, word: &str, answer: i64) {
    let text = match answer {
        0.. => format!("{word} done"),
        _ => format!("refused\t{}", -answer),
    };
    table.count(word.as_bytes(), text.as_bytes());
}

/// What a writer is asked for, whether it can be written or not.
#[derive(Clone, Debug)]
pub struct Order {
    long: bool,
    is_status: bool,
    last: bool,
    number: u32,
    sizes: [u32; 2],
    starts: Vec<u32>,
    ends: Vec<u32>,
    room: Room,
}

/// The buffer: around the frame's length, or of any.
#[derive(Clone, Copy, Debug)]
enum Room {
    Near(isize),
    Any(usize),
}

impl Order {
    fn unpadded(&self) -> usize {
        let width = if self.long { 3 } else { 2 };
        let list = match self.starts.len().min(self.ends.len()) {
            0 => 0,
            count => 1 + 2 * width * count,
        };
        if self.is_status {
            9 + width + list
        } else {
            1 + width
        }
    }

    fn room(&self) -> usize {
        let length = self.unpadded() + (6 - self.unpadded() % 4) % 4;
        match self.room {
            Room::Near(more) => length.saturating_add_signed(more),
            Room::Any(room) => room,
        }
    }

    fn by_product(&self, buffer: &mut [u8]) -> i64 {
        let [desired, minimum] = self.sizes;
        if self.is_status {
            let head = [self.number, desired, minimum];
            boundary::write_status(self.long, self.last, head, &self.starts, &self.ends, buffer)
        } else {
            boundary::write_data(self.long, self.number, buffer)
        }
    }

    fn by_library(&self, buffer: &mut [u8]) -> Answer<usize> {
        let form = form_of(self.long);
        if !self.is_status {
            return frame::write_data(form, self.number, buffer);
        }
        let pairs = self.starts.iter().zip(&self.ends);
        let ranges: Vec<Range> = pairs.map(|(&start, &end)| Range { start, end }).collect();
        let [desired, minimum] = self.sizes;
        let report = Report {
            highest: self.number,
            desired,
            minimum,
            is_final: self.last,
        };
        frame::write_status(form, &report, &ranges, buffer)
    }
}

/// Orders of all kinds: numbers on and off their circles, lists too long,
/// buffers too short, exact and longer.
pub fn orders() -> impl Strategy<Value = Order> {
    let limits = vec![
        0_u32,
        1,
        32_767,
        32_768,
        65_535,
        65_536,
        262_143,
        262_144,
        16_777_215,
        16_777_216,
        u32::MAX,
    ];
    let near = prop::sample::select(limits.clone());
    let number = prop_oneof![4 => 0_u32..32_768, 2 => near.clone(), 1 => any::<u32>()];
    let in_list = prop_oneof![200 => 0_u32..65_536, 1 => near, 1 => any::<u32>()];
    let counts =
        prop_oneof![4 => Just(0_usize), 8 => 1_usize..6, 2 => 1_usize..170, 1 => 160_usize..165];
    let lists = (counts, 0_usize..12).prop_flat_map(move |(count, odd)| {
        // Now and then one of the two lists is longer.
        let more = [usize::from(odd == 0), usize::from(odd == 1)];
        (
            vec(in_list.clone(), count + more[0]),
            vec(in_list.clone(), count + more[1]),
        )
    });
    let room = prop_oneof![
        6 => (-6_isize..=6).prop_map(Room::Near),
        2 => Just(Room::Near(0)),
        1 => (0_usize..1_100).prop_map(Room::Any),
    ];
    let head = (
        any::<bool>(),
        prop::bool::weighted(0.8),
        any::<bool>(),
        number,
        any::<[u32; 2]>(),
    );
    (head, lists, room).prop_map(
        |((long, is_status, last, number, sizes), (starts, ends), room)| Order {
            long,
            is_status,
            last,
            number,
            sizes,
            starts,
            ends,
            room,
        },
    )
}

/// Both write alike, into buffers that held the same before: the whole buffer
/// is compared, so what follows the frame, and all of it on a refusal, stays.
pub fn writes_alike(order: &Order, table: &mut Table) -> Verdict {
    let before: Vec<u8> = (0..order.room()).map(|place| place as u8 ^ 0xA5).collect();
    let (mut product, mut library) = (before.clone(), before.clone());
    let answer = order.by_product(&mut product);
    count(table, "write", answer);
    let wanted = order.by_library(&mut library);
    same!(
        "writing",
        number(wanted.map(|length| length as u32)),
        answer
    );
    same!("the buffer", library, &product[..]);
    let kept = if answer < 0 { 0 } else { answer as usize };
    same!(
        "what is behind the frame",
        &before[kept..],
        &product[kept..]
    );
    Ok(())
}

/// The first round trip, by the product alone: what it writes it reads back.
pub fn written_is_read(layout: &Layout) -> Verdict {
    let order = order_of(layout);
    let mut buffer = vec![0xFF; LONGEST];
    let length = order.by_product(&mut buffer);
    let length = usize::try_from(length).map_err(|_| format!("writing was refused: {length}"))?;
    let reading = read_by_product(&buffer[..length])?;
    same!("type", i64::from(layout.kind), reading.answer);
    let count = layout.ranges.len() as u32;
    let fields = if order.is_status {
        let [desired, minimum] = layout.sizes;
        boundary::Fields {
            number: 0,
            highest: layout.number,
            desired,
            minimum,
            is_final: layout.last.into(),
            ranges: count,
        }
    } else {
        data_fields(layout.number)
    };
    same!("fields", fields, reading.fields);
    let pairs = reading.ranges.iter().map(|range| (range.start, range.end));
    same!("ranges", layout.ranges.clone(), pairs.collect::<Vec<_>>());
    Ok(())
}

/// The second, by the product alone: a plain frame that it reads and writes
/// again is the same octets.
pub fn read_is_written(layout: &Layout) -> Verdict {
    let octets = layout.octets().0;
    let reading = read_by_product(&octets)?;
    let fields = reading.fields;
    let is_status = reading.answer == 1 || reading.answer == 2;
    let order = Order {
        long: reading.answer >= 2,
        is_status,
        last: fields.is_final == 1,
        number: if is_status {
            fields.highest
        } else {
            fields.number
        },
        sizes: [fields.desired, fields.minimum],
        starts: reading.ranges.iter().map(|range| range.start).collect(),
        ends: reading.ranges.iter().map(|range| range.end).collect(),
        room: Room::Near(0),
    };
    let mut buffer = vec![0xFF; octets.len()];
    same!("length", octets.len() as i64, order.by_product(&mut buffer));
    same!("octets", Octets(octets), Octets(buffer));
    Ok(())
}

fn order_of(layout: &Layout) -> Order {
    Order {
        long: layout.is_long(),
        is_status: layout.kind == 1 || layout.kind == 2,
        last: layout.last,
        number: layout.number,
        sizes: layout.sizes,
        starts: layout.ranges.iter().map(|range| range.0).collect(),
        ends: layout.ranges.iter().map(|range| range.1).collect(),
        room: Room::Any(LONGEST),
    }
}

/// A walk begun anywhere ends within the frame and answers 0 or 1.
pub fn walks_anywhere((octets, cursor): &(Octets, boundary::Cursor)) -> Verdict {
    let (mut cursor, mut range) = (*cursor, LENT_RANGE);
    // A range takes four octets at least.
    for _ in 0..=octets.0.len() / 4 {
        let before = (cursor, range);
        match boundary::next_range(&octets.0, &mut cursor, &mut range) {
            0 => {
                same!("memory at the end of a walk", before, (cursor, range));
                return Ok(());
            }
            1 => {}
            answer => return Err(format!("next_range answers {answer}")),
        }
    }
    Err("the walk doesn't end".to_owned())
}

/// The refusals of reading.
pub const READ: [u8; 6] = [1, 2, 3, 4, 5, 6];
/// The refusals of writing.
pub const WRITE: [u8; 4] = [4, 5, 10, 20];

/// All refusals that there are a number for.
#[must_use]
pub fn all_numbers() -> Vec<u8> {
    Refusal::ALL
        .iter()
        .map(|refusal| refusal.number())
        .collect()
}
