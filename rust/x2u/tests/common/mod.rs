//! Shared by the test programs; each uses a part of it.
#![allow(dead_code)]

use x2u::frame::{self, Frame, LONGEST, Range, Report};
use x2u::{Form, Keeper, Refusal};

pub fn run(start: u32, end: u32) -> Range {
    Range { start, end }
}

pub fn report(highest: u32, desired: u32, minimum: u32, is_final: bool) -> Report {
    Report {
        highest,
        desired,
        minimum,
        is_final,
    }
}

/// The refusal of a frame, or none if it was read.
pub fn refusal_of(octets: &[u8]) -> Option<Refusal> {
    match frame::read(octets) {
        Frame::Refused(refusal) => Some(refusal),
        _ => None,
    }
}

/// What a status says, its list copied out.
pub fn status_of(octets: &[u8]) -> (Report, Vec<Range>) {
    match frame::read(octets) {
        Frame::Status { report, ranges, .. } => (report, ranges.collect()),
        other => panic!("{other:?} is no status"),
    }
}

pub fn written_status(form: Form, report: &Report, ranges: &[Range]) -> Vec<u8> {
    let mut buffer = [0xAA; LONGEST];
    let length = frame::write_status(form, report, ranges, &mut buffer).unwrap();
    buffer[..length].to_vec()
}

pub fn written_data(form: Form, number: u32) -> Vec<u8> {
    let mut buffer = [0xAA; LONGEST];
    let length = frame::write_data(form, number, &mut buffer).unwrap();
    buffer[..length].to_vec()
}

/// Builds a status in a buffer that is long enough.
pub fn status(keeper: &mut Keeper, is_final: bool) -> Result<Vec<u8>, Refusal> {
    let mut buffer = [0; LONGEST];
    let length = keeper.status(65_536, 4_096, is_final, &mut buffer)?;
    Ok(buffer[..length].to_vec())
}

/// A keeper on which every second number from 0 on was lost, `runs` of them.
pub fn keeper_with_runs(pdcp_bits: u32, runs: u32) -> Keeper {
    let mut keeper = Keeper::open(pdcp_bits, 0, 0).unwrap();
    for i in 0..runs {
        keeper.arrive(2 * i + 1, 2 * i + 1).unwrap();
    }
    keeper.expire(2 * runs - 1).unwrap();
    assert_eq!(keeper.listed_runs().len(), runs as usize);
    keeper
}

/// L, M and a first number, of both forms and with a rollover near or not.
pub const BEARERS: [(u32, u32, u32); 6] = [
    (12, 1 << 16, 0),
    (12, 1 << 16, 65_534),
    (15, 1 << 16, 40_000),
    (18, 1 << 24, 0),
    (18, 1 << 24, (1 << 24) - 2),
    (18, 1 << 24, 9_000_000),
];

/// A keeper, and the number so many ahead of its first.
pub struct Numbered {
    pub keeper: Keeper,
    pub size: u32,
    pub first: u32,
}

impl Numbered {
    /// One on which the numbers so many ahead of the first arrived.
    pub fn with((bits, size, first): (u32, u32, u32), arrived: &[u32]) -> Self {
        let keeper = Keeper::open(bits, first, 0).unwrap();
        let mut numbered = Self {
            keeper,
            size,
            first,
        };
        for &ahead in arrived {
            let number = numbered.number(ahead);
            numbered.keeper.arrive(number, 0).unwrap();
        }
        numbered
    }

    pub fn number(&self, ahead: u32) -> u32 {
        (self.first + ahead) % self.size
    }

    pub fn expire(&mut self, ahead: u32) -> Result<u32, Refusal> {
        self.keeper.expire(self.number(ahead))
    }
}
