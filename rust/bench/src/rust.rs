//! The library here, as a [`Side`]. Nothing is inlined into a benchmark, since
//! nothing could be across a C boundary.

use crate::{Form, List, PDU, REPORT, Range, Report, Side};
use std::hint::black_box;
use x2u::frame::{self, Frame, Ranges};
use x2u::{Answer, Keeper, Ledger};

/// The Rust library.
pub struct Rust;

fn number<T: Into<i64>>(answer: Answer<T>) -> i64 {
    match answer {
        Ok(answer) => answer.into(),
        Err(refusal) => -i64::from(refusal.number()),
    }
}

fn length(answer: Answer<usize>) -> i64 {
    number(answer.map(|length| length as u32))
}

/// A sum over all fields, the ranges taken one after another.
#[inline(always)]
fn sum(octets: &[u8], next: impl Fn(&mut Ranges<'_>) -> Option<Range>) -> i64 {
    match frame::read(octets) {
        Frame::Data { number, .. } => i64::from(number),
        Frame::Status {
            report, mut ranges, ..
        } => {
            let mut sum = i64::from(report.highest);
            sum += i64::from(report.desired) + i64::from(report.minimum);
            while let Some(range) = next(&mut ranges) {
                sum += i64::from(range.start) + i64::from(range.end);
            }
            sum
        }
        Frame::Refused(refusal) => -i64::from(refusal.number()),
    }
}

/// A ledger into which so many packets were sent.
fn filled(pdcp_bits: u32, entries: u32) -> Ledger {
    let mut ledger = Ledger::open(pdcp_bits, 0, 0).expect("benchmarks open well");
    for pdcp in 0..entries {
        ledger.send(pdcp, PDU).expect("benchmarks send in order");
    }
    ledger
}

#[inline(never)]
fn next_range(ranges: &mut Ranges<'_>) -> Option<Range> {
    ranges.next()
}

impl Side for Rust {
    const NAME: &'static str = "rust";
    type Keeper = Keeper;

    #[inline(never)]
    fn read(octets: &[u8]) -> i64 {
        sum(octets, |ranges| ranges.next())
    }

    #[inline(never)]
    fn read_apart(octets: &[u8]) -> i64 {
        sum(octets, next_range)
    }

    #[inline(never)]
    fn write_data(form: Form, number: u32, buffer: &mut [u8]) -> i64 {
        length(frame::write_data(form, number, buffer))
    }

    #[inline(never)]
    fn write_status(form: Form, report: &Report, list: &List, buffer: &mut [u8]) -> i64 {
        length(frame::write_status(form, report, &list.ranges, buffer))
    }

    fn keeper(pdcp_bits: u32, first: u32, first_pdcp: u32) -> Keeper {
        Keeper::open(pdcp_bits, first, first_pdcp).expect("benchmarks open well")
    }

    #[inline(never)]
    fn arrive(keeper: &mut Keeper, number_: u32, pdcp: u32) -> i64 {
        number(keeper.arrive(number_, pdcp))
    }

    #[inline(never)]
    fn expire(keeper: &mut Keeper, mark: u32) -> i64 {
        number(keeper.expire(mark))
    }

    #[inline(never)]
    fn confirm(keeper: &mut Keeper, number_: u32) -> i64 {
        number(keeper.confirm(number_).map(|()| 0_u32))
    }

    #[inline(never)]
    fn status(keeper: &mut Keeper, buffer: &mut [u8]) -> i64 {
        length(keeper.status(REPORT.desired, REPORT.minimum, false, buffer))
    }

    #[inline(never)]
    fn sends(pdcp_bits: u32, turns: u32) -> u32 {
        let open = || Ledger::open(pdcp_bits, 0, 0).expect("benchmarks open well");
        let mut ledger = open();
        let mut sum = 0_u32;
        for turn in 0..turns {
            let at = turn % 512;
            if at == 0 {
                ledger = open();
            }
            let sent = ledger.send(at, PDU);
            sum = sum.wrapping_add(sent.expect("benchmarks send in order"));
        }
        sum
    }

    #[inline(never)]
    fn accepts(pdcp_bits: u32, entries: u32, turns: u32, octets: &[u8]) -> u32 {
        let mut ledger = filled(pdcp_bits, entries);
        let mut last = 0;
        for _ in 0..turns {
            last = match ledger.accept(octets) {
                Ok(settled) => settled.freed,
                Err(refusal) => refusal.number().into(),
            };
        }
        last
    }

    #[inline(never)]
    fn sends_behind(pdcp_bits: u32, entries: u32, turns: u32, octets: &[u8]) -> u32 {
        let mut start = filled(pdcp_bits, entries);
        start.accept(octets).expect("the frame is accepted");
        let mut ledger = start.clone();
        let mut sum = 0_u32;
        for turn in 0..turns {
            let at = turn % 16;
            if at == 0 {
                ledger.clone_from(&start);
            }
            let sent = ledger.send(entries + at, PDU);
            sum = sum.wrapping_add(sent.expect("benchmarks send in order"));
        }
        sum
    }

    /// Only a status changes the desired size, so what is desired more is kept
    /// beside the ledger and added to its room, which is the same where there is
    /// room at all. Each room walks the entries: no sum of theirs is kept.
    #[inline(never)]
    fn rooms(pdcp_bits: u32, entries: u32, turns: u32, octets: &[u8]) -> u32 {
        let mut ledger = filled(pdcp_bits, entries);
        ledger.accept(octets).expect("the frame is accepted");
        let (mut sum, mut more) = (0_u32, 0_u32);
        for _ in 0..turns {
            let room = black_box(&ledger).room().wrapping_add(more);
            sum = sum.wrapping_add(room);
            more = more.wrapping_add(1 + room % 2);
        }
        sum
    }
}
