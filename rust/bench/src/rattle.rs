//! The product through its C boundary, as a [`Side`].

use crate::{Form, List, REPORT, Report, Side};
use boundary::{Fields, Keeper, Range, Room};

/// The product.
pub struct Rattle;

impl Side for Rattle {
    const NAME: &'static str = "rattle";
    type Keeper = Keeper;

    #[inline(never)]
    fn read(octets: &[u8]) -> i64 {
        let mut fields = Fields::default();
        let (mut starts, mut ends) = (Room::uninit(), Room::uninit());
        let (kind, starts, ends) = boundary::read_all(octets, &mut fields, &mut starts, &mut ends);
        match kind {
            1 | 2 => {
                let ranges = starts.iter().zip(ends);
                let sum: i64 = ranges.map(|(&s, &e)| i64::from(s) + i64::from(e)).sum();
                sum + i64::from(fields.highest)
                    + i64::from(fields.desired)
                    + i64::from(fields.minimum)
            }
            0.. => i64::from(fields.number),
            _ => kind,
        }
    }

    #[inline(never)]
    fn read_apart(octets: &[u8]) -> i64 {
        let mut fields = Fields::default();
        match boundary::read(octets, &mut fields) {
            1 | 2 => {
                // With no ranges there is nothing to walk.
                let ranges = if fields.ranges > 0 { walked(octets) } else { 0 };
                ranges
                    + i64::from(fields.highest)
                    + i64::from(fields.desired)
                    + i64::from(fields.minimum)
            }
            0.. => i64::from(fields.number),
            refusal => refusal,
        }
    }

    #[inline(never)]
    fn write_data(form: Form, number: u32, buffer: &mut [u8]) -> i64 {
        boundary::write_data(form == Form::Long, number, buffer)
    }

    #[inline(never)]
    fn write_status(form: Form, report: &Report, list: &List, buffer: &mut [u8]) -> i64 {
        let head = [report.highest, report.desired, report.minimum];
        let long = form == Form::Long;
        boundary::write_status(
            long,
            report.is_final,
            head,
            &list.starts,
            &list.ends,
            buffer,
        )
    }

    fn keeper(pdcp_bits: u32, first: u32, first_pdcp: u32) -> Keeper {
        let mut keeper = Keeper::of(0);
        let opened = keeper.open(pdcp_bits, first, first_pdcp);
        assert_eq!(opened, 0, "benchmarks open well");
        keeper
    }

    #[inline(never)]
    fn arrive(keeper: &mut Keeper, number: u32, pdcp: u32) -> i64 {
        keeper.arrive(number, pdcp)
    }

    #[inline(never)]
    fn expire(keeper: &mut Keeper, mark: u32) -> i64 {
        keeper.expire(mark)
    }

    #[inline(never)]
    fn confirm(keeper: &mut Keeper, number: u32) -> i64 {
        keeper.confirm(number)
    }

    #[inline(never)]
    fn status(keeper: &mut Keeper, buffer: &mut [u8]) -> i64 {
        keeper.status(REPORT.desired, REPORT.minimum, false, buffer)
    }

    #[inline(never)]
    fn sends(pdcp_bits: u32, turns: u32) -> u32 {
        boundary::ledger_sends(pdcp_bits, turns)
    }

    #[inline(never)]
    fn accepts(pdcp_bits: u32, entries: u32, turns: u32, octets: &[u8]) -> u32 {
        boundary::ledger_accepts(pdcp_bits, entries, turns, octets)
    }

    #[inline(never)]
    fn sends_behind(pdcp_bits: u32, entries: u32, turns: u32, octets: &[u8]) -> u32 {
        boundary::ledger_sends_behind(pdcp_bits, entries, turns, octets)
    }

    #[inline(never)]
    fn rooms(pdcp_bits: u32, entries: u32, turns: u32, octets: &[u8]) -> u32 {
        boundary::ledger_rooms(pdcp_bits, entries, turns, octets)
    }
}

/// The sum over all ranges, taken one after another.
fn walked(octets: &[u8]) -> i64 {
    let (mut cursor, mut range) = ([0; boundary::CURSOR], Range::default());
    let mut sum = 0;
    boundary::first_range(octets, &mut cursor);
    while boundary::next_range(octets, &mut cursor, &mut range) == 1 {
        sum += i64::from(range.start);
        sum += i64::from(range.end);
    }
    sum
}
