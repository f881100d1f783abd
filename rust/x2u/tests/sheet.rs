//! Document 01's bench sheet as requests One, Three, Four and Six left it, line by line.

mod common;

use common::{refusal_of, report, run, status, status_of, written_data, written_status};
use x2u::{Form, Keeper, Ledger, Refusal};

fn keeper(pdcp_bits: u32, first: u32, first_pdcp: u32) -> Keeper {
    Keeper::open(pdcp_bits, first, first_pdcp).unwrap()
}

#[test]
fn write_type_0() {
    let frame = written_data(Form::Short, 4660);
    assert_eq!(frame, [0x00, 0x12, 0x34, 0, 0, 0]);
}

#[test]
fn write_type_3() {
    let frame = written_data(Form::Long, 43981);
    assert_eq!(frame, [0x30, 0x00, 0xAB, 0xCD, 0, 0]);
}

#[test]
fn write_type_1_with_a_range() {
    let frame = written_status(
        Form::Short,
        &report(120, 65_536, 4_096, false),
        &[run(7, 9)],
    );
    let expected = [
        0x11, 0, 0x78, 0, 1, 0, 0, 0, 0, 0x10, 0, 1, 0, 7, 0, 9, 0, 0,
    ];
    assert_eq!(frame, expected);
}

#[test]
fn write_type_2_final_without_list() {
    let frame = written_status(Form::Long, &report(262_143, 0, 0, true), &[]);
    let mut expected = [0; 14];
    expected[..4].copy_from_slice(&[0x22, 0x03, 0xFF, 0xFF]);
    assert_eq!(frame, expected);
}

#[test]
fn read_bad_lengths() {
    assert_eq!(refusal_of(&[]), Some(Refusal::FrameLength));
    assert_eq!(refusal_of(&[0; 8]), Some(Refusal::FrameLength));
}

#[test]
fn read_reserved_type() {
    let octets = [0x40, 1, 2, 3, 4, 5];
    assert_eq!(refusal_of(&octets), Some(Refusal::ReservedType));
}

#[test]
fn read_cut_status() {
    let mut octets = [0; 14];
    octets[0] = 0x10;
    assert_eq!(refusal_of(&octets[..10]), Some(Refusal::FieldsCut));
    octets[0] = 0x11;
    octets[11] = 1;
    assert_eq!(refusal_of(&octets), Some(Refusal::ListCut));
}

#[test]
fn read_count_0() {
    let mut octets = [0; 18];
    octets[0] = 0x11;
    assert_eq!(refusal_of(&octets), Some(Refusal::RangeCount));
}

#[test]
fn arrival_at_the_window() {
    let mut inside = keeper(12, 0, 0);
    assert_eq!(inside.arrive(255, 0), Ok(0));
    assert_eq!(inside.base(), 0);
    let mut outside = keeper(12, 0, 0);
    assert_eq!(outside.arrive(256, 0), Ok(1));
    assert_eq!(outside.base(), 1);
}

#[test]
fn arrival_at_half_the_circle() {
    assert_eq!(keeper(15, 0, 0).arrive(32_767, 0), Ok(32_512));
    assert_eq!(keeper(15, 0, 0).arrive(32_768, 0), Err(Refusal::Opposite));
    assert_eq!(keeper(15, 0, 0).arrive(32_769, 0), Err(Refusal::Late));
}

#[test]
fn arrival_over_the_span() {
    let mut keeper = keeper(15, 0, 0);
    assert_eq!(keeper.arrive(256, 0), Ok(1));
    assert_eq!(keeper.arrive(32_768, 1), Err(Refusal::Span));
}

fn rolled_over() -> Keeper {
    let mut keeper = keeper(12, 65_534, 4_095);
    assert_eq!(keeper.arrive(65_534, 4_095), Ok(0));
    assert_eq!(keeper.arrive(0, 1), Ok(0));
    assert_eq!(keeper.expire(0), Ok(1));
    assert_eq!(keeper.base(), 1);
    assert_eq!(keeper.listed_runs(), [run(65_535, 65_535)]);
    keeper
}

#[test]
fn status_above_an_unconfirmed_packet() {
    let mut keeper = rolled_over();
    assert_eq!(keeper.confirm(0), Ok(()));
    let (report, ranges) = status_of(&status(&mut keeper, false).unwrap());
    assert_eq!(report.highest, 4_094);
    assert_eq!(ranges, [run(65_535, 65_535)]);
}

#[test]
fn status_with_both_confirmed() {
    let mut keeper = rolled_over();
    assert_eq!(keeper.confirm(65_534), Ok(()));
    assert_eq!(keeper.confirm(0), Ok(()));
    let (report, ranges) = status_of(&status(&mut keeper, false).unwrap());
    assert_eq!(report.highest, 1);
    assert_eq!(ranges, [run(65_535, 65_535)]);
}

#[test]
fn send_at_half_the_pdcp_circle() {
    for pdcp in [2_046, 2_047] {
        let mut ledger = Ledger::open(12, 77, 0).unwrap();
        assert_eq!(ledger.send(pdcp, 1), Ok(77));
    }
}

#[test]
fn status_with_163_runs() {
    let mut keeper = common::keeper_with_runs(12, 163);
    let received: Vec<u32> = keeper.records().map(|record| record.number).collect();
    for number in received {
        keeper.confirm(number).unwrap();
    }
    assert_eq!(status(&mut keeper, true), Err(Refusal::FinalTooEarly));
    let (report, ranges) = status_of(&status(&mut keeper, false).unwrap());
    assert_eq!(ranges.len(), 162);
    // The run left out is number 324; packet 325 behind it is held back.
    assert_eq!(keeper.listed_runs(), [run(324, 324)]);
    assert_eq!(report.highest, 323);
    let (report, ranges) = status_of(&status(&mut keeper, true).unwrap());
    assert_eq!((report.highest, report.is_final), (325, true));
    assert_eq!(ranges, [run(324, 324)]);
}
