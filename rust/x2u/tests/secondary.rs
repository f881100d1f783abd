//! The keeper's refusals and corners, one by one.

mod common;

use common::{keeper_with_runs, run, status, status_of};
use x2u::{Keeper, Refusal};

/// All that a call may change, to see that a refused one changed nothing.
fn picture(keeper: &Keeper) -> String {
    format!("{keeper:?}")
}

fn refused<T: std::fmt::Debug>(
    keeper: &mut Keeper,
    refusal: Refusal,
    call: impl Fn(&mut Keeper) -> Result<T, Refusal>,
) {
    let before = picture(keeper);
    assert_eq!(call(keeper).unwrap_err(), refusal);
    assert_eq!(picture(keeper), before, "a refused call changed the keeper");
}

#[test]
fn open_refuses() {
    for bits in [0, 11, 13, 14, 16, 17, 19, u32::MAX] {
        let answer = Keeper::open(bits, u32::MAX, 0);
        assert_eq!(answer.unwrap_err(), Refusal::PdcpLength);
    }
    for (bits, first, f) in [
        (12, 65_536, 0),
        (12, 0, 4_096),
        (18, 1 << 24, 0),
        (18, 0, 1 << 18),
    ] {
        let answer = Keeper::open(bits, first, f);
        assert_eq!(answer.unwrap_err(), Refusal::NumberTooLarge);
    }
    assert_eq!(
        Keeper::open(15, 65_535, 0).unwrap().reported_highest(),
        32_767
    );
    assert_eq!(
        Keeper::open(18, (1 << 24) - 1, 1)
            .unwrap()
            .reported_highest(),
        0
    );
}

#[test]
fn a_closed_end_refuses_everything() {
    let mut keeper = keeper_with_runs(12, 1);
    status(&mut keeper, true).unwrap();
    let opposite = keeper.base() + 32_768;
    for (number, pdcp) in [(u32::MAX, u32::MAX), (opposite, 0), (opposite + 1, 0)] {
        refused(&mut keeper, Refusal::Closed, |k| k.arrive(number, pdcp));
    }
    for mark in [0, keeper.base(), opposite, 65_536, u32::MAX] {
        refused(&mut keeper, Refusal::Closed, |k| k.expire(mark));
    }
    refused(&mut keeper, Refusal::Closed, |k| k.confirm(u32::MAX));
    refused(&mut keeper, Refusal::Closed, |k| {
        k.status(0, 0, true, &mut [])
    });
}

#[test]
fn arrival_refuses_in_order() {
    let mut keeper = Keeper::open(12, 65_000, 0).unwrap();
    refused(&mut keeper, Refusal::NumberTooLarge, |k| {
        k.arrive(65_536, 0)
    });
    for number in [64_999, 32_232] {
        refused(&mut keeper, Refusal::NumberTooLarge, |k| {
            k.arrive(number, 4_096)
        });
    }
    refused(&mut keeper, Refusal::Opposite, |k| k.arrive(32_232, 0));
    for number in [32_233, 64_999] {
        refused(&mut keeper, Refusal::Late, |k| k.arrive(number, 0));
    }
    keeper.arrive(65_100, 7).unwrap();
    keeper.arrive(65_050, 6).unwrap();
    refused(&mut keeper, Refusal::Repeated, |k| k.arrive(65_100, 7));
    refused(&mut keeper, Refusal::Repeated, |k| k.arrive(65_050, 9));
}

#[test]
fn a_lost_number_that_arrives_stays_lost() {
    let mut keeper = keeper_with_runs(12, 3);
    refused(&mut keeper, Refusal::Late, |k| k.arrive(2, 2));
}

#[test]
fn overtaken_packets_are_sorted_in() {
    let mut keeper = Keeper::open(12, 65_530, 100).unwrap();
    for number in [65_535, 65_531, 2, 65_533, 0] {
        assert_eq!(keeper.arrive(number, 0), Ok(0));
    }
    let numbers: Vec<u32> = keeper.records().map(|r| r.number).collect();
    assert_eq!(numbers, [65_531, 65_533, 65_535, 0, 2]);
    assert_eq!(keeper.arrive(65_530, 0), Ok(0));
    assert_eq!(keeper.base(), 65_532);
    assert_eq!(keeper.expire(2), Ok(3));
    let expected = [run(65_532, 65_532), run(65_534, 65_534), run(1, 1)];
    assert_eq!(keeper.listed_runs(), expected);
    assert_eq!(keeper.base(), 3);
}

#[test]
fn adjacent_losses_join_only_while_unreported() {
    let mut keeper = Keeper::open(12, 0, 0).unwrap();
    assert_eq!(keeper.arrive(256, 0), Ok(1));
    // Numbers 1 to 2 follow the listed 0, whether or not it was reported.
    let mut other = keeper.clone();
    assert_eq!(keeper.arrive(258, 1), Ok(2));
    assert_eq!(keeper.listed_runs(), [run(0, 2)]);
    status(&mut other, false).unwrap();
    assert_eq!(other.arrive(258, 1), Ok(2));
    assert_eq!(other.listed_runs(), [run(1, 2)]);
}

#[test]
fn runs_fill_to_256() {
    let mut keeper = keeper_with_runs(12, 256);
    let next = keeper.base() + 1;
    keeper.arrive(next, 0).unwrap();
    refused(&mut keeper, Refusal::RunsFull, |k| k.expire(next));
    refused(&mut keeper, Refusal::RunsFull, |k| k.arrive(next + 300, 0));
    // An arrival that loses nothing is still taken, and reporting makes room.
    assert_eq!(keeper.arrive(next + 2, 0), Ok(0));
    status(&mut keeper, false).unwrap();
    assert_eq!(keeper.expire(next + 2), Ok(2));
}

#[test]
fn a_full_list_takes_what_joins_its_last_run() {
    let mut keeper = keeper_with_runs(12, 255);
    let base = keeper.base();
    assert_eq!(keeper.arrive(base + 256, 0), Ok(1));
    assert_eq!(keeper.listed_runs().len(), 256);
    assert_eq!(keeper.arrive(base + 300, 0), Ok(44));
    assert_eq!(keeper.listed_runs()[255], run(base, base + 44));
}

#[test]
fn records_fill_to_512() {
    let mut keeper = Keeper::open(12, 65_400, 0).unwrap();
    for i in 0..512 {
        keeper.arrive((65_400 + i) % 65_536, i).unwrap();
    }
    refused(&mut keeper, Refusal::RecordsFull, |k| k.arrive(376, 0));
    // 15 is asked last: a repeated number still answers late.
    refused(&mut keeper, Refusal::Late, |k| k.arrive(375, 0));
    keeper.confirm(65_400).unwrap();
    status(&mut keeper, false).unwrap();
    assert_eq!(keeper.arrive(376, 0), Ok(0));
}

#[test]
fn runs_are_asked_before_records() {
    let mut keeper = keeper_with_runs(12, 256);
    for _ in 0..256 {
        keeper.arrive(keeper.base(), 0).unwrap();
    }
    // The run at base would be the 257th, and the record the 513th.
    let base = keeper.base();
    refused(&mut keeper, Refusal::RunsFull, |k| k.arrive(base + 256, 0));
    refused(&mut keeper, Refusal::RecordsFull, |k| {
        k.arrive(base + 255, 0)
    });
}

#[test]
fn confirm_refuses() {
    let mut keeper = keeper_with_runs(12, 2);
    keeper.arrive(10, 10).unwrap();
    refused(&mut keeper, Refusal::NumberTooLarge, |k| k.confirm(65_536));
    for number in [0, 2, 4, 10, 11, 32_772, 65_535] {
        refused(&mut keeper, Refusal::NotConfirmable, |k| k.confirm(number));
    }
    keeper.confirm(3).unwrap();
    refused(&mut keeper, Refusal::NotConfirmable, |k| k.confirm(3));
    keeper.confirm(1).unwrap();
    refused(&mut keeper, Refusal::NotConfirmable, |k| k.confirm(1));
}

#[test]
fn status_leaves_a_short_buffer_alone() {
    let mut keeper = keeper_with_runs(18, 1);
    let mut buffer = [0x5A; 21];
    let before = picture(&keeper);
    assert_eq!(
        keeper.status(1, 2, true, &mut buffer),
        Err(Refusal::BufferShort)
    );
    assert_eq!(buffer, [0x5A; 21]);
    assert_eq!(picture(&keeper), before);
    assert_eq!(status(&mut keeper, true).unwrap().len(), 22);
}

#[test]
fn an_empty_status_repeats_the_reported_highest() {
    let mut keeper = Keeper::open(15, 5, 0).unwrap();
    for _ in 0..2 {
        let (report, ranges) = status_of(&status(&mut keeper, false).unwrap());
        assert_eq!((report.highest, ranges.len()), (32_767, 0));
    }
}

#[test]
fn the_largest_jump_is_one_run() {
    let first = (1 << 24) - 5;
    let mut keeper = Keeper::open(18, first, 0).unwrap();
    let far = (first + (1 << 23) - 1) % (1 << 24);
    assert_eq!(keeper.arrive(far, 0), Ok(8_388_352));
    assert_eq!(keeper.listed_runs(), [run(first, far - 256)]);
}

/// A keeper with half the circle between `first`, held, and base.
fn half_way_round(pdcp_bits: u32, first: u32, first_is_lost: bool) -> (Keeper, u32) {
    let mut keeper = Keeper::open(pdcp_bits, first, 0).unwrap();
    let size = if pdcp_bits == 18 { 1 << 24 } else { 1 << 16 };
    let base = (first + size / 2) % size;
    if !first_is_lost {
        keeper.arrive(first, 0).unwrap();
    }
    let newest = (base + size - 1) % size;
    keeper.arrive(newest, 1).unwrap();
    keeper.expire(newest).unwrap();
    assert_eq!(keeper.base(), base);
    (keeper, base)
}

#[test]
fn a_record_opposite_base_lies_before_it() {
    for (bits, first) in [(15, 0), (12, 40_000), (18, 0), (18, 9_000_000)] {
        let (mut keeper, base) = half_way_round(bits, first, false);
        refused(&mut keeper, Refusal::Opposite, |k| k.arrive(first, 0));
        refused(&mut keeper, Refusal::Late, |k| k.arrive(first + 1, 0));
        // With and without listed numbers, 13 counts from the record on.
        refused(&mut keeper, Refusal::Span, |k| k.arrive(base, 2));
        status(&mut keeper, false).unwrap();
        refused(&mut keeper, Refusal::Span, |k| k.arrive(base, 2));
        refused(&mut keeper, Refusal::NotConfirmable, |k| {
            k.confirm(first + 1)
        });
        assert_eq!(keeper.confirm(first), Ok(()));
        refused(&mut keeper, Refusal::NotConfirmable, |k| k.confirm(first));
        status(&mut keeper, false).unwrap();
        assert_eq!(keeper.arrive(base, 2), Ok(0));
    }
}

#[test]
fn a_listed_number_opposite_base_lies_before_it() {
    for (bits, first) in [(15, 0), (12, 40_000), (18, 0), (18, 9_000_000)] {
        let (mut keeper, base) = half_way_round(bits, first, true);
        assert_eq!(keeper.listed_runs()[0].start, first);
        refused(&mut keeper, Refusal::Opposite, |k| k.arrive(first, 0));
        refused(&mut keeper, Refusal::Span, |k| k.arrive(base, 2));
        refused(&mut keeper, Refusal::NotConfirmable, |k| k.confirm(first));
        let (_, ranges) = status_of(&status(&mut keeper, false).unwrap());
        assert_eq!(ranges[0].start, first);
        assert_eq!(keeper.arrive(base, 2), Ok(0));
    }
}
