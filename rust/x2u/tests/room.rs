//! The sizes of PDUs: their limits, where they go, and the room that they leave.

mod common;

use common::{report, run, written_status};
use x2u::frame::Range;
use x2u::ledger::{LARGEST_SIZE, MOST_ENTRIES};
use x2u::{Form, Ledger, Refusal};

/// A ledger of L = 12 with packets of these sizes, numbered and counted from 0.
fn ledger_with(sizes: &[u32]) -> Ledger {
    let mut ledger = Ledger::open(12, 0, 0).unwrap();
    for (pdcp, &size) in (0..).zip(sizes) {
        assert_eq!(ledger.send(pdcp, size), Ok(pdcp));
    }
    ledger
}

/// A status with this highest and desired size; its minimum is another.
fn status(highest: u32, desired: u32, ranges: &[Range], is_final: bool) -> Vec<u8> {
    let minimum = desired / 2 + 7;
    written_status(
        Form::Short,
        &report(highest, desired, minimum, is_final),
        ranges,
    )
}

/// Nothing is freed or lost by it: only the sizes are new.
fn wants(ledger: &mut Ledger, desired: u32) {
    let highest = ledger.highest();
    let settled = ledger
        .accept(&status(highest, desired, &[], false))
        .unwrap();
    assert_eq!((settled.freed, settled.lost), (0, 0));
}

fn sizes(ledger: &Ledger) -> Vec<u16> {
    ledger.entries().map(|entry| entry.size).collect()
}

fn taken(ledger: &mut Ledger) -> Result<(u32, u32, u32), Refusal> {
    let taken = ledger.take()?;
    Ok((taken.number, taken.pdcp, taken.size.into()))
}

#[test]
fn a_pdu_has_1_to_16384_octets() {
    let mut ledger = ledger_with(&[]);
    for size in [0, 16_385, 65_536, 65_537, 1 << 31, (1 << 31) + 1, u32::MAX] {
        let before = format!("{ledger:?}");
        assert_eq!(ledger.send(0, size), Err(Refusal::SizeOutside), "{size}");
        assert_eq!(format!("{ledger:?}"), before, "{size} changed the ledger");
    }
    for (number, size) in (0..).zip([1, 2, 1_500, 16_383, 16_384]) {
        assert_eq!(ledger.send(number, size), Ok(number));
    }
    assert_eq!(sizes(&ledger), [1, 2, 1_500, 16_383, 16_384]);
    assert_eq!(LARGEST_SIZE, 16_384);
}

#[test]
fn the_size_is_judged_after_the_number_and_before_the_order() {
    for size in [0, 16_385, u32::MAX] {
        let mut ledger = ledger_with(&[5; 3]);
        for (pdcp, refusal) in [
            (4_096, Refusal::NumberTooLarge),
            (u32::MAX, Refusal::NumberTooLarge),
            // Each of these breaks the order, but the last.
            (4_095, Refusal::SizeOutside),
            (2, Refusal::SizeOutside),
            (2_048, Refusal::SizeOutside),
            (3, Refusal::SizeOutside),
        ] {
            assert_eq!(ledger.send(pdcp, size), Err(refusal), "{pdcp}, {size}");
        }
        assert_eq!(ledger.send(2, 16_384), Err(Refusal::PdcpOrder));
        ledger.accept(&status(1, 9, &[], true)).unwrap();
        assert_eq!(ledger.send(3, size), Err(Refusal::Closed));
        assert_eq!(ledger.send(4_096, size), Err(Refusal::Closed));
    }
}

#[test]
fn the_size_is_judged_before_a_full_ledger() {
    let mut ledger = ledger_with(&[1; MOST_ENTRIES]);
    for (pdcp, size, refusal) in [
        (4_096, 0, Refusal::NumberTooLarge),
        (512, 0, Refusal::SizeOutside),
        (512, 16_385, Refusal::SizeOutside),
        (511, 0, Refusal::SizeOutside),
        (511, 1, Refusal::PdcpOrder),
        (512, 16_384, Refusal::LedgerFull),
        (512, 1, Refusal::LedgerFull),
    ] {
        assert_eq!(ledger.send(pdcp, size), Err(refusal), "{pdcp}, {size}");
    }
}

#[test]
fn there_is_no_room_before_a_status() {
    assert_eq!(ledger_with(&[]).room(), 0);
    let mut ledger = ledger_with(&[1, 16_384]);
    assert_eq!(ledger.room(), 0);
    wants(&mut ledger, 20_000);
    assert_eq!(ledger.room(), 20_000 - 16_385);
    // One that wants nothing leaves none, whatever waits.
    wants(&mut ledger, 0);
    assert_eq!(ledger.room(), 0);
    ledger.accept(&status(1, 0, &[], false)).unwrap();
    assert_eq!((ledger.room(), ledger.entry_count()), (0, 0));
}

#[test]
fn room_is_what_is_desired_less_what_waits() {
    let mut ledger = ledger_with(&[100, 200, 300]);
    for (desired, room) in [
        (0, 0),
        (1, 0),
        (599, 0),
        (600, 0),
        (601, 1),
        (602, 2),
        (u32::MAX, u32::MAX - 600),
    ] {
        wants(&mut ledger, desired);
        assert_eq!(ledger.room(), room, "{desired} desired");
        assert_eq!(ledger.room(), room, "asked again");
        assert_ne!(ledger.minimum(), desired);
    }
}

/// Each send takes its size from the room, one that is refused nothing.
#[test]
fn a_send_takes_its_room() {
    let mut ledger = ledger_with(&[]);
    wants(&mut ledger, 16_385 + 16_384);
    for (pdcp, size, room) in [
        (0, 16_384, 16_385),
        (1, 16_384, 1),
        (2, 1, 0),
        (3, 1, 0),
        (4, 16_384, 0),
    ] {
        for refused in [(pdcp, 0), (pdcp, 16_385), (4_095, 7), (4_096, 7)] {
            let before = ledger.room();
            assert!(ledger.send(refused.0, refused.1).is_err());
            assert_eq!(ledger.room(), before);
        }
        assert_eq!(ledger.send(pdcp, size), Ok(pdcp));
        assert_eq!(ledger.room(), room, "behind packet {pdcp}");
    }
}

#[test]
fn what_is_lost_or_freed_takes_no_room() {
    let mut ledger = ledger_with(&[1, 10, 100, 1_000, 10_000]);
    let lost = [run(1, 1), run(3, 3)];
    // Freed through 2: 0 and 2 have left, 1 and 3 are lost, 4 waits.
    ledger.accept(&status(2, 12_000, &lost, false)).unwrap();
    assert_eq!(sizes(&ledger), [10, 1_000, 10_000]);
    assert_eq!(ledger.room(), 2_000);
    // What is taken on an open end was lost, and changes nothing.
    assert_eq!(taken(&mut ledger), Ok((1, 1, 10)));
    assert_eq!(ledger.room(), 2_000);
    assert_eq!(taken(&mut ledger), Ok((3, 3, 1_000)));
    assert_eq!(ledger.room(), 2_000);
    assert_eq!(taken(&mut ledger), Err(Refusal::NothingToTake));
    // The last that waits becomes lost.
    ledger
        .accept(&status(2, 12_000, &[run(4, 4)], false))
        .unwrap();
    assert_eq!(ledger.room(), 12_000);
    assert_eq!(taken(&mut ledger), Ok((4, 4, 10_000)));
}

/// Entries that wait stand in front of what is taken, and behind it.
#[test]
fn a_take_answers_its_own_size() {
    let mut ledger = ledger_with(&[5, 7, 9, 11]);
    let lost = status(4_095, 100, &[run(1, 1)], false);
    ledger.accept(&lost).unwrap();
    assert_eq!(taken(&mut ledger), Ok((1, 1, 7)));
    assert_eq!(sizes(&ledger), [5, 9, 11]);
    assert_eq!(ledger.room(), 75);
}

#[test]
fn a_refused_status_changes_no_room() {
    let mut ledger = ledger_with(&[40, 50, 60]);
    wants(&mut ledger, 1_000);
    for octets in [
        vec![],
        status(4_096, 9_999, &[], false),
        status(4_095, 9_999, &[run(3, 3)], false),
        status(77, 9_999, &[], false),
        status(1, 9_999, &[run(0, 1)], true),
        written_status(Form::Long, &report(4_095, 9_999, 0, false), &[]),
    ] {
        assert!(ledger.accept(&octets).is_err());
        assert_eq!((ledger.room(), ledger.desired()), (850, 1_000));
    }
}

/// Room is asked of a closed end too: each take of a packet that waits gives its
/// octets back.
#[test]
fn a_closed_end_still_has_room() {
    let mut ledger = ledger_with(&[1, 20, 300, 4_000, 16_384]);
    wants(&mut ledger, 7);
    let last = status(0, 20_400, &[run(1, 1), run(3, 3)], true);
    ledger.accept(&last).unwrap();
    assert_eq!(ledger.room(), 20_400 - 16_684);
    // Once closed a status is refused, and changes nothing.
    let more = status(0, u32::MAX, &[], false);
    assert_eq!(ledger.accept(&more), Err(Refusal::Closed));
    for (entry, room) in [
        ((1, 1, 20), 3_716),
        ((2, 2, 300), 4_016),
        ((3, 3, 4_000), 4_016),
        ((4, 4, 16_384), 20_400),
    ] {
        assert_eq!(taken(&mut ledger), Ok(entry));
        assert_eq!(ledger.room(), room, "behind {entry:?}");
    }
    assert_eq!(taken(&mut ledger), Err(Refusal::NothingToTake));
    assert_eq!(ledger.room(), 20_400);
}

#[test]
fn room_of_a_closed_end_does_not_go_below_zero() {
    let mut ledger = ledger_with(&[16_384, 16_384]);
    ledger.accept(&status(4_095, 16_384, &[], true)).unwrap();
    assert_eq!(ledger.room(), 0);
    ledger.take().unwrap();
    assert_eq!(ledger.room(), 0);
    ledger.take().unwrap();
    assert_eq!(ledger.room(), 16_384);
}

/// A send adds its octets. What is lost, freed or given out by a closed end takes
/// its own away, once; whatever is desired.
#[test]
fn the_octets_that_wait() {
    assert_eq!(ledger_with(&[]).waiting_octets(), 0);
    let mut ledger = ledger_with(&[100, 50, 7, 16_384, 3]);
    assert_eq!(ledger.waiting_octets(), 16_544);
    assert!(ledger.send(4, 9).is_err());
    assert!(ledger.accept(&status(9, 9, &[], false)).is_err());
    assert!(ledger.take().is_err());
    assert_eq!(ledger.waiting_octets(), 16_544);
    for (highest, lost, is_final, octets) in [
        (4_095, Some(1), false, 16_494),
        (0, None, false, 16_394),
        (0, None, false, 16_394),
        (2, Some(4), true, 16_384),
    ] {
        let ranges: Vec<Range> = lost.map(|number| run(number, number)).into_iter().collect();
        ledger
            .accept(&status(highest, 0, &ranges, is_final))
            .unwrap();
        assert_eq!(ledger.waiting_octets(), octets, "highest {highest}");
    }
    for (entry, octets) in [((1, 1, 50), 16_384), ((3, 3, 16_384), 0), ((4, 4, 3), 0)] {
        assert_eq!(taken(&mut ledger), Ok(entry));
        assert_eq!(ledger.waiting_octets(), octets, "behind {entry:?}");
    }
}

#[test]
fn a_full_ledger_of_the_largest() {
    let mut ledger = ledger_with(&[LARGEST_SIZE; MOST_ENTRIES]);
    let all = 512 * 16_384;
    assert_eq!(ledger.waiting_octets(), all);
    for (desired, room) in [
        (all - 1, 0),
        (all, 0),
        (all + 1, 1),
        (u32::MAX, 4_286_578_687),
    ] {
        wants(&mut ledger, desired);
        assert_eq!(ledger.room(), room, "{desired} desired");
    }
    // One is lost, and 511 wait.
    let lost = status(4_095, u32::MAX, &[run(7, 7)], false);
    ledger.accept(&lost).unwrap();
    assert_eq!(ledger.room(), 4_286_578_687 + 16_384);
    ledger.accept(&status(511, 5, &[], false)).unwrap();
    assert_eq!(ledger.room(), 5);
}

/// A packet keeps its own size as those around it leave, over a rollover too.
#[test]
fn each_packet_keeps_its_size() {
    let mut ledger = Ledger::open(15, 65_530, 32_760).unwrap();
    for i in 0..20 {
        let pdcp = (32_760 + i) % 32_768;
        ledger.send(pdcp, 1_000 + i).unwrap();
    }
    let lost = [run(65_531, 65_532), run(65_535, 1), run(5, 5)];
    let highest = (32_760 + 12) % 32_768;
    let settled = ledger.accept(&status(highest, 50_000, &lost, false));
    assert_eq!(settled.map(|settled| settled.freed), Ok(7));
    for i in [1, 2, 5, 6, 7, 11] {
        let (number, pdcp) = ((65_530 + i) % 65_536, (32_760 + i) % 32_768);
        assert_eq!(taken(&mut ledger), Ok((number, pdcp, 1_000 + i)));
    }
    assert_eq!(sizes(&ledger), (1_013..1_020).collect::<Vec<_>>());
    assert_eq!(ledger.room(), 50_000 - (1_013..1_020).sum::<u32>());
}
