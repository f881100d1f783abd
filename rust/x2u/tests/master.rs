//! The ledger's refusals and corners, one by one.

mod common;

use common::{report, run, written_data, written_status};
use x2u::frame::Range;
use x2u::ledger::{Entry, Fate, Settled};
use x2u::{Form, Ledger, Refusal};

/// Of every PDU here, in octets.
const SIZE: u32 = 1_500;

/// A ledger of L = 12 with packets numbered and counted from 0.
fn ledger_with(sent: u32) -> Ledger {
    let mut ledger = Ledger::open(12, 0, 0).unwrap();
    for pdcp in 0..sent {
        assert_eq!(ledger.send(pdcp, SIZE), Ok(pdcp));
    }
    ledger
}

fn status(highest: u32, ranges: &[Range]) -> Vec<u8> {
    written_status(Form::Short, &report(highest, 1, 2, false), ranges)
}

fn settled(freed: u32, lost: u32) -> Result<Settled, Refusal> {
    Ok(Settled {
        freed,
        lost,
        is_final: false,
    })
}

fn refused(ledger: &mut Ledger, octets: &[u8], refusal: Refusal) {
    let before = format!("{ledger:?}");
    assert_eq!(ledger.accept(octets), Err(refusal));
    assert_eq!(
        format!("{ledger:?}"),
        before,
        "a refused frame changed the ledger"
    );
}

fn numbers(ledger: &Ledger) -> Vec<u32> {
    ledger.entries().map(|entry| entry.number).collect()
}

/// A good status with one range, but for the octet at `place`.
fn damaged(place: usize, octet: u8) -> Vec<u8> {
    let mut octets = status(4_095, &[run(1, 1)]);
    octets[place] = octet;
    octets
}

#[test]
fn losses_are_applied_before_freeing() {
    let mut ledger = ledger_with(6);
    let frame = status(4, &[run(1, 1), run(3, 3)]);
    assert_eq!(ledger.accept(&frame), settled(3, 2));
    assert_eq!(numbers(&ledger), [1, 3, 5]);
    assert_eq!(ledger.highest(), 4);
    assert_eq!((ledger.desired(), ledger.minimum()), (1, 2));
    assert_eq!(ledger.take().map(|entry| entry.number), Ok(1));
    assert_eq!(ledger.take().map(|entry| entry.number), Ok(3));
    assert_eq!(ledger.take(), Err(Refusal::NothingToTake));
}

#[test]
fn a_repeated_highest_frees_none() {
    let mut ledger = ledger_with(3);
    assert_eq!(ledger.accept(&status(4_095, &[])), settled(0, 0));
    assert_eq!(ledger.accept(&status(1, &[])), settled(2, 0));
    assert_eq!(ledger.accept(&status(1, &[run(2, 2)])), settled(0, 1));
}

#[test]
fn frames_are_refused_in_order() {
    let mut ledger = ledger_with(4);
    refused(&mut ledger, &[], Refusal::FrameLength);
    refused(&mut ledger, &[0xF0; 6], Refusal::ReservedType);
    refused(&mut ledger, &[0x10; 6], Refusal::FieldsCut);
    refused(&mut ledger, &damaged(1, 0x80), Refusal::HighestTooLarge);
    refused(&mut ledger, &damaged(11, 0), Refusal::RangeCount);
    refused(&mut ledger, &damaged(11, 3), Refusal::ListCut);
    refused(
        &mut ledger,
        &written_data(Form::Short, 0),
        Refusal::NotOurStatus,
    );
    let long = written_status(Form::Long, &report(200_000, 0, 0, false), &[]);
    refused(&mut ledger, &long, Refusal::NotOurStatus);
    refused(
        &mut ledger,
        &status(4_096, &[run(9, 9)]),
        Refusal::HighestOutside,
    );
    refused(
        &mut ledger,
        &status(77, &[run(9, 9)]),
        Refusal::RangesNotWaiting,
    );
    refused(
        &mut ledger,
        &status(77, &[run(1, 1)]),
        Refusal::HighestNotWaiting,
    );
}

#[test]
fn ranges_must_rise_through_waiting_entries() {
    let mut ledger = ledger_with(6);
    for ranges in [
        &[run(2, 1)][..],
        &[run(1, 2), run(2, 3)],
        &[run(3, 3), run(1, 1)],
        &[run(4, 6)],
        &[run(65_535, 0)],
        &[run(0, 65_535)],
    ] {
        refused(
            &mut ledger,
            &status(4_095, ranges),
            Refusal::RangesNotWaiting,
        );
    }
    let adjacent = status(4_095, &[run(1, 2), run(3, 3)]);
    assert_eq!(ledger.accept(&adjacent), settled(0, 3));
    refused(
        &mut ledger,
        &status(4_095, &[run(3, 3)]),
        Refusal::RangesNotWaiting,
    );
}

#[test]
fn highest_must_be_left_waiting() {
    let mut ledger = ledger_with(4);
    refused(
        &mut ledger,
        &status(2, &[run(1, 2)]),
        Refusal::HighestNotWaiting,
    );
    ledger.accept(&status(4_095, &[run(2, 2)])).unwrap();
    refused(&mut ledger, &status(2, &[]), Refusal::HighestNotWaiting);
    assert_eq!(ledger.accept(&status(3, &[])), settled(3, 0));
    refused(&mut ledger, &status(1, &[]), Refusal::HighestNotWaiting);
}

#[test]
fn a_lost_entry_may_share_numbers_with_a_waiting_one() {
    let mut ledger = ledger_with(1);
    ledger.accept(&status(4_095, &[run(0, 0)])).unwrap();
    // Both circles roll over while number 0 stays in the ledger, lost.
    for sent in 1..=65_536_u32 {
        ledger.send(sent % 4_096, SIZE).unwrap();
        if sent % 500 == 0 {
            ledger.accept(&status(sent % 4_096, &[])).unwrap();
        }
    }
    let shared: Vec<Entry> = ledger
        .entries()
        .filter(|e| e.number == 0)
        .copied()
        .collect();
    assert_eq!(shared.len(), 2);
    assert_eq!(
        ledger.accept(&status(65_535 % 4_096, &[run(0, 0)])),
        settled(35, 1)
    );
    let all_lost = ledger.entries().all(|entry| entry.fate == Fate::Lost);
    assert!(all_lost && ledger.entries().count() == 2);
}

#[test]
fn the_ledger_fills_to_512() {
    let mut ledger = ledger_with(512);
    assert_eq!(ledger.send(511, SIZE), Err(Refusal::PdcpOrder));
    assert_eq!(ledger.send(512, SIZE), Err(Refusal::LedgerFull));
    assert_eq!(ledger.send(4_096, SIZE), Err(Refusal::NumberTooLarge));
    // Lost entries count too, until they are taken.
    ledger.accept(&status(4_095, &[run(0, 511)])).unwrap();
    assert_eq!(ledger.send(512, SIZE), Err(Refusal::LedgerFull));
    ledger.take().unwrap();
    assert_eq!(ledger.send(512, SIZE), Ok(512));
}

/// The PDCP numbers, at L = 12, that a send would be accepted of.
fn allowed(ledger: &Ledger) -> Vec<u32> {
    let would = |pdcp: &u32| match ledger.clone().send(*pdcp, SIZE) {
        Ok(_) => true,
        Err(refusal) => {
            assert_eq!(refusal, Refusal::PdcpOrder);
            false
        }
    };
    (0..4_096).filter(would).collect()
}

/// All PDCP numbers, at L = 12, but one.
fn all_but(one: u32) -> Vec<u32> {
    (0..4_096).filter(|&pdcp| pdcp != one).collect()
}

#[test]
fn with_none_waiting_any_number_but_h_is_allowed() {
    let fresh = ledger_with(0);
    assert_eq!(allowed(&fresh), all_but(4_095));
    // All freed, all lost and untaken, all taken: the last sent isn't looked at.
    let mut freed = ledger_with(3);
    freed.accept(&status(2, &[])).unwrap();
    assert_eq!(allowed(&freed), all_but(2));
    let mut lost = ledger_with(3);
    lost.accept(&status(4_095, &[run(0, 2)])).unwrap();
    assert_eq!(allowed(&lost), all_but(4_095));
    for _ in 0..3 {
        lost.take().unwrap();
        assert_eq!(allowed(&lost), all_but(4_095));
    }
}

#[test]
fn with_one_waiting_less_than_half_the_circle_is_allowed() {
    for first in [0, 2_047, 2_048, 4_094] {
        let mut ledger = ledger_with(0);
        ledger.send(first, SIZE).unwrap();
        let mut ahead: Vec<u32> = (1..2_048).map(|ahead| (first + ahead) % 4_096).collect();
        ahead.retain(|&pdcp| pdcp != 4_095);
        ahead.sort_unstable();
        assert_eq!(allowed(&ledger), ahead);
    }
}

/// Lost entries don't count, wherever they stand; the last sent does, lost or not.
#[test]
fn the_order_is_measured_from_the_oldest_that_waits() {
    let mut ledger = ledger_with(10);
    assert_eq!(allowed(&ledger), (10..2_048).collect::<Vec<_>>());
    // Number 1 behind the oldest, then 0 and 2 in front of it, then the last sent.
    for (lost, oldest) in [
        (run(1, 1), 0),
        (run(0, 0), 2),
        (run(2, 2), 3),
        (run(9, 9), 3),
    ] {
        ledger.accept(&status(4_095, &[lost])).unwrap();
        let ahead: Vec<u32> = (10..oldest + 2_048).collect();
        assert_eq!(allowed(&ledger), ahead, "{lost:?} became lost");
    }
    // Freed through 5: 6 is the oldest. What is taken changes nothing.
    ledger.accept(&status(5, &[])).unwrap();
    for taken in [0, 1, 2, 9] {
        assert_eq!(allowed(&ledger), (10..6 + 2_048).collect::<Vec<_>>());
        assert_eq!(ledger.take().map(|entry| entry.number), Ok(taken));
    }
    assert_eq!(allowed(&ledger), (10..6 + 2_048).collect::<Vec<_>>());
}

/// More than half the circle, then whole turns of it, over the master alone.
#[test]
fn a_bearer_may_rest() {
    let mut ledger = ledger_with(1);
    let mut pdcp = 0;
    for (number, rest) in (1..).zip([2_047, 2_048, 3_000, 4_096, 9_000, 1]) {
        assert_eq!(ledger.accept(&status(pdcp, &[])), settled(1, 0));
        if rest % 4_096 == 0 {
            // H itself, which that status might repeat.
            assert_eq!(ledger.send(pdcp, SIZE), Err(Refusal::PdcpOrder));
            pdcp += 1;
        }
        pdcp = (pdcp + rest) % 4_096;
        assert_eq!(ledger.send(pdcp, SIZE), Ok(number));
    }
}

/// A PDU sent again is another packet, and a status that frees one leaves the other.
#[test]
fn a_pdu_may_be_sent_again() {
    let mut ledger = ledger_with(3);
    ledger.accept(&status(2, &[run(1, 1)])).unwrap();
    assert_eq!(ledger.send(1, SIZE), Ok(3));
    assert_eq!(ledger.send(0, SIZE), Err(Refusal::PdcpOrder));
    assert_eq!(ledger.accept(&status(1, &[])), settled(1, 0));
    assert_eq!(ledger.send(0, SIZE), Ok(4));
    assert_eq!(numbers(&ledger), [1, 4]);
    assert_eq!(
        ledger.take().map(|entry| (entry.number, entry.pdcp)),
        Ok((1, 1))
    );
    assert_eq!(ledger.accept(&status(1, &[])), settled(0, 0));
    assert_eq!(ledger.accept(&status(0, &[])), settled(1, 0));
}

#[test]
fn order_is_judged_after_the_number_and_before_the_room() {
    let mut ledger = ledger_with(512);
    for (pdcp, refusal) in [
        (4_096, Refusal::NumberTooLarge),
        (4_095, Refusal::PdcpOrder),
        (511, Refusal::PdcpOrder),
        (2_048, Refusal::PdcpOrder),
        (2_047, Refusal::LedgerFull),
    ] {
        assert_eq!(ledger.send(pdcp, SIZE), Err(refusal));
    }
    // All lost: none waits, but there is no room either.
    ledger.accept(&status(4_095, &[run(0, 511)])).unwrap();
    assert_eq!(ledger.send(4_095, SIZE), Err(Refusal::PdcpOrder));
    assert_eq!(ledger.send(2_048, SIZE), Err(Refusal::LedgerFull));
}

#[test]
fn the_oldest_that_waits_is_told() {
    let oldest = |ledger: &Ledger| ledger.oldest_waiting().map(|entry| entry.number);
    let mut ledger = ledger_with(6);
    assert_eq!(oldest(&ledger), Some(0));
    ledger
        .accept(&status(4_095, &[run(0, 1), run(3, 3)]))
        .unwrap();
    assert_eq!(oldest(&ledger), Some(2));
    ledger.accept(&status(2, &[])).unwrap();
    assert_eq!(oldest(&ledger), Some(4));
    ledger.take().unwrap();
    assert_eq!(oldest(&ledger), Some(4));
    let last = written_status(Form::Short, &report(2, 0, 0, true), &[run(5, 5)]);
    ledger.accept(&last).unwrap();
    for left in [Some(4), Some(4), Some(4), None] {
        assert_eq!(oldest(&ledger), left);
        ledger.take().unwrap();
    }
    assert_eq!(oldest(&ledger), None);
}

#[test]
fn a_closed_ledger_only_gives_out() {
    let mut ledger = ledger_with(3);
    let last = written_status(Form::Short, &report(0, 0, 0, true), &[run(2, 2)]);
    let answer = Settled {
        freed: 1,
        lost: 1,
        is_final: true,
    };
    assert_eq!(ledger.accept(&last), Ok(answer));
    refused(&mut ledger, &[], Refusal::Closed);
    assert_eq!(ledger.send(u32::MAX, SIZE), Err(Refusal::Closed));
    assert_eq!(
        ledger.take().map(|e| (e.number, e.fate)),
        Ok((1, Fate::Waiting))
    );
    assert_eq!(
        ledger.take().map(|e| (e.number, e.fate)),
        Ok((2, Fate::Lost))
    );
    assert_eq!(ledger.take(), Err(Refusal::NothingToTake));
}

#[test]
fn opening_is_judged() {
    assert_eq!(Ledger::open(16, 0, 0).unwrap_err(), Refusal::PdcpLength);
    assert_eq!(
        Ledger::open(18, 1 << 24, 0).unwrap_err(),
        Refusal::NumberTooLarge
    );
    let ledger = Ledger::open(18, 0, 0).unwrap();
    assert_eq!((ledger.highest(), ledger.last_sent()), (262_143, 262_143));
}
