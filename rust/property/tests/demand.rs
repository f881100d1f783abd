//! Demand 3 on random bearers, by packet identity.

use model::{Opening, Watch};
use programs::replay::Replay;
use property::bearer::{Bearer, Step, openings, steps};
use property::suite::holds_on;
use proptest::collection::vec;
use proptest::prelude::*;
use soak::marks::{Mark, Marks};
use soak::order::Sends;
use soak::sizes::{Desired, Sizes};
use soak::sums::Sums;
use std::cell::RefCell;
use x2u::Refusal;
use x2u::frame::LONGEST;

/// The library's answers to lines.
fn answers(lines: &[Vec<u8>]) -> Vec<Vec<u8>> {
    let mut replay = Replay::default();
    let answer = |line: &Vec<u8>| {
        let mut out = Vec::new();
        replay.answer(Some(line), &mut out).unwrap();
        out.pop();
        out
    };
    lines.iter().map(answer).collect()
}

#[test]
fn demand_3_holds() {
    let met = RefCell::new((Sends::default(), Sizes::default(), Sums::default()));
    let marks_met = RefCell::new(Marks::default());
    let bearers = (openings(6), vec(steps(), 1..120));
    holds_on(300, &bearers, |(opening, steps)| {
        let mut bearer = Bearer::new(opening);
        for step in &steps {
            bearer.make(step).map_err(TestCaseError::fail)?;
        }
        let trace = &bearer.trace;
        let answers = answers(&trace.lines);
        trace.check(&answers).map_err(TestCaseError::fail)?;
        let (sends, sizes, sums) = &mut *met.borrow_mut();
        sends.add(bearer.sends);
        sizes.add(bearer.sizes);
        sums.see_all(&trace.lines, &answers);
        marks_met.borrow_mut().add(bearer.marks);
        Ok(())
    });
    let (sends, sizes, sums) = met.into_inner();
    assert!(sends.least() >= 50, "{sends}");
    assert!(sizes.least() >= 10, "{sizes}");
    assert!(sums.least() >= 10, "{sums}");
    let marks = marks_met.into_inner();
    assert!(marks.least_in_bounds() > 0, "{marks}");
}

/// More runs than a frame carries: the highest is held back, and demand 3 with
/// it.
#[test]
fn demand_3_holds_with_a_run_left_out() {
    let status = Step::status(false);
    for bits in [12, 15, 18] {
        let mut bearer = Bearer::new(Opening {
            bits,
            first: 65_400,
            first_pdcp: 4_000,
        });
        for (step, runs, freed) in [
            (Step::send(512), 0, 0),
            (
                Step::Arrive {
                    dropped: 1,
                    period: 2,
                    count: 512,
                },
                128,
                0,
            ),
            (Step::expire(), 256, 0),
            (
                Step::Confirm {
                    passed: 1_000,
                    count: 512,
                },
                256,
                0,
            ),
            (status.clone(), 94, 0),
            (status.clone(), 0, 0),
            (Step::Deliver(1), 0, 162),
            (Step::Deliver(1), 0, 256),
        ] {
            bearer.make(&step).unwrap();
            let listed = bearer.pair.keeper.listed_runs().len();
            assert_eq!(
                (listed, bearer.pair.tally().freed),
                (runs, freed),
                "{step:?}"
            );
        }
    }
}

/// M/2 of the short form.
const HALF: usize = 32_768;

/// Copies up to the edge of what E2 allows: 18 exactly half a circle before
/// base, 11 elsewhere. Answers how many got 18.
fn old_copies(bearer: &mut Bearer) -> usize {
    let newest = bearer.pair.watch.sent_count() - 1;
    let mut opposite = 0;
    for age in [HALF - 1, HALF - 2, HALF - 300, HALF / 2, 700] {
        if age > newest {
            continue;
        }
        let packet = newest - age;
        let is_opposite = bearer.pair.watch.base() - packet == HALF;
        let expected = if is_opposite {
            Refusal::Opposite
        } else {
            Refusal::Late
        };
        assert_eq!(bearer.arrive_packet(packet).unwrap(), Err(expected));
        opposite += usize::from(is_opposite);
    }
    opposite
}

/// Many turns of both circles, with old copies before and after each expiry.
#[test]
fn demand_3_holds_over_rollovers() {
    for bits in [12, 15] {
        let mut bearer = Bearer::new(Opening {
            bits,
            first: 65_000,
            first_pdcp: 5,
        });
        let mut opposite = 0;
        for round in 0..1_500 {
            bearer.make(&Step::send(100 + round % 7)).unwrap();
            bearer.arrive(1 + round as usize % 2, 11, 106).unwrap();
            opposite += old_copies(&mut bearer);
            bearer.make(&Step::expire()).unwrap();
            opposite += old_copies(&mut bearer);
            for step in [
                Step::Confirm {
                    passed: 1_000,
                    count: 600,
                },
                Step::status(false),
                Step::Deliver(1),
                Step::Take(100),
            ] {
                bearer.make(&step).unwrap();
            }
        }
        assert!(bearer.pair.tally().freed > 100_000);
        assert!(opposite > 500, "{opposite} copies lay opposite base");
    }
}

/// 18 within E2: half a circle of packets was sent, all of it is freed, and the
/// first of them comes again. A send later E2 allows that no more.
#[test]
fn a_copy_opposite_base_keeps_demand_3() {
    for (bits, first) in [(12, 40_000), (15, 0)] {
        let mut bearer = Bearer::new(Opening {
            bits,
            first,
            first_pdcp: 0,
        });
        bearer.flow(HALF).unwrap();
        let watch = &bearer.pair.watch;
        assert_eq!((watch.base(), watch.sent_count()), (HALF, HALF));
        assert!(watch.may_arrive(0));
        assert_eq!(watch.oldest_copy(), Some(0));
        assert_eq!(bearer.arrive_packet(0), Ok(Err(Refusal::Opposite)));
        assert_eq!(bearer.arrive_packet(1), Ok(Err(Refusal::Late)));
        bearer.make(&Step::send(1)).unwrap();
        assert!(!bearer.pair.watch.may_arrive(0));
        assert_eq!(bearer.pair.watch.oldest_copy(), Some(1));
    }
}

/// A packet that waits with H's number, or not in order, is seen as it is sent.
#[test]
fn the_watch_sees_a_send_out_of_order() {
    for (bits, half) in [(12, 2_048), (15, 16_384), (18, 131_072)] {
        let fresh = Watch::new(Opening {
            bits,
            first: 0,
            first_pdcp: 10,
        });
        for (sends, seen) in [
            (&[9][..], true),
            (&[8], false),
            (&[9 + half], false),
            (&[20, 20], true),
            (&[20, 19], true),
            (&[20, 30, 25], true),
            (&[20, 30, 30], true),
            (&[20, 20 + half], true),
            (&[20, 19 + half, 20 + half], true),
            (&[20, 25, 19 + half], false),
        ] {
            let mut watch = fresh.clone();
            let told = (0..).zip(sends).map(|(n, &pdcp)| watch.sent(pdcp, 1, n));
            let told: Vec<_> = told.collect();
            let (last, before) = told.split_last().unwrap();
            assert!(before.iter().all(Result::is_ok), "{sends:?}: {told:?}");
            assert_eq!(last.is_err(), seen, "{sends:?}: {told:?}");
        }
    }
}

/// A bearer of L = 12 from number 0 and PDCP number 0 on.
const PLAIN: Opening = Opening {
    bits: 12,
    first: 0,
    first_pdcp: 0,
};

#[test]
fn the_watch_sees_a_size_that_no_pdu_has() {
    for (size, seen) in [(0, true), (1, false), (16_384, false), (16_385, true)] {
        let told = Watch::new(PLAIN).sent(0, size, 0);
        assert_eq!(told.is_err(), seen, "{size}: {told:?}");
    }
}

/// A room, or the size of what is taken, that isn't the packets'.
#[test]
fn the_watch_sees_a_wrong_room_and_a_wrong_size() {
    assert!(Watch::new(PLAIN).room(0).is_ok());
    assert!(Watch::new(PLAIN).room(1).is_err());
    let mut bearer = Bearer::new(PLAIN);
    for step in [
        Step::send(10),
        Step::Arrive {
            dropped: 1,
            period: 5,
            count: 8,
        },
        Step::expire(),
        Step::Status {
            desired: Desired::Left(500),
            is_final: false,
            room: LONGEST,
        },
        Step::Deliver(1),
    ] {
        bearer.make(&step).unwrap();
    }
    let watch = &bearer.pair.watch;
    for (room, seen) in [(499, true), (500, false), (501, true), (0, true)] {
        assert_eq!(watch.clone().room(room).is_err(), seen, "{room}");
    }
    let size = watch.size(0);
    for (answer, seen) in [(size - 1, true), (size, false), (size + 1, true)] {
        let told = watch.clone().taken(false, Ok((0, 0, answer)));
        assert_eq!(told.is_err(), seen, "{answer}");
    }
}

/// A sum that isn't the packets', with the entries beside it being right.
#[test]
fn the_watch_sees_a_wrong_sum() {
    let mut bearer = Bearer::new(PLAIN);
    for step in [
        Step::send(10),
        Step::Arrive {
            dropped: 1,
            period: 5,
            count: 8,
        },
        Step::expire(),
        Step::status(false),
        Step::Deliver(1),
    ] {
        bearer.make(&step).unwrap();
    }
    let (watch, ledger) = (&bearer.pair.watch, &bearer.pair.ledger);
    let octets: u32 = (0..10).map(|packet| watch.size(packet)).sum();
    // Packets 0 and 5 are lost, and count no more.
    let waiting = octets - watch.size(0) - watch.size(5);
    for (sum, seen) in [
        (waiting, false),
        (waiting - 1, true),
        (waiting + 1, true),
        (waiting + watch.size(0), true),
        (octets, true),
        (0, true),
    ] {
        let told = watch.clone().held(ledger.entries(), sum);
        assert_eq!(told.is_err(), seen, "{sum}: {told:?}");
    }
}

/// Packets 0, 3, 4 and 7 of ten arrived: what the watch takes an expiry's answer
/// for, by its mark. On a first packet of 65,533 the numbers roll over.
#[test]
fn the_watch_sees_an_expiry_beside_its_mark() {
    let mut bearer = Bearer::new(Opening {
        bits: 12,
        first: 65_533,
        first_pdcp: 0,
    });
    bearer.make(&Step::send(10)).unwrap();
    for packet in [0, 3, 4, 7] {
        let _ = bearer.arrive_packet(packet).unwrap();
    }
    let nothing_open = Err(Refusal::NothingOpen);
    let beyond = Err(Refusal::MarkBeyond);
    for (packet, answer) in [
        (0, nothing_open),
        (1, nothing_open),
        (2, Ok(1)),
        (3, Ok(2)),
        (4, Ok(2)),
        (5, Ok(2)),
        (6, Ok(3)),
        (7, Ok(4)),
        (8, beyond),
        (9, beyond),
        (HALF, beyond),
        (HALF + 1, nothing_open),
        (65_535, nothing_open),
    ] {
        let mark = ((65_533 + packet) % 65_536) as u32;
        for told in [Ok(0), Ok(1), Ok(2), Ok(3), Ok(4), nothing_open, beyond] {
            let verdict = bearer.pair.watch.clone().expired(mark, told);
            assert_eq!(verdict.is_ok(), told == answer, "{packet}: {told:?}");
        }
    }
}

/// A base that isn't the lowest open number, with the runs beside it being right.
#[test]
fn the_watch_sees_a_wrong_base() {
    let mut bearer = Bearer::new(PLAIN);
    for step in [
        Step::send(10),
        Step::Arrive {
            dropped: 2,
            period: 5,
            count: 10,
        },
        Step::Expire(Mark::Base(1)),
    ] {
        bearer.make(&step).unwrap();
    }
    let (watch, runs) = (&bearer.pair.watch, bearer.pair.keeper.listed_runs());
    for (base, seen) in [(0, true), (1, false), (2, true), (5, true)] {
        let told = watch.stands(base, runs);
        assert_eq!(told.is_err(), seen, "{base}: {told:?}");
    }
}

/// What comes while the timer runs is spared, and may still arrive.
#[test]
fn a_timer_spares_what_came_after_its_start() {
    for bits in [12, 15, 18] {
        let mut bearer = Bearer::new(Opening {
            bits,
            first: 65_530,
            first_pdcp: 4_000,
        });
        bearer.make(&Step::send(12)).unwrap();
        for packet in [0, 2, 3] {
            let _ = bearer.arrive_packet(packet).unwrap();
        }
        bearer.make(&Step::StartTimer).unwrap();
        for packet in [5, 8, 9] {
            let _ = bearer.arrive_packet(packet).unwrap();
        }
        bearer.make(&Step::EndTimer).unwrap();
        assert_eq!((bearer.pair.tally().lost, bearer.pair.watch.base()), (1, 4));
        let spared: Vec<usize> = bearer.pair.watch.missing().collect();
        assert_eq!(spared, [4, 6, 7]);
        for packet in [4, 7] {
            assert_eq!(bearer.arrive_packet(packet), Ok(Ok(0)));
        }
        bearer.make(&Step::EndTimer).unwrap();
        assert_eq!(bearer.pair.tally().lost, 1);
        for step in [Step::StartTimer, Step::EndTimer] {
            bearer.make(&step).unwrap();
        }
        assert_eq!(
            (bearer.pair.tally().lost, bearer.pair.watch.base()),
            (2, 10)
        );
    }
}

/// One step beyond E2 demand 3 is false, and the watch sees it.
#[test]
fn the_watch_sees_a_copy_that_is_too_old() {
    let mut bearer = Bearer::new(Opening {
        bits: 15,
        first: 0,
        first_pdcp: 0,
    });
    bearer.flow(HALF + 1).unwrap();
    assert!(!bearer.pair.watch.may_arrive(0));
    assert!(bearer.pair.clone().arrive(1).unwrap().is_err());
    assert!(bearer.pair.arrive(0).is_err());
}
