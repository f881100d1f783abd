//! The library's keeper against the naive one, on calls of every kind.

use model::{Opening, Secondary};
use property::bearer::openings;
use property::marks::marks;
use property::suite::holds_on;
use proptest::collection::vec;
use proptest::prelude::*;
use soak::marks::{Mark, Marks};
use std::cell::RefCell;
use x2u::circle::Circle;
use x2u::frame::{self, Frame, Range};
use x2u::{Form, Keeper, Refusal};

/// A call, its number given by where it lies rather than outright.
#[derive(Clone, Debug)]
enum Call {
    /// Arrivals `step` apart, the first `ahead` of base.
    Arrive {
        ahead: u32,
        step: u32,
        count: u32,
    },
    /// An arrival near half the circle ahead, and then some.
    ArriveHalfway {
        off: i64,
    },
    /// An arrival near half the circle ahead of floor.
    ArriveAtSpan {
        off: i64,
    },
    /// The furthest arrival that the span allows, and an expiry: base comes to
    /// lie opposite floor.
    FillSpan,
    ArriveAny(u32, u32),
    Expire(Mark),
    /// Confirms of every `step`-th record.
    Confirm {
        from: usize,
        step: usize,
        count: usize,
    },
    ConfirmNear {
        behind: u32,
    },
    /// A confirm near half the circle from base.
    ConfirmHalfway {
        off: i64,
    },
    ConfirmAny(u32),
    Status {
        is_final: bool,
        room: usize,
    },
}

fn calls() -> impl Strategy<Value = Call> {
    prop_oneof![
        8 => (0_u32..4, 1_u32..3, 1_u32..40).prop_map(arrive),
        3 => (0_u32..600, 1_u32..5, 1_u32..5).prop_map(arrive),
        2 => (0_u32..3, 2_u32..3, 100_u32..300).prop_map(arrive),
        2 => (0_u32..3, 1_u32..2, 100_u32..300).prop_map(arrive),
        1 => (-3_i64..260).prop_map(|off| Call::ArriveHalfway { off }),
        1 => (-1_i64..2).prop_map(|off| Call::ArriveHalfway { off }),
        1 => (-3_i64..3).prop_map(|off| Call::ArriveAtSpan { off }),
        1 => Just(Call::FillSpan),
        1 => (any::<u32>(), any::<u32>()).prop_map(|(number, pdcp)| Call::ArriveAny(number, pdcp)),
        8 => marks().prop_map(Call::Expire),
        6 => (some_or(0, 0..8), some_or(1, 1..3), some_or(600, 1..300))
            .prop_map(|(from, step, count)| Call::Confirm { from, step, count }),
        2 => (0_u32..600).prop_map(|behind| Call::ConfirmNear { behind }),
        1 => (-2_i64..3).prop_map(|off| Call::ConfirmHalfway { off }),
        1 => any::<u32>().prop_map(Call::ConfirmAny),
        4 => (prop::bool::weighted(0.05), prop_oneof![Just(1_018_usize), 0_usize..1_018])
            .prop_map(|(is_final, room)| Call::Status { is_final, room }),
    ]
}

/// Mostly `usual`, else any of `others`.
fn some_or(usual: usize, others: std::ops::Range<usize>) -> impl Strategy<Value = usize> {
    prop_oneof![3 => Just(usual), 1 => others]
}

const STATUS: Call = Call::Status {
    is_final: false,
    room: 1_018,
};

fn arrive((ahead, step, count): (u32, u32, u32)) -> Call {
    Call::Arrive { ahead, step, count }
}

struct Test {
    opening: Opening,
    keeper: Keeper,
    model: Secondary,
    arrivals: u32,
    circle: Circle,
    marks: Marks,
}

impl Test {
    fn new(opening: Opening) -> Self {
        let (first, first_pdcp) = (opening.first as u32, opening.first_pdcp as u32);
        let long = opening.bits == 18;
        let form = if long { Form::Long } else { Form::Short };
        Self {
            opening,
            circle: form.numbers(),
            marks: Marks::default(),
            keeper: Keeper::open(opening.bits, first, first_pdcp).unwrap(),
            model: Secondary::open(opening),
            arrivals: 0,
        }
    }

    /// The number at an index that may lie before the first.
    fn number(&self, index: i64) -> u32 {
        let modulus = self.opening.numbers() as i64;
        (self.opening.first as i64 + index).rem_euclid(modulus) as u32
    }

    fn make(&mut self, call: &Call) -> Result<(), TestCaseError> {
        let base = self.model.base() as i64;
        let half = self.opening.numbers() as i64 / 2;
        match *call {
            Call::Arrive { ahead, step, count } => {
                // After a jump over millions the naive keeper is slow.
                let count = if base > 1 << 20 { count.min(3) } else { count };
                for i in 0..count {
                    self.arrive(self.number(base + i64::from(ahead + i * step)))?;
                }
            }
            Call::ArriveHalfway { off } => self.arrive(self.number(base + half - off))?,
            Call::ArriveAtSpan { off } => self.arrive_at_span(off)?,
            Call::FillSpan => {
                self.arrive_at_span(-1)?;
                self.expire(Mark::Highest(0))?;
            }
            Call::ArriveAny(number, pdcp) => {
                prop_assert_eq!(
                    self.keeper.arrive(number, pdcp),
                    self.model.arrive(number, pdcp)
                );
            }
            Call::Expire(mark) => self.expire(mark)?,
            Call::Confirm { from, step, count } => {
                let records: Vec<usize> = self.model.records().collect();
                for index in records.into_iter().skip(from).step_by(step).take(count) {
                    self.confirm(self.opening.number(index))?;
                }
            }
            Call::ConfirmNear { behind } => self.confirm(self.number(base - i64::from(behind)))?,
            Call::ConfirmHalfway { off } => self.confirm(self.number(base + half + off))?,
            Call::ConfirmAny(number) => self.confirm(number)?,
            Call::Status { is_final, room } => self.status(is_final, room)?,
        }
        self.compare()
    }

    fn arrive(&mut self, number: u32) -> Result<(), TestCaseError> {
        self.arrivals += 1;
        let pdcp = (u64::from(self.arrivals) % self.opening.pdcps()) as u32;
        prop_assert_eq!(
            self.keeper.arrive(number, pdcp),
            self.model.arrive(number, pdcp)
        );
        Ok(())
    }

    /// An arrival half the circle and `off` ahead of floor.
    fn arrive_at_span(&mut self, off: i64) -> Result<(), TestCaseError> {
        let half = self.opening.numbers() as i64 / 2;
        self.arrive(self.number(self.model.floor() as i64 + half + off))
    }

    fn expire(&mut self, mark: Mark) -> Result<(), TestCaseError> {
        let mark = mark.at(self.circle, &self.keeper);
        self.marks.expire(self.circle, &self.keeper, mark);
        prop_assert_eq!(self.keeper.expire(mark), self.model.expire(mark));
        Ok(())
    }

    fn confirm(&mut self, number: u32) -> Result<(), TestCaseError> {
        prop_assert_eq!(self.keeper.confirm(number), self.model.confirm(number));
        Ok(())
    }

    fn ranges(&self, indexes: &[(usize, usize)]) -> Vec<Range> {
        let range = |&(start, end): &(usize, usize)| Range {
            start: self.opening.number(start),
            end: self.opening.number(end),
        };
        indexes.iter().map(range).collect()
    }

    fn status(&mut self, is_final: bool, room: usize) -> Result<(), TestCaseError> {
        let mut buffer = vec![0xA5; room];
        let answer = self.keeper.status(7, 9, is_final, &mut buffer);
        let built = self.model.status(is_final, room);
        prop_assert_eq!(
            answer,
            built.as_ref().map(|built| built.length).map_err(|r| *r)
        );
        let length = answer.unwrap_or(0);
        prop_assert!(buffer[length..].iter().all(|&octet| octet == 0xA5));
        let Ok(built) = built else { return Ok(()) };
        match frame::read(&buffer[..length]) {
            Frame::Status { report, ranges, .. } => {
                prop_assert_eq!(report.highest, built.highest);
                prop_assert_eq!(report.is_final, is_final);
                prop_assert_eq!(ranges.collect::<Vec<_>>(), self.ranges(&built.ranges));
            }
            other => prop_assert!(false, "{:?} is no status", other),
        }
        Ok(())
    }

    fn compare(&self) -> Result<(), TestCaseError> {
        prop_assert_eq!(self.keeper.base(), self.opening.number(self.model.base()));
        prop_assert_eq!(
            self.keeper.reported_highest(),
            self.model.reported_highest()
        );
        prop_assert_eq!(self.keeper.listed_runs(), self.ranges(&self.model.listed()));
        let records: Vec<_> = self
            .keeper
            .records()
            .map(|r| (r.number, r.pdcp, r.confirmed))
            .collect();
        let expected: Vec<_> = self
            .model
            .records()
            .map(|i| {
                (
                    self.opening.number(i),
                    self.model.pdcp(i),
                    self.model.confirmed(i),
                )
            })
            .collect();
        prop_assert_eq!(records, expected);
        Ok(())
    }
}

#[test]
fn the_keeper_is_the_naive_one() {
    let met = RefCell::new(Marks::default());
    let scripts = (openings(1), vec(calls(), 1..60));
    holds_on(300, &scripts, |(opening, calls)| {
        let mut test = Test::new(opening);
        for call in &calls {
            test.make(call)?;
        }
        met.borrow_mut().add(test.marks);
        Ok(())
    });
    let marks = met.into_inner();
    assert!(marks.least() >= 3, "{marks}");
}

/// A record, or a listed number, that comes to lie opposite base.
#[test]
fn what_is_opposite_base_lies_before_it() {
    let calls = [
        Call::FillSpan,
        Call::ArriveHalfway { off: 0 },
        arrive((0, 1, 1)),
        STATUS,
        arrive((0, 1, 1)),
        Call::ConfirmHalfway { off: 0 },
        Call::ConfirmHalfway { off: 0 },
        STATUS,
        arrive((0, 1, 1)),
    ];
    for bits in [12, 15, 18] {
        for records in [0, 1] {
            let mut test = Test::new(Opening {
                bits,
                first: 65_000,
                first_pdcp: 0,
            });
            test.make(&arrive((0, 1, records))).unwrap();
            for call in &calls {
                test.make(call).unwrap();
            }
        }
    }
}

/// 10, and on a closed end 9, come before 18.
#[test]
fn an_opposite_number_is_judged_in_order() {
    for bits in [12, 15, 18] {
        let opening = Opening {
            bits,
            first: 65_000,
            first_pdcp: 0,
        };
        let mut test = Test::new(opening);
        let opposite = test.number(opening.numbers() as i64 / 2);
        let outside = opening.pdcps() as u32;
        for (pdcp, expected) in [
            (outside, Refusal::NumberTooLarge),
            (outside - 1, Refusal::Opposite),
        ] {
            assert_eq!(test.keeper.arrive(opposite, pdcp), Err(expected));
            assert_eq!(test.model.arrive(opposite, pdcp), Err(expected));
        }
        test.status(true, 1_018).unwrap();
        for pdcp in [outside, outside - 1] {
            assert_eq!(test.keeper.arrive(opposite, pdcp), Err(Refusal::Closed));
            assert_eq!(test.model.arrive(opposite, pdcp), Err(Refusal::Closed));
        }
    }
}

#[test]
fn the_model_gives_the_bench_sheet() {
    let mut model = Secondary::open(Opening {
        bits: 12,
        first: 0,
        first_pdcp: 0,
    });
    assert_eq!(model.clone().arrive(255, 0), Ok(0));
    assert_eq!(model.clone().arrive(32_767, 0), Ok(32_512));
    assert_eq!(model.clone().arrive(32_768, 0), Err(Refusal::Opposite));
    assert_eq!(model.clone().arrive(32_769, 0), Err(Refusal::Late));
    assert_eq!(
        model.clone().arrive(32_768, 4_096),
        Err(Refusal::NumberTooLarge)
    );
    assert_eq!(model.arrive(256, 0), Ok(1));
    assert_eq!(model.arrive(32_768, 0), Err(Refusal::Span));
}

/// Document 02's bench case, and both sides of each limit.
#[test]
fn the_model_expires_by_its_mark() {
    let fresh = Secondary::open(Opening {
        bits: 12,
        first: 65_534,
        first_pdcp: 4_095,
    });
    for mark in [65_534, 0, 32_765] {
        assert_eq!(fresh.clone().expire(mark), Err(Refusal::MarkBeyond));
    }
    for mark in [32_766, 40_000, 65_533] {
        assert_eq!(fresh.clone().expire(mark), Err(Refusal::NothingOpen));
    }
    assert_eq!(fresh.clone().expire(65_536), Err(Refusal::NumberTooLarge));
    let mut model = fresh;
    model.arrive(65_534, 4_095).unwrap();
    model.arrive(0, 1).unwrap();
    for mark in [1, 32_766] {
        assert_eq!(model.expire(mark), Err(Refusal::MarkBeyond));
    }
    for mark in [65_535, 65_534, 32_767] {
        assert_eq!(model.expire(mark), Err(Refusal::NothingOpen));
    }
    assert_eq!(model.expire(0), Ok(1));
    assert_eq!((model.base(), model.listed()), (3, vec![(1, 1)]));
    model.arrive(5, 2).unwrap();
    assert_eq!(model.expire(3), Ok(2));
    assert_eq!((model.base(), model.listed()), (5, vec![(1, 1), (3, 4)]));
    assert_eq!(model.expire(3), Err(Refusal::NothingOpen));
}
