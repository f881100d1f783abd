//! The library's ledger against the naive one, on calls of every kind.

use model::demand::waiting_in_order;
use model::master::Fate as Told;
use model::{Master, Opening};
use property::bearer::openings;
use property::sizes::{desireds, sizes};
use property::suite::holds_on;
use proptest::collection::vec;
use proptest::prelude::*;
use proptest::sample::{Index, select};
use soak::frames;
use soak::order::{Before, Edge, Sends, last_left};
use soak::sizes::{self as octets, Desired, Size, Sizes};
use std::cell::RefCell;
use x2u::frame::{self, Frame, Range, Report};
use x2u::ledger::{Entry, Fate};
use x2u::{Bearer, Form, Ledger, Refusal};

/// Where a status gets its highest from.
#[derive(Clone, Debug)]
enum Highest {
    Last,
    OfEntry(Index),
    /// The last that waits and isn't named lost, so that nothing waits then.
    OfLastLeft,
    Any(u32),
}

/// How the ranges of a status are spoilt.
#[derive(Clone, Debug)]
enum Spoil {
    Nothing,
    Swap(Index, Index),
    Repeat(Index),
    Shift(Index, i32, i32),
}

#[derive(Clone, Debug)]
enum Call {
    /// Sends with `skip` PDCP numbers left out before each.
    Send {
        skip: u32,
        count: u32,
        size: Size,
    },
    /// A send at a limit of the PDCP order, or so far beside it.
    SendAt(Edge, i32, Size),
    SendAny(u32, Size),
    /// A status naming entries from `from` on, `run` of every `period`.
    Accept {
        highest: Highest,
        from: Index,
        run: usize,
        period: usize,
        ranges: usize,
        spoil: Spoil,
        desired: Desired,
        is_final: bool,
        form: Form,
    },
    AcceptAny(Vec<u8>),
    Take(usize),
}

fn calls() -> impl Strategy<Value = Call> {
    let offs = prop_oneof![Just(0_i32), -2_i32..3];
    prop_oneof![
        6 => sends(prop_oneof![4 => Just(0_u32), 1 => 0_u32..9], 1_u32..90),
        2 => sends(Just(0_u32), 100_u32..600),
        4 => sends(Just(0_u32), Just(1_u32)),
        6 => (select(Edge::ALL.to_vec()), offs, sizes())
            .prop_map(|(edge, off, size)| Call::SendAt(edge, off, size)),
        // A rest, up to a whole turn of the longest circle and more.
        4 => sends(0_u32..1 << 18, 1_u32..3),
        2 => (any::<u32>(), sizes()).prop_map(|(pdcp, size)| Call::SendAny(pdcp, size)),
        10 => accepts(),
        1 => vec(any::<u8>(), 0..30).prop_map(Call::AcceptAny),
        3 => (1_usize..60).prop_map(Call::Take),
    ]
}

fn sends(
    skips: impl Strategy<Value = u32>,
    counts: impl Strategy<Value = u32>,
) -> impl Strategy<Value = Call> {
    (skips, counts, sizes()).prop_map(|(skip, count, size)| Call::Send { skip, count, size })
}

fn accepts() -> impl Strategy<Value = Call> {
    let highest = prop_oneof![
        3 => Just(Highest::Last),
        6 => any::<Index>().prop_map(Highest::OfEntry),
        5 => Just(Highest::OfLastLeft),
        1 => (0_u32..40_000).prop_map(Highest::Any),
    ];
    let spoil = prop_oneof![
        6 => Just(Spoil::Nothing),
        1 => (any::<Index>(), any::<Index>()).prop_map(|(a, b)| Spoil::Swap(a, b)),
        1 => any::<Index>().prop_map(Spoil::Repeat),
        1 => (any::<Index>(), -2_i32..3, -2_i32..3).prop_map(|(i, a, b)| Spoil::Shift(i, a, b)),
    ];
    let form = prop_oneof![30 => Just(Form::Short), 1 => Just(Form::Long)];
    let list = (
        any::<Index>(),
        1_usize..4,
        1_usize..9,
        prop_oneof![0_usize..5, 0_usize..163],
    );
    let says = (desireds(), prop::bool::weighted(0.02), form);
    (highest, list, spoil, says).prop_map(
        |(highest, (from, run, period, ranges), spoil, (desired, is_final, form))| Call::Accept {
            highest,
            from,
            run,
            period,
            ranges,
            spoil,
            desired,
            is_final,
            form,
        },
    )
}

/// The ranges that a call names of the entries that wait.
fn named(call: &Call, entries: &[Entry]) -> Vec<Range> {
    let Call::Accept {
        from,
        run,
        period,
        ranges,
        ..
    } = call
    else {
        unreachable!();
    };
    let start = if entries.is_empty() {
        0
    } else {
        from.index(entries.len())
    };
    let mut list: Vec<Range> = Vec::new();
    let waiting = entries[start..].iter().filter(|e| e.fate == Fate::Waiting);
    for (i, entry) in waiting.enumerate().filter(|(i, _)| i % period < *run) {
        match list.last_mut() {
            Some(last) if i % period != 0 => last.end = entry.number,
            _ => list.push(Range {
                start: entry.number,
                end: entry.number,
            }),
        }
    }
    list.truncate(*ranges);
    list
}

struct Test {
    opening: Opening,
    bearer: Bearer,
    ledger: Ledger,
    model: Master,
    sends: Sends,
    sizes: Sizes,
}

impl Test {
    fn new(opening: Opening) -> Self {
        let (first, first_pdcp) = (opening.first as u32, opening.first_pdcp as u32);
        Self {
            opening,
            bearer: Bearer::judged(opening.bits, first, first_pdcp).unwrap(),
            ledger: Ledger::open(opening.bits, first, first_pdcp).unwrap(),
            model: Master::open(opening),
            sends: Sends::default(),
            sizes: Sizes::default(),
        }
    }

    fn make(&mut self, call: &Call) -> Result<(), TestCaseError> {
        match call {
            Call::Send { skip, count, size } => {
                for turn in 0..*count {
                    let pdcp = self.bearer.pdcp.step(self.ledger.last_sent(), skip + 1);
                    self.send(pdcp, size.later(turn))?;
                }
            }
            Call::SendAt(edge, off, size) => {
                self.send(edge.near(self.bearer.pdcp, &self.ledger, *off), *size)?;
            }
            Call::SendAny(pdcp, size) => self.send(*pdcp, *size)?,
            Call::Accept { .. } => {
                let octets = self.status(call);
                self.accept(&octets)?;
            }
            Call::AcceptAny(octets) => self.accept(octets)?,
            Call::Take(count) => {
                for _ in 0..*count {
                    let taken = self.ledger.take();
                    let taken = taken.map(|entry| (entry.number, entry.pdcp, entry.size.into()));
                    prop_assert_eq!(taken, self.model.take());
                    self.room()?;
                }
            }
        }
        self.compare()
    }

    fn send(&mut self, pdcp: u32, size: Size) -> Result<(), TestCaseError> {
        let size = size.at(&self.ledger);
        let before = Before::send(self.bearer.pdcp, &self.ledger, pdcp);
        self.sizes.send(&self.ledger, pdcp, size);
        let answer = self.ledger.send(pdcp, size);
        prop_assert_eq!(answer, self.model.send(pdcp, size));
        self.sends.count(before, answer);
        self.room()
    }

    fn room(&mut self) -> Result<(), TestCaseError> {
        self.sizes.room(&self.ledger);
        prop_assert_eq!(self.ledger.room(), self.model.room());
        let octets = i64::from(self.ledger.waiting_octets());
        prop_assert_eq!(octets, self.model.waiting_octets());
        Ok(())
    }

    fn accept(&mut self, octets: &[u8]) -> Result<(), TestCaseError> {
        let answer = self.ledger.accept(octets);
        let ours = if self.opening.bits == 18 {
            Form::Long
        } else {
            Form::Short
        };
        let expected = match frame::read(octets) {
            _ if self.model.is_closed() => Err(Refusal::Closed),
            Frame::Refused(refusal) => Err(refusal),
            Frame::Status {
                form,
                report,
                ranges,
            } if form == ours => self.model.accept(&report, &ranges.collect::<Vec<_>>()),
            _ => Err(Refusal::NotOurStatus),
        };
        prop_assert_eq!(
            answer.map(|settled| (settled.freed, settled.lost)),
            expected
        );
        self.room()
    }

    fn status(&self, call: &Call) -> Vec<u8> {
        let Call::Accept {
            highest,
            spoil,
            desired,
            is_final,
            form,
            ..
        } = call
        else {
            unreachable!();
        };
        let entries: Vec<_> = self.ledger.entries().copied().collect();
        let mut list = named(call, &entries);
        let highest = match highest {
            Highest::OfEntry(index) if !entries.is_empty() => index.get(&entries).pdcp,
            Highest::OfLastLeft => last_left(self.bearer.numbers(), &self.ledger, &list),
            Highest::Any(pdcp) => *pdcp,
            _ => self.ledger.highest(),
        };
        self.spoil(&mut list, spoil);
        // Both forms are tried on short bearers; the other form must be refused.
        let form = if self.opening.bits == 18 {
            Form::Long
        } else {
            *form
        };
        let mut report = Report {
            highest: highest.min(form.largest_highest()),
            desired: 0,
            minimum: 5,
            is_final: *is_final,
        };
        let left = octets::left(&self.ledger, &frames::status(form, &report, &list));
        report.desired = desired.at(left);
        frames::status(form, &report, &list)
    }

    fn spoil(&self, list: &mut Vec<Range>, spoil: &Spoil) {
        if list.is_empty() {
            return;
        }
        let shifted = |number: u32, by: i32| {
            (i64::from(number) + i64::from(by)).rem_euclid(self.opening.numbers() as i64) as u32
        };
        match spoil {
            Spoil::Nothing => {}
            Spoil::Swap(a, b) => {
                let (a, b) = (a.index(list.len()), b.index(list.len()));
                list.swap(a, b);
            }
            Spoil::Repeat(index) => {
                let again = *index.get(list);
                list.truncate(161);
                list.insert(index.index(list.len()), again);
            }
            Spoil::Shift(index, start, end) => {
                let place = index.index(list.len());
                list[place].start = shifted(list[place].start, *start);
                list[place].end = shifted(list[place].end, *end);
            }
        }
    }

    fn compare(&self) -> Result<(), TestCaseError> {
        let sizes = (self.ledger.desired(), self.ledger.minimum());
        prop_assert_eq!(sizes, self.model.sizes());
        let marks = (self.ledger.highest(), self.ledger.last_sent());
        prop_assert_eq!(marks, self.model.pdcp_marks());
        let fates = |fate| match fate {
            Fate::Waiting => Told::Waiting,
            Fate::Lost => Told::Lost,
        };
        let entries: Vec<_> = self
            .ledger
            .entries()
            .map(|e| (e.number, e.pdcp, e.size.into(), fates(e.fate)))
            .collect();
        let expected: Vec<_> = self
            .model
            .held()
            .into_iter()
            .map(|index| self.model.entry(index))
            .collect();
        prop_assert_eq!(entries, expected);
        let fates = [Told::Waiting, Told::Lost, Told::Freed, Told::Taken];
        let all: usize = fates.into_iter().map(|fate| self.model.count(fate)).sum();
        prop_assert_eq!(all, self.model.sent());
        self.check_waiting()
    }

    /// The entries that wait keep their order, and the oldest is told.
    fn check_waiting(&self) -> Result<(), TestCaseError> {
        let waiting = || {
            let entries = self.ledger.entries();
            entries.filter(|entry| entry.fate == Fate::Waiting)
        };
        prop_assert_eq!(self.ledger.oldest_waiting(), waiting().next());
        let pdcps = waiting().map(|entry| entry.pdcp);
        waiting_in_order(self.opening, self.ledger.highest(), pdcps).map_err(TestCaseError::fail)
    }
}

#[test]
fn the_ledger_is_the_naive_one() {
    let met = RefCell::new((Sends::default(), Sizes::default()));
    let bearers = (openings(6), vec(calls(), 1..80));
    holds_on(300, &bearers, |(opening, calls)| {
        let mut test = Test::new(opening);
        for call in &calls {
            test.make(call)?;
        }
        met.borrow_mut().0.add(test.sends);
        met.borrow_mut().1.add(test.sizes);
        Ok(())
    });
    let (sends, sizes) = met.into_inner();
    assert!(sends.least() >= 50, "{sends}");
    assert!(sizes.least() >= 20, "{sizes}");
}
