//! The cases.

use crate::{Clock, Form, List, Measured, PDU, REPORT, Range, Report, Side};
use std::hint::black_box;
use std::time::Duration;
use x2u::frame;

/// One thing that is measured.
pub struct Case {
    /// Its name in files.
    pub id: String,
    /// What it is, for a reader.
    pub title: String,
    /// The table it stands in.
    pub table: &'static str,
    /// At most this many times the library's time.
    pub goal: Option<f64>,
    /// Makes at least so many calls.
    pub run: Run,
}

/// Makes at least so many calls.
pub type Run = Box<dyn FnMut(u64) -> Measured>;

/// Calls in a batch that needs no setting up.
const PURE: u64 = 1_024;
/// Keepers that a batch goes through, a call on each. Together they fit in a
/// second-level cache.
const KEEPERS: usize = 64;
/// In-order arrivals in a batch.
const ARRIVALS: u32 = 64;

/// All cases on one side, in the order of the tables.
#[must_use]
pub fn cases<S: Side>() -> Vec<Case> {
    let mut cases = Vec::new();
    codec::<S>(&mut cases);
    apart::<S>(&mut cases);
    lengths::<S>(&mut cases);
    keeper::<S>(&mut cases);
    ledger::<S>(&mut cases);
    cases
}

fn pure(mut call: impl FnMut() -> i64 + 'static) -> Run {
    let clock = Clock::new();
    Box::new(move |least| {
        let mut measured = Measured::default();
        while measured.calls < least {
            let time = clock.time(|| (0..PURE).fold(0_i64, |sum, _| sum.wrapping_add(call())));
            measured.add(time, PURE);
        }
        measured
    })
}

const FORMS: [(&str, Form); 2] = [("short", Form::Short), ("long", Form::Long)];

/// Reading and writing.
fn codec<S: Side>(cases: &mut Vec<Case>) {
    let mut add = |id: String, title: String, run| {
        cases.push(Case {
            id,
            title,
            table: "codec",
            goal: Some(1.5),
            run,
        });
    };
    for (name, form) in FORMS {
        let octets = data_frame(form);
        let read = pure(move || S::read(black_box(&octets)));
        add(
            format!("read-data-{name}"),
            format!("read data, {name} form"),
            read,
        );
        for count in [0, 3, 162] {
            let octets = status_frame(form, &REPORT, &List::of(count).ranges);
            let read = pure(move || S::read(black_box(&octets)));
            add(
                format!("read-status-{name}-{count}"),
                format!("read status, {name} form, {count} ranges"),
                read,
            );
        }
    }
    for (name, form) in FORMS {
        let mut buffer = [0; 1_018];
        let write = pure(move || S::write_data(form, black_box(0x1234), black_box(&mut buffer)));
        add(
            format!("write-data-{name}"),
            format!("write data, {name} form"),
            write,
        );
        for count in [0, 3, 162] {
            let list = List::of(count);
            let write = pure(move || {
                S::write_status(
                    form,
                    black_box(&REPORT),
                    black_box(&list),
                    black_box(&mut buffer),
                )
            });
            add(
                format!("write-status-{name}-{count}"),
                format!("write status, {name} form, {count} ranges"),
                write,
            );
        }
    }
}

/// Reading with a call for each range on both sides.
fn apart<S: Side>(cases: &mut Vec<Case>) {
    for (name, form) in FORMS {
        for count in [3, 162] {
            let octets = status_frame(form, &REPORT, &List::of(count).ranges);
            cases.push(Case {
                id: format!("apart-{name}-{count}"),
                title: format!("read status, {name} form, {count} ranges"),
                table: "apart",
                goal: None,
                run: pure(move || S::read_apart(black_box(&octets))),
            });
        }
    }
}

/// Reading frames of rising length.
fn lengths<S: Side>(cases: &mut Vec<Case>) {
    for count in [0, 10, 20, 40, 80, 120, 162] {
        let octets = status_frame(Form::Long, &REPORT, &List::of(count).ranges);
        let length = octets.len();
        cases.push(Case {
            id: format!("length-{length}"),
            title: format!("{length} octets, {count} ranges"),
            table: "lengths",
            goal: None,
            run: pure(move || S::read(black_box(&octets))),
        });
    }
    let mut octets = status_frame(Form::Long, &REPORT, &List::of(162).ranges);
    octets.resize(1_018, 0xFF);
    cases.push(Case {
        id: "length-1018".to_owned(),
        title: "1018 octets, 162 ranges, an extension of 32".to_owned(),
        table: "lengths",
        goal: None,
        run: pure(move || S::read(black_box(&octets))),
    });
}

fn data_frame(form: Form) -> Vec<u8> {
    let mut buffer = [0; 6];
    frame::write_data(form, 0x1234, &mut buffer).expect("it can be written");
    buffer.to_vec()
}

fn status_frame(form: Form, report: &Report, ranges: &[Range]) -> Vec<u8> {
    let mut buffer = [0; 1_018];
    let length = frame::write_status(form, report, ranges, &mut buffer);
    buffer[..length.expect("it can be written")].to_vec()
}

/// A keeper on which arrivals, and what else, were made.
struct Made<S: Side> {
    keeper: S::Keeper,
    next: u32,
}

impl<S: Side> Made<S> {
    fn new(pdcp_bits: u32) -> Self {
        Self {
            keeper: S::keeper(pdcp_bits, 0, 0),
            next: 0,
        }
    }

    /// In-order packets.
    fn arrivals(mut self, count: u32) -> Self {
        for _ in 0..count {
            assert_eq!(S::arrive(&mut self.keeper, self.next, self.next & 0xFFF), 0);
            self.next += 1;
        }
        self
    }

    /// Listed runs of one number each, and a record after each.
    fn runs(mut self, count: u32) -> Self {
        for _ in 0..count {
            let number = self.next + 1;
            assert_eq!(S::arrive(&mut self.keeper, number, number & 0xFFF), 0);
            assert_eq!(S::expire(&mut self.keeper, number), 1);
            self.next += 2;
        }
        self
    }

    /// Gaps of one number each, and a record after each.
    fn gaps(mut self, count: u32) -> Self {
        for _ in 0..count {
            let number = self.next + 1;
            assert_eq!(S::arrive(&mut self.keeper, number, number & 0xFFF), 0);
            self.next += 2;
        }
        self
    }

    /// Every number so far is confirmed that has a record.
    fn confirmed(mut self) -> Self {
        for number in 0..self.next {
            S::confirm(&mut self.keeper, number);
        }
        self
    }
}

/// One call on each of some keepers that are alike, made afresh for each batch.
fn on_each<S: Side>(
    made: &Made<S>,
    keepers: usize,
    wanted: i64,
    call: impl Fn(&mut S::Keeper) -> i64 + 'static,
) -> Run {
    let clock = Clock::new();
    let fresh = made.keeper.clone();
    assert_eq!(call(&mut fresh.clone()), wanted);
    let mut all: Vec<S::Keeper> = Vec::new();
    Box::new(move |least| {
        let mut measured = Measured::default();
        while measured.calls < least {
            all.clear();
            all.resize(keepers, fresh.clone());
            let time = clock.time(|| all.iter_mut().fold(0, |sum, keeper| sum + call(keeper)));
            measured.add(time, keepers as u64);
        }
        measured
    })
}

/// Several calls on one keeper, which is as `made` before each batch.
fn in_turn<S: Side>(
    made: &Made<S>,
    calls: u32,
    call: impl Fn(&mut S::Keeper, u32) -> i64 + 'static,
) -> Run {
    let clock = Clock::new();
    let fresh = made.keeper.clone();
    let mut keeper = fresh.clone();
    for turn in 0..calls {
        assert!(call(&mut keeper, turn) >= 0, "call {turn} is refused");
    }
    Box::new(move |least| {
        let mut measured = Measured::default();
        while measured.calls < least {
            keeper.clone_from(&fresh);
            let time = clock.time(|| (0..calls).fold(0, |sum, turn| sum + call(&mut keeper, turn)));
            measured.add(time, calls.into());
        }
        measured
    })
}

/// The keeper's calls.
fn keeper<S: Side>(cases: &mut Vec<Case>) {
    let mut add = |id: &str, title: &str, goal, run| {
        cases.push(Case {
            id: id.to_owned(),
            title: title.to_owned(),
            table: "keeper",
            goal,
            run,
        });
    };
    let empty = Made::<S>::new(12);
    let full = Made::<S>::new(12).runs(250).arrivals(512 - 250 - ARRIVALS);
    for (id, title, made) in [
        (
            "arrive-empty",
            "arrival in order, 0 to 63 records, no runs",
            &empty,
        ),
        (
            "arrive-full",
            "arrival in order, 448 to 511 records, 250 runs",
            &full,
        ),
    ] {
        let next = made.next;
        let arrive =
            move |keeper: &mut S::Keeper, turn: u32| S::arrive(keeper, black_box(next + turn), 7);
        add(id, title, Some(3.0), in_turn(made, ARRIVALS, arrive));
    }
    let few = Made::<S>::new(12).arrivals(8);
    let most = Made::<S>::new(12).arrivals(262).runs(250);
    for (id, title, made) in [
        ("confirm-empty", "confirm of the oldest of 8 records", &few),
        (
            "confirm-full",
            "confirm of the oldest of 512 records, 250 runs",
            &most,
        ),
    ] {
        let confirm = |keeper: &mut S::Keeper| S::confirm(keeper, black_box(0));
        add(id, title, Some(3.0), on_each(made, KEEPERS, 0, confirm));
    }
    let many = Made::<S>::new(12).arrivals(256);
    add(
        "confirm-256",
        "confirms of 256 records, oldest first, no status between",
        None,
        in_turn(&many, 256, |keeper, turn| {
            S::confirm(keeper, black_box(turn))
        }),
    );
    let fresh = Made::<S>::new(18);
    for (id, title, ahead) in [
        ("jump-300", "arrival that jumps 300", 300_u32),
        ("jump-8000000", "arrival that jumps 8,000,000", 8_000_000),
    ] {
        let arrive = move |keeper: &mut S::Keeper| S::arrive(keeper, black_box(ahead), 7);
        add(
            id,
            title,
            None,
            on_each(&fresh, KEEPERS, i64::from(ahead) - 255, arrive),
        );
    }
    expiries::<S>(&mut add);
    statuses::<S>(&mut add);
}

/// Expiries of few gaps and of all, with as many records past base.
fn expiries<S: Side>(add: &mut impl FnMut(&str, &str, Option<f64>, Run)) {
    let made = Made::<S>::new(12).gaps(128);
    for (id, title, gaps) in [
        ("expire-1", "expiry with 1 of 128 gaps before its mark", 1),
        (
            "expire-128",
            "expiry with all of 128 gaps before its mark",
            128,
        ),
    ] {
        let mark = 2 * gaps - 1;
        let expire = move |keeper: &mut S::Keeper| S::expire(keeper, black_box(mark));
        add(
            id,
            title,
            None,
            on_each(&made, KEEPERS, i64::from(gaps), expire),
        );
    }
}

fn statuses<S: Side>(add: &mut impl FnMut(&str, &str, Option<f64>, Run)) {
    let status = |keeper: &mut S::Keeper| {
        let mut buffer = [0; 1_018];
        S::status(keeper, black_box(&mut buffer))
    };
    let empty = Made::<S>::new(12);
    add(
        "status-empty",
        "status that says nothing",
        None,
        on_each(&empty, KEEPERS, 14, status),
    );
    let all = Made::<S>::new(12).arrivals(512).confirmed();
    add(
        "status-512",
        "status that lets 512 records go",
        None,
        on_each(&all, KEEPERS, 14, status),
    );
    let runs = Made::<S>::new(12).runs(256).confirmed();
    add(
        "status-162",
        "status that carries 162 of 256 runs",
        None,
        on_each(&runs, KEEPERS, 662, status),
    );
}

/// What a status says to a ledger on which nothing was freed.
const NOTHING_FREED: Report = Report {
    highest: 262_143,
    ..REPORT
};

/// The ledger's calls: sends, the room, a status, and hostile frames.
fn ledger<S: Side>(cases: &mut Vec<Case>) {
    let mut add = |id: String, title: String, run| {
        cases.push(Case {
            id,
            title,
            table: "ledger",
            goal: None,
            run,
        });
    };
    for turns in [64, 512] {
        let title = format!("send; 0 to {} entries, with the opening", turns - 1);
        add(format!("send-{turns}"), title, sends::<S>(turns));
    }
    // The frame has all lost, so what is sent then stands behind them.
    for entries in [16, 496] {
        let title = format!("send behind {entries} lost entries that nobody took");
        add(format!("behind-{entries}"), title, behind::<S>(entries));
    }
    for entries in [0, 512] {
        let title = format!("room; {entries} entries that wait");
        add(format!("room-{entries}"), title, rooms::<S>(entries));
    }
    add(
        "accept-nothing".to_owned(),
        "accept of a status that says nothing; 512 entries".to_owned(),
        hostile::<S>(512, ledger_frame(&[])),
    );
    hostiles::<S>(&mut add);
}

/// A hostile frame against what the ledger holds and against its own length.
fn hostiles<S: Side>(add: &mut impl FnMut(String, String, Run)) {
    let octets = ledger_frame(&[Range {
        start: 0,
        end: 16_777_215,
    }]);
    for entries in [1, 64, 128, 256, 512] {
        let title = format!("one range, 0 to 16,777,215; {entries} entries");
        let run = hostile::<S>(entries, octets.clone());
        add(format!("hostile-{entries}"), title, run);
    }
    // All but the last name waiting entries.
    for count in [1, 20, 40, 80, 162] {
        let mut ranges = List::of(count).ranges;
        ranges[count as usize - 1] = Range {
            start: 600,
            end: 600,
        };
        let octets = ledger_frame(&ranges);
        let title = format!(
            "{} octets, {count} ranges, the last not waiting; 512 entries",
            octets.len()
        );
        add(format!("ranges-{count}"), title, hostile::<S>(512, octets));
    }
}

fn ledger_frame(ranges: &[Range]) -> Vec<u8> {
    status_frame(Form::Long, &NOTHING_FREED, ranges)
}

/// So many sends into a ledger that is opened for each batch, within it.
fn sends<S: Side>(turns: u32) -> Run {
    let clock = Clock::new();
    assert_eq!(S::sends(18, turns), turns * (turns - 1) / 2);
    Box::new(move |least| {
        let mut measured = Measured::default();
        while measured.calls < least {
            let time = clock.time(|| S::sends(18, black_box(turns)));
            measured.add(time, turns.into());
        }
        measured
    })
}

/// Sends behind so many lost entries.
fn behind<S: Side>(entries: u32) -> Run {
    let octets = ledger_frame(&[Range {
        start: 0,
        end: entries - 1,
    }]);
    let first: u32 = (entries..entries + 16).sum();
    assert_eq!(S::sends_behind(18, entries, 16, &octets), first);
    once_filled(move |turns| S::sends_behind(18, entries, turns, &octets))
}

/// The room over so many entries that wait.
fn rooms<S: Side>(entries: u32) -> Run {
    let octets = ledger_frame(&[]);
    // Each answer raises the desired size, and so the next one.
    let next = |room: u32| room + 1 + room % 2;
    let first = NOTHING_FREED.desired - entries * PDU;
    let sum = first + next(first) + next(next(first));
    assert_eq!(S::rooms(18, entries, 3, &octets), sum);
    once_filled(move |turns| S::rooms(18, entries, turns, &octets))
}

/// Frames refused by a ledger that was filled before.
fn hostile<S: Side>(entries: u32, octets: Vec<u8>) -> Run {
    once_filled(move |turns| S::accepts(18, entries, turns, &octets))
}

/// So many turns on a ledger that was filled before; filling it is taken off.
fn once_filled(calls: impl Fn(u32) -> u32 + 'static) -> Run {
    let clock = Clock::new();
    Box::new(move |least| {
        let turns = u32::try_from(least).unwrap_or(u32::MAX);
        let time = |turns: u32| clock.time(|| calls(black_box(turns)));
        let filling = (0..4).map(|_| time(0)).min().unwrap_or(Duration::ZERO);
        Measured {
            time: time(turns).saturating_sub(filling),
            calls: turns.into(),
        }
    })
}
