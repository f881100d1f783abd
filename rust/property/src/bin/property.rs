//! Runs every property on the product.

use model::Opening;
use model::demand::Tally;
use property::bearer::{Bearer, Step, openings, openings_of, steps};
use property::replay::Answered;
use property::scripts::{Aim, Script};
use property::suite::{Suite, Verdict};
use property::trace::Trace;
use property::{codec, frames, keeper, replay, rested, scripts};
use proptest::collection::vec;
use proptest::prelude::*;
use soak::marks::Marks;
use soak::options::Options;
use soak::order::Sends;
use soak::sizes::Sizes;
use soak::sums::Sums;
use soak::table::Table;
use std::cell::{Cell, RefCell};
use std::path::{Path, PathBuf};
use std::process::ExitCode;

const USAGE: &str = "\
usage: property --library REPLAY --product REPLAY [--shipped REPLAY]
                [--frames N] [--calls N] [--shipped-calls N] [--seed N]

Tries every property: the product's codec and keeper through the C boundary on
at least N frames (1000000), and its REPLAY beside the library's on at least N
calls (1000000); the shipped build of it, if it is given, on N more (100000).
A case that fails is shrunk and shown. Ends with how many properties held and
how many did not. Exit code: 0 all held, 1 some did not, 2 wrong use.";

/// About as many lines make a script.
const SCRIPT: usize = 4_000;

fn main() -> ExitCode {
    match run() {
        Ok(true) => ExitCode::SUCCESS,
        Ok(false) => ExitCode::FAILURE,
        Err(trouble) => {
            eprintln!("{trouble}\n\n{USAGE}");
            ExitCode::from(2)
        }
    }
}

fn run() -> Result<bool, String> {
    let known = [
        "library",
        "product",
        "shipped",
        "frames",
        "calls",
        "shipped-calls",
        "seed",
    ];
    let options = Options::of(std::env::args().skip(1), &known, &[])?;
    let program = |name: &str| -> Result<PathBuf, String> { options.value(name, PathBuf::new()) };
    let [library, product, shipped] = [
        program("library")?,
        program("product")?,
        program("shipped")?,
    ];
    for (name, path) in [("library", &library), ("product", &product)] {
        if !path.exists() {
            return Err(format!("--{name} must be a program"));
        }
    }
    let least_frames: u64 = options.value("frames", 1_000_000)?;
    let least_calls: u64 = options.value("calls", 1_000_000)?;
    let shipped_calls: u64 = options.value("shipped-calls", 100_000)?;
    let mut suite = Suite::new(options.value("seed", 1)?);

    codecs(&mut suite, least_frames);
    keepers(&mut suite, least_calls);
    keepers_on_garbage(&mut suite);
    let programs = [library.as_path(), product.as_path()];
    replays(&mut suite, "replay", programs, least_calls, true);
    demand_3(&mut suite, programs, (least_calls / 2_000) as u32 + 1);
    if shipped.as_os_str().is_empty() {
        println!("\nno shipped build was given");
    } else {
        let programs = [library.as_path(), shipped.as_path()];
        replays(&mut suite, "shipped replay", programs, shipped_calls, false);
    }
    println!("{} passed, {} failed", suite.passed, suite.failed);
    Ok(suite.failed == 0)
}

/// Frames read and written.
fn codecs(suite: &mut Suite, least: u64) {
    let (mut read, mut write) = (Table::default(), Table::default());
    // Tenths of all frames, rounded up.
    let part = |tenths: u64| (least * tenths).div_ceil(10) as u32;
    suite.property(
        "read: random octets",
        part(2),
        &frames::random(),
        |octets| codec::reads_alike(octets, &mut read),
    );
    suite.property("read: good frames", part(2), &frames::good(), |layout| {
        codec::reads_alike(&layout.octets(), &mut read)
    });
    suite.property(
        "read: spoilt frames",
        part(3),
        &frames::hostile(),
        |layout| codec::reads_alike(&layout.octets(), &mut read),
    );
    let cursors = (
        frames::any_frame(),
        any::<boundary::Cursor>().prop_map(small),
    );
    suite.property(
        "read: a walk begun anywhere",
        part(1),
        &cursors,
        codec::walks_anywhere,
    );
    suite.property(
        "write: orders of all kinds",
        part(3),
        &codec::orders(),
        |order| codec::writes_alike(order, &mut write),
    );
    suite.property(
        "what is written is read",
        part(1),
        &frames::plain(),
        codec::written_is_read,
    );
    suite.property(
        "what is read is written",
        part(1),
        &frames::plain(),
        codec::read_is_written,
    );
    println!(
        "frames that both read: {}; frames that both were asked to write: {}",
        2 * part(2) + part(3),
        part(3)
    );
    suite.covers("Reading", &read, &codec::READ);
    suite.covers("Writing", &write, &codec::WRITE);
}

/// A cursor that may lie in a frame.
fn small([long, place, left]: boundary::Cursor) -> boundary::Cursor {
    let place = if place % 8 == 0 { place } else { place % 1_024 };
    let left = if left % 8 == 0 { left } else { left % 200 };
    [long % 3, place, left]
}

/// The keeper through the boundary.
fn keepers(suite: &mut Suite, least: u64) {
    let mut met = keeper::Met::default();
    let mut alike = |script: &Script| keeper::alike(script, &mut met);
    suite.property(
        "keeper: calls that aim at nothing",
        300,
        &scripts::random(20..400),
        &mut alike,
    );
    suite.property("keeper: a turn of the numbers", 1, &Aim::Turn, &mut alike);
    // About half of a script's lines are the keeper's.
    let cases = least.div_ceil(SCRIPT as u64 / 2) as u32;
    suite.property(
        "keeper: aimed calls",
        cases,
        &Aim::Moods(SCRIPT),
        &mut alike,
    );
    suite.property(
        "keeper: marks of every kind",
        cases.div_ceil(10),
        &Aim::Marks,
        &mut alike,
    );
    println!("keeper calls compared: {}", met.calls);
    suite.check("keeper: enough calls", met.calls >= least);
    println!("keeper, expiries: {}", met.marks);
    suite.check("keeper: marks of each kind", met.marks.least() > 0);
    suite.covers("Keeper through the boundary", &met.table, &keeper::REFUSALS);
}

/// The keeper on states that no call left behind.
fn keepers_on_garbage(suite: &mut Suite) {
    let mut calls = 0;
    suite.property(
        "keeper: states of garbage",
        20_000,
        &keeper::garbage(),
        |case| {
            calls += keeper::survives(case)?;
            Ok(())
        },
    );
    println!("keeper calls on garbage: {calls}");
}

/// Both ends through two makes of `replay`; `long` scripts too, in which the
/// numbers turn.
fn replays(suite: &mut Suite, name: &str, programs: [&Path; 2], least: u64, long: bool) {
    let mut answered = Answered::default();
    let lines = Cell::new(0_u64);
    let mut alike = |script: &Script| {
        replay::alike(programs, script, &mut answered)?;
        lines.set(lines.get() + script.0.len() as u64);
        Ok(())
    };
    let titled = |what: &str| format!("{name}: {what}");
    if long {
        suite.property(&titled("a turn of the numbers"), 1, &Aim::Turn, &mut alike);
        suite.property(&titled("forgotten losses"), 1, &Aim::Forgotten, &mut alike);
    }
    let cases = least.div_ceil(20_000) as u32;
    suite.property(&titled("rests"), cases, &Aim::Rests, &mut alike);
    suite.property(&titled("sizes and room"), cases, &Aim::Sizes, &mut alike);
    suite.property(&titled("marks"), cases, &Aim::Marks, &mut alike);
    suite.property(
        &titled("lines that aim at nothing"),
        least.div_ceil(50_000) as u32,
        &scripts::random(500..2_000),
        &mut alike,
    );
    let left = least.saturating_sub(lines.get());
    suite.property(
        &titled("aimed scripts"),
        left.div_ceil(SCRIPT as u64) as u32 + 1,
        &Aim::Moods(SCRIPT),
        &mut alike,
    );
    println!("{name}: calls compared: {}", lines.get());
    suite.check(&titled("enough calls"), lines.get() >= least);
    looked_at(suite, name, answered.sums);
    suite.covers(name, &answered.table, &codec::all_numbers());
}

/// The sum of what waits has to be looked at behind all that moves it, and behind
/// what must not.
fn looked_at(suite: &mut Suite, name: &str, sums: Sums) {
    println!("{name}, looks at the sum of what waits: {sums}");
    suite.check(
        &format!("{name}: the sum is looked at behind each kind of call"),
        sums.least() > 0,
    );
}

/// Half a circle of packets is sent, and the first comes again: within demand
/// 3's bounds, and answered with 18.
fn opposite_copy(
    opening: Opening,
    told: impl Fn(&Trace) -> Result<Vec<Vec<u8>>, String>,
) -> Verdict {
    let mut bearer = Bearer::new(opening);
    bearer.flow(opening.numbers() as usize / 2)?;
    let place = bearer.trace.lines.len();
    bearer.make(&Step::ArriveOldest)?;
    let answers = told(&bearer.trace)?;
    match &answers[place][..] {
        b"refused\t18" => Ok(()),
        other => Err(format!("the copy is answered {}", other.escape_ascii())),
    }
}

/// Demand 3 on the product's own traces.
fn demand_3(suite: &mut Suite, programs: [&Path; 2], cases: u32) {
    let sum = RefCell::new(Tally::default());
    let calls = Cell::new(0);
    let met = RefCell::new((Sends::default(), Sizes::default(), Marks::default()));
    let sums = RefCell::new(Sums::default());
    let told = |trace: &Trace| {
        let answers = replay::answers_alike(programs, &Script(trace.lines.clone()))?;
        let tally = trace.check(&answers)?;
        calls.set(calls.get() + answers.len());
        sums.borrow_mut().see_all(&trace.lines, &answers);
        sum.borrow_mut().freed += tally.freed;
        sum.borrow_mut().reported += tally.reported;
        Ok(answers)
    };
    let bearers = (openings(6), vec(steps(), 1..120));
    suite.property("demand 3 on traces", cases, &bearers, |(opening, steps)| {
        let mut bearer = Bearer::new(*opening);
        for step in steps {
            bearer.make(step)?;
        }
        met.borrow_mut().0.add(bearer.sends);
        met.borrow_mut().1.add(bearer.sizes);
        met.borrow_mut().2.add(bearer.marks);
        told(&bearer.trace).map(|_| ())
    });
    for bits in [12, 15, 18] {
        let name = format!("demand 3, a bearer that rests, L {bits}");
        suite.property(&name, 3, &openings_of(Just(bits)), |opening| {
            told(&rested::play(*opening)?.trace).map(|_| ())
        });
    }
    let name = "demand 3, a copy opposite base";
    suite.property(name, 1, &openings(0), |opening| {
        opposite_copy(*opening, told)
    });
    println!("demand 3: {} calls", calls.get());
    looked_at(suite, "demand 3", sums.into_inner());
    met_on_traces(suite, sum.into_inner(), met.into_inner());
}

/// What the traces have to have met.
fn met_on_traces(suite: &mut Suite, sum: Tally, (sends, sizes, marks): (Sends, Sizes, Marks)) {
    let Tally {
        freed, reported, ..
    } = sum;
    println!("demand 3: {freed} packets freed, {reported} reported lost");
    suite.check(
        "demand 3: packets were freed and lost",
        freed > 0 && reported > 0,
    );
    println!("demand 3 on traces, sends: {sends}");
    suite.check(
        "demand 3: sends after rests, and at limits",
        sends.least() > 0,
    );
    println!("demand 3 on traces, sizes: {sizes}");
    suite.check("demand 3: sizes and room at limits", sizes.least() > 0);
    println!("demand 3 on traces, expiries: {marks}");
    suite.check("demand 3: marks of each kind", marks.least_in_bounds() > 0);
}
