//! Frames, numbers and lines from somebody who means harm.

use crate::frames;
use crate::order::last_left;
use crate::script::Script;
use crate::sizes;
use x2u::Form;
use x2u::frame::{MOST_RANGES, Range, Report};
use x2u::ledger::{Entry, Fate};

/// Statuses that are nearly right for the ledger as it stands, and others.
pub(super) fn frames(script: &mut Script) {
    for _ in 0..script.rng.within(50..300) {
        if script.rng.chance(60) {
            script.send_next(0);
        }
        frame(script);
        if script.rng.chance(30) {
            script.room();
        }
        if script.rng.chance(50) {
            script.ledger();
        }
        if script.rng.chance(20) {
            script.take();
            script.ledger();
        }
    }
}

/// A frame that reaches the master, mostly a status that is nearly right.
pub(super) fn frame(script: &mut Script) {
    let octets = match script.rng.within(0..12) {
        0..2 => frames::any(&mut script.rng),
        2 => other_form(script),
        _ => aimed(script),
    };
    script.accept(&octets);
}

/// A turn of the X2-U numbers while some lost entries stay where they are: in
/// the end they bear the numbers of waiting ones.
pub(super) fn forgotten_losses(script: &mut Script) {
    for _ in 0..40 {
        script.send_next(0);
    }
    let entries: Vec<Entry> = script.ends.ledger.entries().copied().collect();
    let lost = [&entries[3..5], &entries[9..30]].map(|some| Range {
        start: some[0].number,
        end: some[some.len() - 1].number,
    });
    let octets = status(script, entries[39].pdcp, false, &lost);
    script.accept(&octets);
    let mut sent = 40;
    while sent < script.ends.bearer.numbers().size() + 20 {
        let burst = script.rng.within(1..200);
        for _ in 0..burst {
            script.send_next(0);
        }
        sent += burst;
        let octets = status(script, script.ends.ledger.last_sent(), false, &[]);
        script.accept(&octets);
    }
}

/// A frame that is right but for its type.
fn other_form(script: &mut Script) -> Vec<u8> {
    let form = form_of(script);
    if script.rng.chance(50) {
        return frames::data(form, script.ends.ledger.next_number());
    }
    let other = match form {
        Form::Short => Form::Long,
        Form::Long => Form::Short,
    };
    let report = Report {
        highest: script.ends.ledger.highest().min(32_767),
        desired: script.rng.word(),
        minimum: 1,
        is_final: false,
    };
    frames::status(other, &report, &[])
}

fn form_of(script: &Script) -> Form {
    script.ends.bearer.form
}

/// A status of this bearer's form, which may want as much as it leaves waiting.
fn status(script: &mut Script, highest: u32, is_final: bool, ranges: &[Range]) -> Vec<u8> {
    let form = form_of(script);
    let mut report = Report {
        highest,
        desired: 0,
        minimum: script.rng.word(),
        is_final,
    };
    let octets = frames::status(form, &report, ranges);
    let left = sizes::left(&script.ends.ledger, &octets);
    report.desired = sizes::desired(&mut script.rng, left);
    frames::status(form, &report, ranges)
}

/// A status that names some of what waits lost. All the rest is freed, or none.
pub(super) fn losses(script: &mut Script, frees_rest: bool) {
    let entries: Vec<Entry> = script.ends.ledger.entries().copied().collect();
    let named = script.rng.pick(&[0, 10, 50, 100]);
    let ranges = waiting_ranges(script, &entries, named);
    let ledger = &script.ends.ledger;
    let highest = if frees_rest {
        last_left(script.ends.bearer.numbers(), ledger, &ranges)
    } else {
        ledger.highest()
    };
    let octets = status(script, highest, false, &ranges);
    script.accept(&octets);
}

/// A status that the master accepts, or would but for one thing.
fn aimed(script: &mut Script) -> Vec<u8> {
    let entries: Vec<Entry> = script.ends.ledger.entries().copied().collect();
    let named = script.rng.pick(&[0, 0, 3, 20, 80]);
    let mut ranges = waiting_ranges(script, &entries, named);
    if script.rng.chance(30) && !ranges.is_empty() {
        spoil(script, &mut ranges, &entries);
    }
    let highest = match script.rng.within(0..10) {
        0 => script.rng.word() % (1 << 15),
        1..4 => script.ends.ledger.highest(),
        _ if entries.is_empty() => script.ends.ledger.highest(),
        _ => script.rng.pick(&entries).pdcp,
    };
    let is_final = script.rng.once_in(400);
    let mut octets = status(script, highest, is_final, &ranges);
    match script.rng.within(0..20) {
        0..4 => frames::damage(&mut script.rng, &mut octets),
        4..7 => frames::extend(&mut script.rng, &mut octets),
        _ => {}
    }
    octets
}

/// So many in 100 of the waiting entries, as ranges.
fn waiting_ranges(script: &mut Script, entries: &[Entry], named: u32) -> Vec<Range> {
    let circle = script.ends.bearer.numbers();
    let mut ranges: Vec<Range> = Vec::new();
    for entry in entries.iter().filter(|entry| entry.fate == Fate::Waiting) {
        if !script.rng.chance(named) {
            continue;
        }
        match ranges.last_mut() {
            Some(last) if circle.step(last.end, 1) == entry.number => last.end = entry.number,
            _ => ranges.push(Range {
                start: entry.number,
                end: entry.number,
            }),
        }
    }
    ranges.truncate(MOST_RANGES);
    ranges
}

fn spoil(script: &mut Script, ranges: &mut Vec<Range>, entries: &[Entry]) {
    let circle = script.ends.bearer.numbers();
    let place = script.rng.place(ranges.len());
    let other = script.rng.place(ranges.len());
    match script.rng.within(0..7) {
        0 => ranges.swap(place, other),
        1 => ranges[place] = ranges[other],
        2 => ranges[place].end = circle.step(ranges[place].end, 1),
        3 => ranges[place].start = circle.before(ranges[place].start),
        // Nearly the whole circle.
        4 => ranges[place].end = circle.before(ranges[place].start),
        5 => {
            // An entry that is lost already, or waits elsewhere in the order.
            let number = script.rng.pick(entries).number;
            ranges[place] = Range {
                start: number,
                end: number,
            };
        }
        _ => {
            // A range cut in two is still right.
            let whole = ranges[place];
            if whole.start != whole.end && ranges.len() < MOST_RANGES {
                ranges[place].end = whole.start;
                let rest = Range {
                    start: circle.step(whole.start, 1),
                    end: whole.end,
                };
                ranges.insert(place + 1, rest);
            }
        }
    }
}

/// Numbers off their circles, far away, opposite base, or not confirmable.
pub(super) fn numbers(script: &mut Script) {
    for _ in 0..script.rng.within(20..150) {
        let number = number(script);
        let pdcp = match script.rng.within(0..2) {
            0 => number ^ script.rng.within(0..4),
            _ => script.rng.within(0..4_096),
        };
        match script.rng.within(0..9) {
            0 => script.bad_open(),
            1 => script.arrive(number, pdcp),
            2 => script.confirm(number),
            3 => script.send(pdcp),
            4 => script.send_at_limit(pdcp),
            5 => script.send_at_edge(),
            6 => script.room(),
            7 => script.expire(number),
            _ => script.take(),
        }
    }
}

fn number(script: &mut Script) -> u32 {
    let bearer = script.ends.bearer;
    let (circle, base) = (bearer.numbers(), script.ends.keeper.base());
    match script.rng.within(0..9) {
        0 => circle.size(),
        1 => circle.size() - 1,
        2 => bearer.pdcp.size(),
        3 => bearer.pdcp.size() - 1,
        4 => u32::MAX,
        5 => script.rng.word(),
        6 => script.rng.word() % circle.size(),
        7 => circle.step(base, circle.half()),
        _ => circle.step(base, circle.size() - script.rng.within(0..600)),
    }
}

/// Lines that are no calls, or just so.
pub(super) fn lines(script: &mut Script) {
    for _ in 0..script.rng.within(3..20) {
        let mut line = script.rng.pick(&LINES).to_vec();
        match script.rng.within(0..4) {
            0 => {}
            1 => {
                let place = script.rng.place(line.len() + 1);
                line.insert(place, script.rng.pick(b"\t 0\r+-.x\0"));
            }
            2 => {
                let place = script.rng.place(line.len() + 1);
                line.truncate(place);
            }
            _ => frames::blemish(&mut script.rng, &mut line),
        }
        // The script can't follow what these might do, so they may do nothing.
        if !acts(&line) {
            script.raw(&line);
        }
    }
}

/// Readable ones among these ask, or are refused whatever the bearer.
const LINES: [&[u8]; 24] = [
    b"",
    b"keeper",
    b"ledger",
    b"keeper\t",
    b"expire",
    b"expire\t0\t0",
    b"expire\t4294967295",
    b"take\ttake",
    b"OPEN\t12\t0\t0",
    b"open\t12\t0\t4294967296",
    b"open\t0000000013\t0\t0",
    b"arrive\t4294967295\t4294967295",
    b"confirm\t4294967295",
    b"room",
    b"room\t0",
    b"send\t0",
    b"send\t4294967295",
    b"send\t4294967295\t1",
    b"send\t4294967295\t4294967295",
    b"send\t4294967295\t4294967296",
    b"send\t0\t00000000000",
    b"status\t0\t0\t2\t1018",
    b"status\t0\t0\t0\t2049",
    b"accept\t40000000000g",
];

/// Whether a line might change an end.
fn acts(line: &[u8]) -> bool {
    let mut room = [0; x2u::frame::LONGEST];
    match programs::replay::Call::of_line(line, &mut room) {
        None => false,
        Some(call) => {
            use programs::replay::Call::{
                Accept, Arrive, Confirm, Expire, Keeper, Ledger, Open, Room, Send,
            };
            let numbers = match call {
                Keeper | Ledger | Room => return false,
                Open([bits, ..]) => return matches!(bits, 12 | 15 | 18),
                Accept(octets) => return octets.len() >= 14,
                Arrive([number, _]) | Expire(number) | Confirm(number) | Send([number, _]) => {
                    number
                }
                _ => return true,
            };
            numbers < 1 << 24
        }
    }
}

/// A final status, delivered or not, and calls on closed ends.
pub(super) fn closing(script: &mut Script) {
    script.status(true, 1_018);
    while !script.ends.frames.is_empty() && script.rng.chance(90) {
        script.deliver();
    }
    if script.rng.chance(50) {
        // The master is closed even if no final frame of the keeper's reached it.
        let highest = script.ends.ledger.highest();
        let last = status(script, highest, true, &[]);
        script.accept(&last);
    }
    script.room();
    closed(script);
    let held = script.ends.ledger.entries().count();
    for _ in 0..script.rng.place(held + 4) {
        if script.rng.chance(50) {
            watched_take(script);
        } else {
            script.take();
        }
    }
    script.show();
}

/// A take, with the master shown before and after it, and the room.
fn watched_take(script: &mut Script) {
    script.ledger();
    script.take();
    script.ledger();
    script.room();
}

/// Calls that a closed end refuses.
fn closed(script: &mut Script) {
    for _ in 0..script.rng.within(5..15) {
        let number = number(script);
        match script.rng.within(0..9) {
            0 => script.arrive_ahead(0),
            1 => script.expire_somewhere(),
            2 => script.expire(number),
            3 => script.confirm(number),
            4 => {
                let is_final = script.rng.chance(50);
                script.status(is_final, 1_018);
            }
            5 => script.send_next(0),
            6 => script.send_next_at_limit(),
            7 => {
                let octets = frames::any(&mut script.rng);
                script.accept(&octets);
            }
            _ => script.arrive(number, number),
        }
    }
}
