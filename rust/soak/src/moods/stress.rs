//! Stores filled to their limits and beyond, the far side of the circle, both
//! sides of the limits of send, of the room and of marks.

use super::hostile;
use crate::script::Script;
use x2u::Form;
use x2u::frame::MOST_RANGES;
use x2u::ledger::MOST_ENTRIES;

/// Every second number arrives, until no more runs can be listed; then
/// statuses, in buffers long enough and not.
pub(super) fn runs(script: &mut Script) {
    if script.rng.chance(30) {
        around_a_frame(script);
    } else {
        let runs = script.rng.pick(&[100, 250, 300, 350, 420]);
        for _ in 0..runs {
            let ahead = script.rng.pick(&[1, 1, 1, 1, 2, 3, 256, 258]);
            script.arrive_ahead(ahead);
            if script.rng.chance(60) {
                script.expire_all();
            }
        }
    }
    // With all confirmed, only a run left out holds the highest back.
    let percent = script.rng.pick(&[90, 100]);
    confirm_some(script, percent);
    for _ in 0..script.rng.within(1..6) {
        short_rooms(script);
        script.status(false, 1_018);
        script.expire_somewhere();
    }
}

/// As many runs as a frame carries, or one or two less or more.
fn around_a_frame(script: &mut Script) {
    let wanted = script.rng.place(5) + MOST_RANGES - 2;
    // The stores may be full, or the end closed.
    for _ in 0..wanted {
        if script.ends.keeper.listed_runs().len() < wanted {
            script.arrive_ahead(1);
            script.expire_all();
        }
    }
}

/// Statuses that are mostly refused: final too early, or in too short a buffer.
fn short_rooms(script: &mut Script) {
    for _ in 0..script.rng.within(0..15) {
        let runs = script.ends.keeper.listed_runs().len();
        let is_final = runs > 162 && script.rng.chance(50);
        let length = match script.ends.bearer.form {
            Form::Short => 12 + 4 * runs.min(162),
            Form::Long => 13 + 6 * runs.min(162),
        };
        let room = match script.rng.within(0..3) {
            0 => script.rng.place(1_018),
            _ => length - 2 + script.rng.place(6),
        };
        script.status(is_final, room);
    }
}

/// In-order packets that nobody reports, until no more records are held.
pub(super) fn records(script: &mut Script) {
    for _ in 0..script.rng.pick(&[200, 512, 560]) {
        let ahead = if script.rng.once_in(12) {
            script.rng.within(0..6)
        } else {
            0
        };
        script.arrive_ahead(ahead);
    }
    let percent = script.rng.pick(&[20, 100]);
    confirm_some(script, percent);
    if script.rng.chance(70) {
        script.status(false, 1_018);
    }
}

fn confirm_some(script: &mut Script, percent: u32) {
    let numbers: Vec<u32> = script
        .ends
        .keeper
        .records()
        .map(|record| record.number)
        .collect();
    for number in numbers {
        if script.rng.chance(percent) {
            script.confirm(number);
        }
    }
}

/// Arrivals around the window, opposite base, near there and around half the
/// circle from the oldest number held.
pub(super) fn jumps(script: &mut Script) {
    for _ in 0..script.rng.within(5..60) {
        let half = script.ends.bearer.numbers().half();
        let near = script.rng.within(0..5);
        let ahead = match script.rng.within(0..7) {
            0 => 254 + near,
            1 => half,
            2 => half - 2 + near,
            3 => (half - 2 + near).saturating_sub(floor_to_base(script)),
            4 => script.rng.within(0..600),
            5 => script.rng.within(0..half),
            _ => script.rng.within(0..2 * half),
        };
        script.arrive_ahead(ahead);
        match script.rng.within(0..9) {
            0 => script.expire_all(),
            1 => script.expire_somewhere(),
            2 => script.status(false, 1_018),
            3 => confirm_some(script, 100),
            _ => {}
        }
    }
}

/// Gaps, and expiries with marks of every kind: those of a host's timer, which
/// more gaps may follow while it runs, and any others.
pub(super) fn marks(script: &mut Script) {
    for _ in 0..script.rng.within(10..60) {
        for _ in 0..script.rng.pick(&[0, 1, 3, 10]) {
            let ahead = script.rng.pick(&[0, 0, 1, 1, 2, 3, 5, 9, 30, 200]);
            script.arrive_ahead(ahead);
        }
        match script.rng.within(0..8) {
            0 => script.start_timer(),
            1 => {
                script.end_timer();
                script.start_timer();
            }
            2 => script.expire_all(),
            _ => script.expire_somewhere(),
        }
        if script.rng.once_in(10) {
            confirm_some(script, 100);
            script.status(false, 1_018);
        }
    }
}

fn floor_to_base(script: &Script) -> u32 {
    let (circle, ends) = (script.ends.bearer.numbers(), &script.ends);
    let run = ends.keeper.listed_runs().first().map(|run| run.start);
    let record = ends.keeper.records().next().map(|record| record.number);
    run.into_iter()
        .chain(record)
        .filter(|&number| ends.is_before_base(number))
        .map(|number| circle.forward(number, ends.keeper.base()))
        .max()
        .unwrap_or(0)
}

/// Sends until the ledger is full, with PDCP numbers at the edge of their
/// order.
pub(super) fn ledger(script: &mut Script) {
    for _ in 0..script.rng.pick(&[100, 500, 530]) {
        let skip = if script.rng.once_in(60) {
            script.rng.within(0..40)
        } else {
            0
        };
        script.send_next(skip);
    }
    for _ in 0..5 {
        script.send_next_at_limit();
    }
    edges(script);
}

/// The largest PDUs, one more than the ledger holds: as much waits as ever can.
pub(super) fn largest(script: &mut Script) {
    for _ in 0..=MOST_ENTRIES {
        script.send_next_largest();
    }
    script.ledger();
}

/// Sends at the limits of the PDCP order and of sizes, and anywhere.
fn edges(script: &mut Script) {
    for _ in 0..script.rng.within(0..12) {
        if script.rng.chance(80) {
            script.send_at_edge();
        } else if script.rng.chance(30) {
            script.send_next_at_limit();
        } else {
            let pdcp = script.rng.word() % script.ends.bearer.pdcp.size();
            script.send(pdcp);
        }
    }
}

/// A bearer that rests on the master's own radio, mostly while nothing waits;
/// what was lost before may stand in front of what is sent then, and behind it.
pub(super) fn rests(script: &mut Script) {
    for _ in 0..script.rng.within(3..20) {
        for _ in 0..script.rng.pick(&[1, 2, 10, 40]) {
            script.send_next(0);
        }
        edges(script);
        if script.rng.chance(40) {
            hostile::losses(script, false);
            edges(script);
        }
        if script.rng.chance(80) {
            hostile::losses(script, true);
        }
        if script.rng.chance(20) {
            script.take();
        }
        script.send_after_rest();
    }
}

/// PDUs at the limits of their size and around the room, which is asked for
/// after nearly every call, and the sum of what waits after each few.
pub(super) fn sizes(script: &mut Script) {
    hostile::losses(script, false);
    for _ in 0..script.rng.within(5..40) {
        match script.rng.within(0..9) {
            0..4 => sized_sends(script),
            4 => edges(script),
            5 => hostile::losses(script, false),
            6 => hostile::losses(script, true),
            7 => hostile::frame(script),
            _ => script.take(),
        }
        script.ledger();
        script.room();
    }
}

fn sized_sends(script: &mut Script) {
    for _ in 0..script.rng.pick(&[1, 1, 3, 10]) {
        if script.rng.chance(20) {
            script.send_next_at_limit();
        } else {
            script.send_next(0);
        }
        script.room();
    }
}
