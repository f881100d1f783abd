//! Packets and statuses as they should be, over a bad road.

use crate::rng::Rng;
use crate::script::Script;

/// How bad the road is, in percent, and how slow the ends are.
struct Road {
    lost: u32,
    copied: u32,
    overtaken: u32,
    confirmed: u32,
    reported: u32,
    delivered: u32,
    taken: u32,
    expired: u32,
    burst: u32,
}

impl Road {
    fn some(rng: &mut Rng) -> Self {
        Self {
            lost: rng.pick(&[0, 1, 10, 30, 50]),
            copied: rng.pick(&[0, 2, 20]),
            overtaken: rng.pick(&[0, 5, 40]),
            confirmed: rng.pick(&[50, 95, 100]),
            reported: rng.pick(&[10, 50, 100]),
            delivered: rng.pick(&[20, 60, 100]),
            taken: rng.pick(&[0, 30, 100]),
            expired: rng.pick(&[5, 30]),
            burst: rng.pick(&[1, 3, 10, 40, 150]),
        }
    }
}

/// Rounds of sending, arriving, confirming and reporting.
pub(super) fn traffic(script: &mut Script) {
    let road = Road::some(&mut script.rng);
    let calls = script.len() + script.rng.place(1_000) + 100;
    while script.len() < calls {
        round(script, &road);
    }
}

/// Enough rounds, with few losses, for the short form's numbers to turn.
pub(super) fn turn(script: &mut Script) {
    let road = Road {
        lost: 1,
        copied: 1,
        overtaken: 1,
        confirmed: 100,
        reported: 90,
        delivered: 90,
        taken: 90,
        expired: 30,
        burst: 150,
    };
    let first = script.ends.ledger.next_number();
    let circle = script.ends.bearer.numbers();
    let mut sent = 0;
    let mut last = first;
    while sent < circle.size() {
        round(script, &road);
        let next = script.ends.ledger.next_number();
        sent += circle.forward(last, next);
        last = next;
    }
}

fn round(script: &mut Script, road: &Road) {
    sends(script, road);
    arrivals(script, road);
    if script.rng.once_in(20) {
        script.arrive_opposite();
    }
    script.start_timer();
    if script.rng.chance(road.expired) {
        script.end_timer();
    }
    if script.rng.once_in(30) {
        script.expire_somewhere();
    }
    confirms(script, road);
    if script.rng.chance(road.reported) {
        let room = if script.rng.once_in(8) {
            script.rng.place(700)
        } else {
            1_018
        };
        script.status(false, room);
    }
    if script.rng.chance(road.delivered) {
        script.deliver();
        if script.rng.chance(20) {
            script.ledger();
        }
        script.room();
    }
    if script.rng.chance(road.taken) {
        for _ in 0..script.rng.within(1..30) {
            script.take();
        }
        if script.rng.chance(20) {
            script.ledger();
        }
    }
}

fn sends(script: &mut Script, road: &Road) {
    if script.ends.ledger.oldest_waiting().is_none() && script.rng.once_in(4) {
        script.send_after_rest();
    }
    for _ in 0..script.rng.within(1..road.burst + 1) {
        let skip = if script.rng.once_in(40) {
            script.rng.within(0..20)
        } else {
            0
        };
        script.send_next(skip);
        if script.rng.once_in(50) {
            script.send_next_at_limit();
        }
    }
    if script.rng.chance(30) {
        script.room();
    }
}

fn arrivals(script: &mut Script, road: &Road) {
    while let Some(packet) = script.ends.under_way.pop_front() {
        if script.rng.chance(road.lost) {
            continue;
        }
        if script.rng.chance(road.overtaken) && !script.ends.under_way.is_empty() {
            let place = script.rng.place(script.ends.under_way.len()) + 1;
            script.ends.under_way.insert(place, packet);
            if script.rng.chance(90) {
                continue;
            }
        }
        script.arrive(packet.0, packet.1);
        if script.rng.chance(road.copied) {
            script.arrive(packet.0, packet.1);
        }
    }
}

fn confirms(script: &mut Script, road: &Road) {
    let ends = &script.ends;
    let records = ends.keeper.records();
    let open: Vec<u32> = records
        .filter(|record| !record.confirmed)
        .map(|record| record.number)
        .filter(|&number| ends.is_before_base(number))
        .collect();
    for number in open {
        if script.rng.chance(road.confirmed) {
            script.confirm(number);
        }
        if script.rng.once_in(50) {
            script.confirm(number);
        }
    }
}
