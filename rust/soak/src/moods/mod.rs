//! What a script does: a mood is a stretch of calls with one aim.

mod hostile;
mod stress;
mod traffic;

use crate::rng::Rng;
use crate::script::Script;

/// A script of a few moods on one bearer, of some hundreds to some thousands
/// of calls.
#[must_use]
pub fn script(rng: Rng) -> Script {
    in_moods(Script::new(rng))
}

/// Goes on with a script through a few moods.
#[must_use]
pub fn in_moods(mut script: Script) -> Script {
    for round in 0..script.rng.within(2..7) {
        match script.rng.within(0..31) {
            0..3 => stress::runs(&mut script),
            3 => stress::records(&mut script),
            4..6 => stress::jumps(&mut script),
            6 => stress::ledger(&mut script),
            7..12 => hostile::frames(&mut script),
            12..14 => hostile::numbers(&mut script),
            14..16 => hostile::lines(&mut script),
            // Not at once, so that most calls meet an open bearer.
            16 if round > 1 => hostile::closing(&mut script),
            17..20 => stress::rests(&mut script),
            20..23 => stress::sizes(&mut script),
            23..26 => stress::marks(&mut script),
            _ => traffic::traffic(&mut script),
        }
        if script.rng.chance(30) {
            script.show();
        }
    }
    if script.rng.chance(40) {
        hostile::closing(&mut script);
    }
    script.show();
    script
}

/// A script of tens of thousands of calls in which the short form's numbers
/// turn: at both ends, or only at a master whose lost entries nobody takes.
#[must_use]
pub fn long_script(rng: Rng, both_ends: bool) -> Script {
    let bits = if both_ends { 15 } else { 12 };
    let mut script = Script::with_bits(rng, bits);
    if both_ends {
        traffic::turn(&mut script);
    } else {
        hostile::forgotten_losses(&mut script);
    }
    hostile::frames(&mut script);
    script.show();
    script
}

/// A script of rests, and sends at the limits of the PDCP order, on one bearer.
#[must_use]
pub fn rested(rng: Rng) -> Script {
    let mut script = Script::new(rng);
    for _ in 0..5 {
        stress::rests(&mut script);
        script.show();
    }
    script
}

/// A script of PDUs at the limits of their size and around the room, on one
/// bearer to its end; one in four begins with as much waiting as ever can.
#[must_use]
pub fn sized(rng: Rng) -> Script {
    let mut script = Script::new(rng);
    if script.rng.once_in(4) {
        stress::largest(&mut script);
    } else {
        stress::ledger(&mut script);
    }
    for _ in 0..6 {
        stress::sizes(&mut script);
        script.show();
    }
    hostile::numbers(&mut script);
    hostile::closing(&mut script);
    script
}

/// A script of expiries with marks of every kind, on one bearer to its end.
#[must_use]
pub fn marked(rng: Rng) -> Script {
    let mut script = Script::new(rng);
    for _ in 0..5 {
        stress::marks(&mut script);
        script.show();
    }
    stress::runs(&mut script);
    stress::marks(&mut script);
    hostile::closing(&mut script);
    script
}

/// Calls before anything is open, for the head of a program's input.
#[must_use]
pub fn unopened(rng: Rng) -> Vec<u8> {
    let mut script = Script::new(rng);
    let opened = script.text.len();
    script.expire_somewhere();
    script.arrive_ahead(0);
    script.confirm(0);
    script.status(false, 0);
    script.send(0);
    script.send_at_limit(0);
    script.accept(&[]);
    script.take();
    script.show();
    script.bad_open();
    hostile::lines(&mut script);
    script.text.split_off(opened)
}
