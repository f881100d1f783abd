//! Rules of expiry that are nearly right: each is found out, by scripts beside the
//! right one and by the watch, which is told the answers alone.

use programs::replay::{Call, Replay};
use property::bearer::{Bearer, openings, steps};
use property::scripts::Aim;
use proptest::collection::vec;
use proptest::strategy::{Strategy, ValueTree};
use proptest::test_runner::TestRunner;
use soak::marks::{Mark, highest_accepted};
use x2u::circle::{Circle, Lies};
use x2u::frame::LONGEST;
use x2u::{Bearer as Circles, Keeper, Refusal};

/// What a wrong rule does with a mark.
enum Does {
    /// What the right one does with this mark.
    As(u32),
    /// Refuses it.
    Refuses(Refusal),
}

/// A rule, as a keeper stands.
type Rule = fn(Circle, &Keeper, u32) -> Does;

/// Another mark in place of this one, if both are accepted.
fn instead(circle: Circle, keeper: &Keeper, mark: u32, other: Mark) -> Does {
    let other = other.at(circle, keeper);
    let accepted = |mark| keeper.clone().expire(mark).is_ok();
    Does::As(if accepted(mark) && accepted(other) {
        other
    } else {
        mark
    })
}

const WRONG: [(&str, Rule); 7] = [
    ("the mark is given up too", |circle, keeper, mark| {
        let next = Mark::Number(circle.step(mark & (circle.size() - 1), 1));
        instead(circle, keeper, mark, next)
    }),
    ("one before the mark is spared", |circle, keeper, mark| {
        let before = Mark::Number(circle.before(mark));
        instead(circle, keeper, mark, before)
    }),
    (
        "the highest accepted in the mark's place",
        |circle, keeper, mark| instead(circle, keeper, mark, Mark::Highest(0)),
    ),
    ("17 before 19", |circle, keeper, mark| {
        let is_base = mark == keeper.base() && !keeper.is_closed();
        if is_base && highest_accepted(circle, keeper).is_none() {
            Does::Refuses(Refusal::NothingOpen)
        } else {
            Does::As(mark)
        }
    }),
    ("what is behind lies ahead", |circle, keeper, mark| {
        let lies = circle.compare(keeper.base(), mark);
        if circle.holds(mark) && lies == Lies::Behind && !keeper.is_closed() {
            Does::Refuses(Refusal::MarkBeyond)
        } else {
            Does::As(mark)
        }
    }),
    ("what is opposite lies ahead", |circle, keeper, mark| {
        let lies = circle.compare(keeper.base(), mark);
        if circle.holds(mark) && lies == Lies::Opposite && !keeper.is_closed() {
            Does::Refuses(Refusal::MarkBeyond)
        } else {
            Does::As(mark)
        }
    }),
    ("marks are taken modulo M", |circle, _, mark| {
        Does::As(mark & (circle.size() - 1))
    }),
];

/// The rule itself.
const RIGHT: Rule = |_, _, mark| Does::As(mark);

/// A keeper that follows the script on the right rule's marks.
struct Follower {
    circle: Circle,
    keeper: Keeper,
}

impl Follower {
    fn follow(follower: &mut Option<Self>, call: &Call<'_>) {
        let mut buffer = [0; LONGEST];
        match (call, follower) {
            (&Call::Open([bits, first, pdcp]), follower) => {
                if let (Ok(circles), Ok(keeper)) = (
                    Circles::judged(bits, first, pdcp),
                    Keeper::open(bits, first, pdcp),
                ) {
                    let circle = circles.numbers();
                    *follower = Some(Self { circle, keeper });
                }
            }
            (&Call::Arrive([number, pdcp]), Some(end)) => {
                let _ = end.keeper.arrive(number, pdcp);
            }
            (&Call::Expire(mark), Some(end)) => {
                let _ = end.keeper.expire(mark);
            }
            (&Call::Confirm(number), Some(end)) => {
                let _ = end.keeper.confirm(number);
            }
            (&Call::Status { is_final, room, .. }, Some(end)) => {
                let lent = &mut buffer[..room.min(LONGEST)];
                let _ = end.keeper.status(0, 0, is_final, lent);
            }
            _ => {}
        }
    }
}

/// What a program with that rule answers.
fn answers(lines: &[Vec<u8>], rule: Rule) -> Vec<Vec<u8>> {
    let (mut replay, mut follower) = (Replay::default(), None);
    let mut answer = |line: &Vec<u8>| {
        let mut room = [0; LONGEST];
        let mut call = Call::of_line(line, &mut room);
        let (mut made, mut out) = (line.clone(), Vec::new());
        if let (Some(Call::Expire(mark)), Some(Follower { circle, keeper })) = (call, &follower) {
            match rule(*circle, keeper, mark) {
                Does::Refuses(refusal) => {
                    return format!("refused\t{}", refusal.number()).into_bytes();
                }
                Does::As(other) => {
                    call = Some(Call::Expire(other));
                    made = format!("expire\t{other}").into_bytes();
                }
            }
        }
        if let Some(call) = &call {
            Follower::follow(&mut follower, call);
        }
        replay.answer(Some(&made), &mut out).unwrap();
        out.pop();
        out
    };
    lines.iter().map(&mut answer).collect()
}

/// Cases of a strategy, always the same.
fn cases<S: Strategy>(strategy: &S, count: usize) -> Vec<S::Value> {
    let mut runner = TestRunner::deterministic();
    let mut case = || strategy.new_tree(&mut runner).unwrap().current();
    (0..count).map(|_| case()).collect()
}

#[test]
fn scripts_find_each_wrong_rule() {
    let scripts = cases(&Aim::Marks, 6);
    let right = |lines: &[Vec<u8>]| answers(lines, RIGHT);
    for (name, rule) in WRONG {
        let found = scripts
            .iter()
            .filter(|script| answers(&script.0, rule) != right(&script.0));
        let found = found.count();
        assert!(found >= 3, "{name}: found on {found} scripts of 6");
    }
}

#[test]
fn the_watch_finds_each_wrong_rule() {
    let bearers = cases(&(openings(6), vec(steps(), 60..120)), 60);
    let traces: Vec<_> = bearers
        .iter()
        .map(|(opening, steps)| {
            let mut bearer = Bearer::new(*opening);
            for step in steps {
                bearer.make(step).unwrap();
            }
            bearer.trace
        })
        .collect();
    for trace in &traces {
        trace.check(&answers(&trace.lines, RIGHT)).unwrap();
    }
    for (name, rule) in WRONG {
        let found = traces
            .iter()
            .filter(|trace| trace.check(&answers(&trace.lines, rule)).is_err());
        let found = found.count();
        assert!(found >= 5, "{name}: found on {found} bearers of 60");
    }
}
