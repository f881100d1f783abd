//! What a ramp that is over comes to.

use super::Settings;
use super::bench::Trouble;
use super::conditions::REACHED;
use super::play::Ending;
use super::source::Flow;
use super::words::{grouped, times};

/// The three ways that a ramp ends.
#[derive(Clone, Copy, Debug, PartialEq, Eq)]
pub enum Verdict {
    /// Nothing went wrong, at the rate asked for.
    Passed,
    /// Nothing went wrong, but the rate asked for wasn't reached.
    Slow,
    /// Something went wrong.
    Failed,
}

impl Verdict {
    /// That of a ramp.
    #[must_use]
    pub fn of(settings: &Settings, ending: &Ending) -> Self {
        let asked = u64::from(settings.rate) * u64::from(settings.seconds);
        if failure(ending).is_some() {
            Self::Failed
        } else if ending.sent * 100 >= asked * REACHED {
            Self::Passed
        } else {
            Self::Slow
        }
    }

    /// The program's exit code. A rate that wasn't reached has its own: a
    /// script that asked for a rate must not take the run for one at it.
    #[must_use]
    pub fn exit_code(self) -> u8 {
        match self {
            Self::Passed => 0,
            Self::Failed => 1,
            Self::Slow => 3,
        }
    }

    /// In a word or a few, for a table or a chart.
    #[must_use]
    pub fn word(self) -> &'static str {
        match self {
            Self::Passed => "PASSED",
            Self::Slow => "PASSED, rate not reached",
            Self::Failed => "FAILED",
        }
    }
}

/// Packets sent a second, over the time that was played.
#[must_use]
pub fn rate_sent(ending: &Ending) -> u64 {
    rate_of(ending.sent, &ending.figures.flow)
}

/// So many packets as packets a second, over the time that was played.
#[must_use]
pub fn rate_of(packets: u64, flow: &Flow) -> u64 {
    let time = flow.time.max(1);
    (packets * 1_000 + time / 2) / time
}

/// Packets sent that are neither freed nor taken in the end.
#[must_use]
pub fn unaccounted(ending: &Ending) -> u64 {
    ending.sent - ending.tally.freed - ending.tally.taken
}

/// What went wrong, if anything did.
fn failure(ending: &Ending) -> Option<String> {
    let Ending {
        tally,
        trouble,
        mismatch,
        figures,
        ..
    } = ending;
    match (trouble, mismatch) {
        (Some(Trouble::Start(words)), _) => {
            Some(format!("the program under test can't be started: {words}"))
        }
        (Some(Trouble::Demand(_)), _) => Some("demand 3 is violated".to_owned()),
        (Some(Trouble::Room(_)), _) => Some("the room is wrong".to_owned()),
        (_, Some(mismatch)) if mismatch.silent => {
            Some(format!("call {} got no answer", mismatch.call))
        }
        (_, Some(mismatch)) if mismatch.call == 0 => {
            Some("the program under test did not end as it should".to_owned())
        }
        (_, Some(mismatch)) => Some(format!("call {} was answered otherwise", mismatch.call)),
        (Some(Trouble::Differs), None) => Some("the program under test stopped".to_owned()),
        (None, None) if tally.lost != tally.reported => Some("losses were not reported".to_owned()),
        (None, None) if unaccounted(ending) > 0 => {
            Some("packets were neither freed nor taken".to_owned())
        }
        (None, None) if !figures.losses.add_up(tally.lost) => {
            Some("the causes of losses don't add up".to_owned())
        }
        (None, None) if !figures.losses.spared.add_up() => {
            Some("what became of the packets that marks spared doesn't add up".to_owned())
        }
        (None, None) => None,
    }
}

/// The result in words.
#[must_use]
pub fn result(settings: &Settings, ending: &Ending) -> String {
    let (sent, asked) = (rate_sent(ending), u64::from(settings.rate));
    let passed = format!("PASSED at {} a second", times(sent, "packet"));
    let asked_for = grouped(asked);
    match (Verdict::of(settings, ending), failure(ending)) {
        (_, Some(failure)) => format!("FAILED: {failure}"),
        (Verdict::Slow, _) => format!("{passed}; the {asked_for} asked for were not reached"),
        _ if sent == asked => format!("{passed}, as asked for"),
        _ => format!("{passed}, of {asked_for} asked for"),
    }
}
