//! What happens to a bearer while the chamber warms up: spells of trouble that
//! begin now and then, each lasting long enough to bring a store near its
//! limit at the chosen packet rate; and rests.

use super::Settings;
use super::conditions::{
    ASLEEP, BURST, COMB_FIRST, COMB_OVER, COMB_PACKETS, COMB_PAUSE, COMB_QUIET, COMB_TEETH, DROPS,
    HANDSET, NOT_TAKEN, OVERTAKEN, OVERTAKEN_BY, ROAD, ROAD_BACK, STUCK, Spells, TWIN,
};
use super::rests::Rests;
use crate::rng::Rng;
use std::ops::Range;

/// Trouble of one kind, on and off.
struct Spell {
    pause: Range<u32>,
    lasts: Range<u32>,
    from: u64,
    until: u64,
}

impl Spell {
    fn new(spells: &Spells, rate: u32, rng: &mut Rng) -> Self {
        let (pause, lasts) = (spells.pause.clone(), spells.lasts.at(rate));
        let from = u64::from(rng.within(pause.clone()));
        let until = from + u64::from(rng.within(lasts.clone()));
        Self {
            pause,
            lasts,
            from,
            until,
        }
    }

    fn advance(&mut self, now: u64, rng: &mut Rng) {
        if now >= self.until {
            self.from = now + u64::from(rng.within(self.pause.clone()));
            self.until = self.from + u64::from(rng.within(self.lasts.clone()));
        }
    }

    fn is_on(&self, now: u64) -> bool {
        now >= self.from
    }
}

/// Every second packet dropped while no status is built, from an empty ledger
/// on: the most runs that a bearer can come to.
#[derive(Clone, Copy, PartialEq, Eq)]
enum Comb {
    Idle {
        until: u64,
    },
    /// Nothing is sent, for the ledger to empty.
    Quiet {
        until: u64,
    },
    Teeth {
        left: u32,
        until: u64,
    },
    /// The last packets arrive and their gaps expire.
    Over {
        until: u64,
    },
}

/// The kinds of trouble that a chart shows, second by second.
pub const TROUBLES: [&str; 6] = [
    "a burst dropped",
    "every 2nd packet dropped",
    "statuses stuck",
    "handset asleep",
    "losses not taken",
    "bearer rests",
];

/// The chamber, at a time in milliseconds.
pub struct Weather {
    rng: Rng,
    now: u64,
    whole: u64,
    /// How long a packet takes at the chosen rate, times 1,000.
    packet: u64,
    /// The road to the secondary drops everything.
    burst: Spell,
    /// The road back is stuck.
    stuck: Spell,
    /// The handset confirms nothing.
    asleep: Spell,
    /// Nobody takes lost packets from the master.
    idle_master: Spell,
    comb: Comb,
    /// All PDUs go over the master's own radio.
    pub rests: Rests,
}

impl Weather {
    /// The weather of a ramp.
    #[must_use]
    pub fn new(settings: &Settings, rng: Rng) -> Self {
        let mut rng = rng;
        let rate = settings.rate;
        Self {
            now: 0,
            whole: u64::from(settings.seconds) * 1_000,
            packet: 1_000_000 / u64::from(rate.max(1)),
            burst: Spell::new(&BURST, rate, &mut rng),
            stuck: Spell::new(&STUCK, rate, &mut rng),
            asleep: Spell::new(&ASLEEP, rate, &mut rng),
            idle_master: Spell::new(&NOT_TAKEN, rate, &mut rng),
            comb: Comb::Idle { until: COMB_FIRST },
            rests: Rests::new(1 << settings.bits, Rng::new(rng.bits())),
            rng,
        }
    }

    /// Lets a millisecond pass.
    pub fn advance(&mut self, now: u64, ledger_fill: usize) {
        self.now = now;
        for spell in [
            &mut self.burst,
            &mut self.stuck,
            &mut self.asleep,
            &mut self.idle_master,
        ] {
            spell.advance(now, &mut self.rng);
        }
        self.comb = self.combed(ledger_fill);
    }

    fn combed(&mut self, ledger_fill: usize) -> Comb {
        let now = self.now;
        match self.comb {
            Comb::Idle { until } if now >= until => Comb::Quiet {
                until: now + COMB_QUIET,
            },
            Comb::Quiet { until } if ledger_fill == 0 || now >= until => Comb::Teeth {
                left: self.rng.pick(&COMB_TEETH),
                until: now + COMB_PACKETS * self.packet / 1_000,
            },
            Comb::Teeth { left, until } if left == 0 || now >= until => Comb::Over {
                until: now + COMB_OVER,
            },
            Comb::Over { until } if now >= until => Comb::Idle {
                until: now + u64::from(self.rng.within(COMB_PAUSE)),
            },
            comb => comb,
        }
    }

    fn is_combing(&self) -> bool {
        matches!(self.comb, Comb::Teeth { .. } | Comb::Over { .. })
    }

    /// Warmth of the trouble: small at both ends of the ramp, 1 in its middle.
    fn trouble(&self) -> f64 {
        let part = self.now as f64 / self.whole.max(1) as f64;
        (part.min(1.0) * std::f64::consts::PI).sin()
    }

    /// Whether the packet sent now is dropped.
    pub fn drops(&mut self) -> bool {
        if let Comb::Teeth { left, .. } = &mut self.comb {
            *left = left.saturating_sub(1);
            return *left % 2 == 1;
        }
        let [ends, middle] = DROPS;
        let drops = ends + (middle - ends) * self.trouble();
        let at_random = f64::from(self.rng.within(0..1_000)) < drops;
        at_random || self.troubles()[0]
    }

    /// Whether the packet sent now gets a twin.
    pub fn copies(&mut self) -> bool {
        self.rng.once_in(TWIN)
    }

    /// Whether the master sends nothing for now.
    #[must_use]
    pub fn holds_sending(&self) -> bool {
        matches!(self.comb, Comb::Quiet { .. } | Comb::Over { .. }) || self.rests.drains()
    }

    /// Begins a rest if one is due, and what waits will soon be settled. Answers
    /// whether it goes by at once.
    pub fn begins_rest(&mut self) -> bool {
        let combs = !matches!(self.comb, Comb::Idle { .. });
        let is_slow = combs || self.stuck.is_on(self.now) || self.handset_sleeps();
        !is_slow && self.rests.begin(self.now)
    }

    /// Whether the secondary builds no status for now.
    #[must_use]
    pub fn withholds_statuses(&self) -> bool {
        self.is_combing()
    }

    /// Whether the handset confirms nothing for now.
    #[must_use]
    pub fn handset_sleeps(&self) -> bool {
        self.asleep.is_on(self.now) && !self.is_combing()
    }

    /// Whether nobody takes lost packets for now.
    #[must_use]
    pub fn leaves_losses(&self) -> bool {
        self.idle_master.is_on(self.now)
    }

    /// Which of the troubles are on.
    #[must_use]
    pub fn troubles(&self) -> [bool; TROUBLES.len()] {
        [
            self.burst.is_on(self.now) && !self.is_combing(),
            self.is_combing(),
            self.stuck.is_on(self.now),
            self.handset_sleeps(),
            self.leaves_losses(),
            self.rests.is_on(self.now),
        ]
    }

    /// Milliseconds to the secondary; some packets are overtaken on the way.
    pub fn road(&mut self) -> u64 {
        let overtaken = if self.rng.once_in(OVERTAKEN) {
            self.rng.within(OVERTAKEN_BY)
        } else {
            0
        };
        u64::from(self.rng.within(ROAD) + overtaken)
    }

    /// Milliseconds until the handset confirms a packet.
    pub fn handset(&mut self) -> u64 {
        self.rng.within(HANDSET).into()
    }

    /// Milliseconds from the secondary back to the master.
    pub fn road_back(&mut self) -> u64 {
        let stuck = if self.stuck.is_on(self.now) {
            self.stuck.until - self.now
        } else {
            0
        };
        stuck + u64::from(self.rng.within(ROAD_BACK))
    }
}
