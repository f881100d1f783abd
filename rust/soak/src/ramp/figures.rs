//! What a ramp came to, in figures.

use super::losses::Losses;
use super::rests::Rested;
use super::rooms::Rooms;
use super::source::Flow;
use super::weather::TROUBLES;
use model::Pair;
use x2u::frame::{self, Frame, MOST_RANGES};
use x2u::keeper::{MOST_RECORDS, MOST_RUNS};
use x2u::ledger::MOST_ENTRIES;

/// How full the stores are, or were at most.
#[derive(Clone, Copy, Debug, Default, PartialEq, Eq)]
pub struct Stores {
    /// Entries of the ledger.
    pub entries: usize,
    /// Records of the keeper.
    pub records: usize,
    /// Listed runs of the keeper.
    pub runs: usize,
}

impl Stores {
    /// Their limits.
    pub const LIMITS: Self = Self {
        entries: MOST_ENTRIES,
        records: MOST_RECORDS,
        runs: MOST_RUNS,
    };

    fn of(pair: &Pair) -> Self {
        Self {
            entries: pair.ledger.entry_count(),
            records: pair.keeper.record_count(),
            runs: pair.keeper.listed_runs().len(),
        }
    }

    fn grow(&mut self, other: Self) {
        self.entries = self.entries.max(other.entries);
        self.records = self.records.max(other.records);
        self.runs = self.runs.max(other.runs);
    }
}

/// A second of the ramp.
#[derive(Clone, Copy, Debug)]
pub struct Second {
    /// The fullest the stores were in it.
    pub fullest: Stores,
    /// Base at its end.
    pub base: u32,
    /// Packets sent in it.
    pub sent: u64,
    /// The room in it.
    pub rooms: Rooms,
    /// Which troubles there were in it.
    pub troubles: Troubles,
}

/// Which troubles of [`TROUBLES`] there are.
pub type Troubles = [bool; TROUBLES.len()];

/// When a circle of numbers rolled over, in milliseconds.
#[derive(Clone, Debug, Default)]
pub struct Rollovers {
    /// The times: a rollover that no packet met is seen at the next one.
    pub times: Vec<u64>,
}

impl Rollovers {
    /// A number of that turn of the circle went out.
    fn see(&mut self, turn: u64, now: u64) {
        self.times.resize(turn as usize, now);
    }
}

/// Counts over the whole ramp.
#[derive(Clone, Debug, Default)]
pub struct Figures {
    /// Packets that didn't arrive in time, and why.
    pub losses: Losses,
    /// What became of the packets that the source made.
    pub flow: Flow,
    /// Further copies sent after packets.
    pub copies: u64,
    /// Packets that arrived after a later one.
    pub overtaken: u64,
    /// Arrivals refused as late, opposite or repeated.
    pub strays: u64,
    /// PDCP numbers used on the master's own radio, between packets.
    pub own_radio: u64,
    /// Those of them that bore H, so that X2 refused them.
    pub bore_highest: u64,
    /// Rests on the master's own radio.
    pub rests: Rested,
    /// PDCP numbers used in all.
    pub pdcps_used: u64,
    /// The room, whenever it was asked for.
    pub rooms: Rooms,
    /// Statuses with the highest held back, for more runs than a frame carries.
    pub held_back: u64,
    /// Ranges carried by all statuses.
    pub ranges: u64,
    /// Those that run over a rollover.
    pub ranges_over_rollover: u64,
    /// The most ranges in one status.
    pub most_ranges: usize,
    /// Rollovers of the X2-U numbers sent.
    pub numbers: Rollovers,
    /// Rollovers of the PDCP numbers used.
    pub pdcp: Rollovers,
    /// Those of them in rests.
    pub pdcp_in_rests: u64,
    /// The fullest the stores ever were.
    pub fullest: Stores,
    /// Second by second.
    pub seconds: Vec<Second>,
    now_fullest: Stores,
    now_sent: u64,
    now_rooms: Rooms,
    now_troubles: Troubles,
}

impl Figures {
    /// A packet went out, in these turns of the X2-U and of the PDCP numbers.
    pub fn sent(&mut self, [number, pdcp]: [u64; 2], now: u64) {
        self.numbers.see(number, now);
        self.pdcp.see(pdcp, now);
        self.now_sent += 1;
    }

    /// A status was built.
    pub fn built(&mut self, octets: &[u8], left: usize) {
        if let Frame::Status { ranges, .. } = frame::read(octets) {
            self.most_ranges = self.most_ranges.max(ranges.len());
            self.ranges += ranges.len() as u64;
            self.held_back += u64::from(left > 0 && ranges.len() == MOST_RANGES);
            let over = ranges.filter(|range| range.end < range.start).count();
            self.ranges_over_rollover += over as u64;
        }
    }

    /// The room was asked for.
    pub fn room(&mut self, room: u32) {
        self.rooms.see(room);
        self.now_rooms.see(room);
    }

    /// Looks at the stores. They are fullest after a send, an arrival or an
    /// expiry, so once a millisecond is enough.
    pub fn look(&mut self, pair: &Pair, troubles: Troubles) {
        self.now_fullest.grow(Stores::of(pair));
        for (seen, is_on) in self.now_troubles.iter_mut().zip(troubles) {
            *seen |= is_on;
        }
    }

    /// A second has passed.
    pub fn second(&mut self, pair: &Pair) {
        let fullest = std::mem::take(&mut self.now_fullest);
        self.fullest.grow(fullest);
        self.seconds.push(Second {
            fullest,
            base: pair.keeper.base(),
            sent: std::mem::take(&mut self.now_sent),
            rooms: std::mem::take(&mut self.now_rooms),
            troubles: std::mem::take(&mut self.now_troubles),
        });
    }
}
