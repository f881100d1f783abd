//! The ramp soak: the eleven minutes between cold and hot, on both ends of one
//! bearer, as fast as the machine goes.

pub mod bench;
pub mod chart;
pub mod conditions;
pub mod facts;
pub mod figures;
pub mod files;
pub mod link;
pub mod losses;
pub mod play;
pub mod refusals;
pub mod report;
pub mod rests;
pub mod rooms;
pub mod run;
pub mod source;
pub mod spared;
pub mod table;
pub mod untested;
pub mod verdict;
pub mod weather;
pub mod words;

use model::Opening;
use std::path::PathBuf;
use std::time::Duration;

/// What is played.
#[derive(Clone, Debug)]
pub struct Settings {
    /// The `replay` program under test.
    pub program: PathBuf,
    /// L.
    pub bits: u32,
    /// Packets a second.
    pub rate: u32,
    /// How long, in seconds.
    pub seconds: u32,
    /// Where chance begins.
    pub seed: u64,
    /// How long the program may be silent while we wait for it.
    pub patience: Duration,
}

impl Settings {
    /// Both circles roll over a few seconds after the start.
    #[must_use]
    pub fn opening(&self) -> Opening {
        let mut opening = Opening {
            bits: self.bits,
            first: 0,
            first_pdcp: 0,
        };
        let lead = u64::from(self.rate) * 4;
        opening.first = opening.numbers() - lead.min(opening.numbers() / 4);
        opening.first_pdcp = opening.pdcps() - lead.min(opening.pdcps() / 4);
        opening
    }
}
