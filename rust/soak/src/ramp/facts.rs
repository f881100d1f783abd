//! What a report says of where and on what it was made. Whoever starts the ramp
//! hands it over in the environment; what is absent is unknown.

use std::env;
use std::time::{Duration, SystemTime};

/// Which build of the program is tested.
#[derive(Clone, Copy, Debug, PartialEq, Eq)]
pub enum Build {
    /// The one that is shipped.
    Shipped,
    /// The one for this machine's own processor.
    Native,
    /// A program that is neither.
    Other,
    /// Nobody said.
    Unknown,
}

impl Build {
    fn of(word: &str) -> Self {
        match word {
            "shipped" => Self::Shipped,
            "native" => Self::Native,
            "other" => Self::Other,
            _ => Self::Unknown,
        }
    }

    /// In words.
    #[must_use]
    pub fn words(self) -> &'static str {
        match self {
            Self::Shipped => "the shipped one, crates/replay/out/replay, run by scripts/replay",
            Self::Native => {
                "this processor's, target/native/replay: a copy of the shipped one, run by itself"
            }
            Self::Other => "neither the shipped one nor this processor's: another program",
            Self::Unknown => "unknown",
        }
    }
}

/// The facts of a run.
#[derive(Clone, Debug)]
pub struct Facts {
    /// When it began.
    pub began: Moment,
    /// Name, processor, cores and kernel.
    pub host: String,
    /// The commit, and whether the tree is clean.
    pub commit: String,
    /// The kit that proved and built the program.
    pub kit: String,
    /// The compilers.
    pub compilers: String,
    /// Which build is tested.
    pub build: Build,
    /// The SHA-256 of the program under test, and of which file.
    pub hash: String,
}

impl Facts {
    /// Those of a run that begins now.
    #[must_use]
    pub fn now() -> Self {
        let fact = |name: &str| {
            let given = env::var(name).ok().filter(|value| !value.is_empty());
            given.unwrap_or_else(|| "unknown".to_owned())
        };
        Self {
            began: Moment::now(),
            host: fact("RAMP_HOST"),
            commit: fact("RAMP_COMMIT"),
            kit: fact("RAMP_KIT"),
            compilers: fact("RAMP_COMPILERS"),
            build: Build::of(&fact("RAMP_BUILD")),
            hash: fact("RAMP_HASH"),
        }
    }
}

/// A second of the calendar, in UTC.
#[derive(Clone, Copy, Debug, PartialEq, Eq)]
pub struct Moment {
    year: u64,
    month: u64,
    day: u64,
    hour: u64,
    minute: u64,
    second: u64,
}

impl Moment {
    fn now() -> Self {
        let since = SystemTime::now().duration_since(SystemTime::UNIX_EPOCH);
        Self::at(since.unwrap_or(Duration::ZERO).as_secs())
    }

    /// So many seconds after 1970 began.
    fn at(seconds: u64) -> Self {
        // Years are counted from March on, so that a leap day ends one.
        let days = seconds / 86_400 + 719_468;
        let (era, of_era) = (days / 146_097, days % 146_097);
        let year = (of_era - of_era / 1_460 + of_era / 36_524 - of_era / 146_096) / 365;
        let of_year = of_era - (365 * year + year / 4 - year / 100);
        let from_march = (5 * of_year + 2) / 153;
        let month = if from_march < 10 {
            from_march + 3
        } else {
            from_march - 9
        };
        Self {
            year: era * 400 + year + u64::from(month <= 2),
            month,
            day: of_year - (153 * from_march + 2) / 5 + 1,
            hour: seconds / 3_600 % 24,
            minute: seconds / 60 % 60,
            second: seconds % 60,
        }
    }

    /// For a report.
    #[must_use]
    pub fn words(self) -> String {
        self.joined(["-", " ", ":", " UTC"])
    }

    /// For the name of a file.
    #[must_use]
    pub fn stamp(self) -> String {
        self.joined(["", "T", "", "Z"])
    }

    /// Day and time with these marks: within the day, between both, within the
    /// time, and behind it.
    fn joined(self, [day, between, time, end]: [&str; 4]) -> String {
        format!(
            "{:04}{day}{:02}{day}{:02}{between}{:02}{time}{:02}{time}{:02}{end}",
            self.year, self.month, self.day, self.hour, self.minute, self.second
        )
    }
}

#[cfg(test)]
mod tests {
    use super::Moment;

    #[test]
    fn the_calendar() {
        for (seconds, stamp) in [
            (0, "19700101T000000Z"),
            (951_782_399, "20000228T235959Z"),
            (951_782_400, "20000229T000000Z"),
            (951_868_800, "20000301T000000Z"),
            (1_709_164_800, "20240229T000000Z"),
            (1_794_786_312, "20261115T234512Z"),
            (4_107_542_400, "21000301T000000Z"),
        ] {
            assert_eq!(Moment::at(seconds).stamp(), stamp);
        }
    }
}
