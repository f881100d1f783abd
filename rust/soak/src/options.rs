//! Command lines of `--name value` pairs and plain words.

use std::collections::BTreeMap;
use std::path::PathBuf;
use std::str::FromStr;

/// A command line, taken apart.
#[derive(Clone, Debug, Default)]
pub struct Options {
    /// The plain words, in order.
    pub words: Vec<String>,
    named: BTreeMap<String, String>,
}

impl Options {
    /// Takes a command line apart. Only `known` names may stand in it with a
    /// value, and `flags` without one.
    pub fn of(
        arguments: impl IntoIterator<Item = String>,
        known: &[&str],
        flags: &[&str],
    ) -> Result<Self, String> {
        let mut options = Self::default();
        let mut arguments = arguments.into_iter();
        while let Some(argument) = arguments.next() {
            let Some(name) = argument.strip_prefix("--") else {
                options.words.push(argument);
                continue;
            };
            let value = if flags.contains(&name) {
                String::new()
            } else if known.contains(&name) {
                let value = arguments.next().filter(|value| !value.starts_with("--"));
                value.ok_or_else(|| format!("--{name} needs a value"))?
            } else {
                return Err(format!("there is no option --{name}"));
            };
            options.named.insert(name.to_owned(), value);
        }
        Ok(options)
    }

    /// Whether an option is given.
    #[must_use]
    pub fn has(&self, name: &str) -> bool {
        self.named.contains_key(name)
    }

    /// The value of an option as a path.
    #[must_use]
    pub fn path(&self, name: &str) -> Option<PathBuf> {
        self.named.get(name).map(PathBuf::from)
    }

    /// The value of an option, or `otherwise` if it isn't given.
    pub fn value<T: FromStr>(&self, name: &str, otherwise: T) -> Result<T, String> {
        match self.named.get(name) {
            None => Ok(otherwise),
            Some(text) => text
                .parse()
                .map_err(|_| format!("--{name} can't be {text}")),
        }
    }
}
