//! How often each answer was given.

use std::collections::BTreeMap;
use std::fmt::{self, Display, Formatter};
use x2u::Refusal;

/// Counts of answers, by the word of the call that they answer.
#[derive(Clone, Debug, Default)]
pub struct Table {
    refused: BTreeMap<u32, BTreeMap<String, u64>>,
    answers: BTreeMap<String, u64>,
}

impl Table {
    /// Counts an answer. `word` names the kind of call.
    pub fn count(&mut self, word: &[u8], answer: &[u8]) {
        let mut fields = answer.split(|&octet| octet == b'\t');
        let kind = text(fields.next().unwrap_or_default());
        if kind == "refused" {
            let number = fields.next().map(text).and_then(|text| text.parse().ok());
            self.count_number(number.unwrap_or(0), text(word));
        } else {
            *self.answers.entry(kind).or_default() += 1;
        }
    }

    /// Counts a refusal given to a call.
    pub fn count_refusal(&mut self, word: &str, refusal: Refusal) {
        self.count_number(u32::from(refusal.number()), word.to_owned());
    }

    fn count_number(&mut self, number: u32, word: String) {
        let calls = self.refused.entry(number).or_default();
        *calls.entry(word).or_default() += 1;
    }

    /// How often a refusal was given.
    #[must_use]
    pub fn times(&self, refusal: Refusal) -> u64 {
        let calls = self.refused.get(&u32::from(refusal.number()));
        calls.map_or(0, |calls| calls.values().sum())
    }

    /// How often a refusal was given to the calls of that word.
    #[must_use]
    pub fn times_to(&self, word: &str, refusal: Refusal) -> u64 {
        let calls = self.refused.get(&u32::from(refusal.number()));
        calls
            .and_then(|calls| calls.get(word))
            .copied()
            .unwrap_or(0)
    }

    /// The refusals of `all` that were never given.
    #[must_use]
    pub fn missing(&self, all: impl IntoIterator<Item = Refusal>) -> Vec<Refusal> {
        let all = all.into_iter();
        all.filter(|&refusal| self.times(refusal) == 0).collect()
    }
}

fn text(octets: &[u8]) -> String {
    String::from_utf8_lossy(octets).into_owned()
}

fn name(number: u32) -> String {
    let known = Refusal::ALL
        .iter()
        .find(|r| u32::from(r.number()) == number);
    known.map_or_else(|| "?".to_owned(), |refusal| format!("{refusal:?}"))
}

impl Display for Table {
    fn fmt(&self, out: &mut Formatter<'_>) -> fmt::Result {
        writeln!(
            out,
            "{:>3}  {:<18} {:>9}  given to",
            "no.", "refusal", "times"
        )?;
        for (number, calls) in &self.refused {
            let times: u64 = calls.values().sum();
            let words: Vec<String> = calls
                .iter()
                .map(|(word, times)| format!("{word} {times}"))
                .collect();
            writeln!(
                out,
                "{number:>3}  {:<18} {times:>9}  {}",
                name(*number),
                words.join(", ")
            )?;
        }
        if self.answers.is_empty() {
            return Ok(());
        }
        writeln!(out, "\n{:<23} {:>9}", "other answer", "times")?;
        for (kind, times) in &self.answers {
            writeln!(out, "{kind:<23} {times:>9}")?;
        }
        Ok(())
    }
}
