//! Properties run one after another, with what they met in tables.

use proptest::strategy::Strategy;
use proptest::test_runner::{Config, RngAlgorithm, TestCaseError, TestError, TestRng, TestRunner};
use soak::table::Table;
use std::fmt::Debug;
use std::time::Instant;
use x2u::Refusal;

/// What a property says about a case.
pub type Verdict = Result<(), String>;

/// Properties that were run.
pub struct Suite {
    seed: u64,
    /// How many held.
    pub passed: u32,
    /// How many did not.
    pub failed: u32,
}

impl Suite {
    /// None yet. All chance comes from `seed`.
    #[must_use]
    pub fn new(seed: u64) -> Self {
        Self {
            seed,
            passed: 0,
            failed: 0,
        }
    }

    /// A runner of its own for a property, the same for the same seed.
    fn runner(&self, name: &str, cases: u32) -> TestRunner {
        let mut seed = [0; 32];
        seed[..8].copy_from_slice(&self.seed.to_le_bytes());
        for (place, octet) in name.bytes().enumerate() {
            seed[8 + place % 24] ^= octet.rotate_left(place as u32 / 24);
        }
        let config = Config {
            cases,
            failure_persistence: None,
            max_shrink_iters: 20_000,
            ..Config::default()
        };
        TestRunner::new_with_rng(config, TestRng::from_seed(RngAlgorithm::ChaCha, &seed))
    }

    /// Tries a property on so many cases. `holds` may count what it meets. A
    /// case that fails is shrunk and shown.
    pub fn property<S: Strategy>(
        &mut self,
        name: &str,
        cases: u32,
        strategy: &S,
        mut holds: impl FnMut(&S::Value) -> Verdict,
    ) where
        S::Value: Debug,
    {
        let start = Instant::now();
        let holds = std::cell::RefCell::new(&mut holds);
        let outcome = self.runner(name, cases).run(strategy, |case| {
            (holds.borrow_mut())(&case).map_err(TestCaseError::fail)
        });
        let seconds = start.elapsed().as_secs_f64();
        match outcome {
            Ok(()) => {
                self.passed += 1;
                println!("holds   {name}: {cases} cases, {seconds:.1} s");
            }
            Err(TestError::Fail(why, case)) => {
                self.failed += 1;
                let (why, case) = (cut(&why.to_string()), cut(&format!("{case:?}")));
                println!(
                    "FAILS   {name} (seed {}): {why}\nsmallest case: {case}",
                    self.seed
                );
            }
            Err(TestError::Abort(why)) => {
                self.failed += 1;
                println!("FAILS   {name}: no cases: {why}");
            }
        }
    }

    /// Something that has to be so once all cases are through.
    pub fn check(&mut self, name: &str, holds: bool) {
        if holds {
            self.passed += 1;
            println!("holds   {name}");
        } else {
            self.failed += 1;
            println!("FAILS   {name}");
        }
    }

    /// Shows how often each refusal was given; all of `wanted` must have been.
    pub fn covers(&mut self, name: &str, table: &Table, wanted: &[u8]) {
        println!("\n{name}\n\n{table}");
        let refusals = Refusal::ALL.into_iter();
        let missing = table.missing(refusals.filter(|refusal| wanted.contains(&refusal.number())));
        if !missing.is_empty() {
            println!("never given: {missing:?}");
        }
        self.check(
            &format!("{name}: each of the {} refusals was given", wanted.len()),
            missing.is_empty(),
        );
    }
}

/// Tries a test's property on so many cases, others at each run. `holds` may
/// count what it meets. Panics at a case that fails, shrunk.
pub fn holds_on<S: Strategy>(
    cases: u32,
    strategy: &S,
    holds: impl Fn(S::Value) -> Result<(), TestCaseError>,
) {
    let config = Config {
        cases,
        failure_persistence: None,
        ..Config::default()
    };
    let outcome = TestRunner::new(config).run(strategy, holds);
    outcome.unwrap_or_else(|failure| panic!("{failure}"));
}

/// A text, cut where it would fill pages.
fn cut(text: &str) -> String {
    match text.char_indices().nth(4_000) {
        Some((end, _)) => format!("{} ...", &text[..end]),
        None => text.to_owned(),
    }
}
