//! Marks of expiries, many of them at a limit.

use proptest::prelude::*;
use proptest::sample::select;
use soak::marks::Mark;

/// Marks: the highest accepted, base and the number opposite it, and around each;
/// between base and the highest accepted; stale ones, past the circle, and any.
pub fn marks() -> impl Strategy<Value = Mark> {
    let near = || -2_i32..3;
    prop_oneof![
        4 => Just(Mark::Highest(0)),
        2 => Just(Mark::Highest(1)),
        3 => near().prop_map(Mark::Highest),
        3 => near().prop_map(Mark::Base),
        3 => near().prop_map(Mark::Half),
        5 => (0_u32..=1_024).prop_map(Mark::Between),
        1 => (-40_000_i32..0).prop_map(Mark::Base),
        3 => select(vec![0, 1, 7, u32::MAX]).prop_map(Mark::Outside),
        1 => any::<u32>().prop_map(Mark::Number),
    ]
}
