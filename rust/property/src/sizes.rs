//! Sizes of PDUs and desired sizes, many of them at a limit.

use proptest::prelude::*;
use proptest::sample::select;
use soak::sizes::{Desired, LIMITS, Size};
use x2u::ledger::LARGEST_SIZE;

/// Sizes of PDUs: any that is allowed, at the limits and beyond, and as much as
/// there is room for.
pub fn sizes() -> impl Strategy<Value = Size> {
    prop_oneof![
        4 => (1..=LARGEST_SIZE).prop_map(Size::Octets),
        4 => (40_u32..1_500).prop_map(Size::Octets),
        4 => (-1_i32..2).prop_map(Size::Room),
        3 => select(LIMITS.to_vec()).prop_map(Size::Octets),
        1 => any::<u32>().prop_map(Size::Octets),
    ]
}

/// Desired sizes: any, none, and around what the status leaves waiting.
pub fn desireds() -> impl Strategy<Value = Desired> {
    prop_oneof![
        1 => any::<u32>().prop_map(Desired::Octets),
        1 => select(vec![0, 1, u32::MAX]).prop_map(Desired::Octets),
        5 => (-1_i32..2).prop_map(Desired::Left),
        3 => (-30_000_i32..60_000).prop_map(Desired::Left),
    ]
}
