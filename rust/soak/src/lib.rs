//! What the `compare` and `ramp` programs are made of.

pub mod compare;
pub mod frames;
pub mod marks;
pub mod moods;
pub mod naive;
pub mod options;
pub mod order;
pub mod process;
pub mod ramp;
pub mod rng;
pub mod script;
pub mod shrink;
pub mod sizes;
pub mod sums;
pub mod table;
