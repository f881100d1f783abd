//! The product's functions, called through its C boundary.
//!
//! Slices cross as pointer and length, arrays as pointers, and a refusal comes
//! back as its number below zero. Every function answers whatever it is given,
//! so nothing more than the types here has to be kept to call them.
//!
//! Without the feature `product` there is nothing here.

#[cfg(feature = "product")]
mod calls;
#[cfg(feature = "product")]
mod foreign;
#[cfg(feature = "probe")]
mod probe;

#[cfg(feature = "product")]
pub use calls::{Keeper, Room, first_range, next_range, read, read_all, write_data, write_status};
#[cfg(feature = "product")]
pub use foreign::{CURSOR, Cursor, Fields, MOST_RECORDS, MOST_RUNS, OPEN, Range, Words};
#[cfg(feature = "probe")]
pub use probe::{ledger_accepts, ledger_rooms, ledger_sends, ledger_sends_behind};
