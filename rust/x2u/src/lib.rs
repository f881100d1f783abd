//! The X2 user plane of LTE dual connectivity (TS 36.425), both ends of one
//! bearer.
//!
//! * [`frame`] reads and writes the four frame types.
//! * [`Keeper`] is the secondary: it decides which packets are lost and reports.
//! * [`Ledger`] is the master: it holds what was sent until a report settles it.
//!
//! Nothing here allocates, blocks or panics, and a refused call changes
//! neither the end it was made on nor an octet of the caller's buffer.

#![no_std]
#![forbid(unsafe_code)]

pub mod bearer;
pub mod circle;
pub mod frame;
pub mod keeper;
pub mod ledger;
pub mod refusal;
mod ring;

pub use bearer::{Bearer, Form};
pub use frame::{Frame, Range, Report};
pub use keeper::Keeper;
pub use ledger::Ledger;
pub use refusal::Refusal;

/// How a call ends: its answer, or the one reason it was refused.
pub type Answer<T> = Result<T, Refusal>;
