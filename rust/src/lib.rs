//! The station ledger, written a second time from its rules alone.
//!
//! Nothing here is proved and nothing is shared with the proved crates: the two are compared by
//! what they answer. Litres are whole thousandths of a normal cubic metre, temperatures whole
//! tenths of a degree, factors whole ten-millionths.

pub mod calendar;
pub mod charges;
pub mod journal;
pub mod ledger;
pub mod player;
pub mod point;
pub mod profiles;
pub mod refusal;
pub mod report;
pub mod shares;
pub mod text;

pub use refusal::{Refusal, Refused};

/// The most litres that any one entry, inflow or monthly quantity may have.
pub const MOST_LITRES: u64 = 1_000_000_000;
/// One, in ten-millionths: the largest factor.
pub const ONE: u64 = 10_000_000;
