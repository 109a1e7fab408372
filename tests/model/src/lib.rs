//! An independent model of the boot context of the Ultra protocol, written
//! from the paper alone ("01", the build outline and its exact rules).
//!
//! [`calls`] has the thirteen calls in the shape they have toward C: lent bytes
//! and numbers in, a single `u64` out. The modules under it go by subject:
//! the [`format`] and its [`records`], [`reading`], [`stepping`],
//! [`questions`] and [`building`]. [`mod@listing`] is what the listing program
//! prints, and [`driving`] has the published calls of Rattle, as the driver program makes
//! them. [`generator`] makes the inputs of the programs that compare, and [`mod@tally`] counts
//! what they met. [`requests`] has a place for each change request; the Handover payload is all
//! there ([`requests::handover`]).

#![forbid(unsafe_code)]

pub mod building;
pub mod calls;
pub mod driving;
pub mod format;
pub mod generator;
pub mod listing;
pub mod questions;
pub mod reading;
pub mod records;
pub mod requests;
pub mod stepping;
pub mod tally;

pub use format::{Number, Refusal};
