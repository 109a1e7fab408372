//! Seeded inputs, for the programs that compare the library and the listing with the model:
//! numbers ([`rng`]), [`records`] and their attributes, lists of modules ([`module_lists`]),
//! [`contexts`], good and bad, and calls ([`mod@call`]) with [`arguments`] that suit them, alone
//! and in sequences ([`inputs`]); boards' texts, and buffers that are asked for their command line
//! ([`lines`]); Handover [`payloads`], good and bad, and what is given to write one
//! ([`writings`]); contexts to be exported to one ([`exports`]). All of it comes from a seed and an
//! index alone.

pub mod arguments;
pub mod call;
pub mod contexts;
pub mod exports;
pub mod given;
pub mod inputs;
pub mod lines;
pub mod module_lists;
pub mod payloads;
pub mod records;
pub mod rng;
pub mod writings;

/// The seed of a program that is given none.
pub const DEFAULT_SEED: u64 = 0x554C_5442;

/// A number given to a program: decimal, or hexadecimal after `0x`.
pub fn number(text: &str) -> Option<u64> {
    match text.strip_prefix("0x") {
        Some(digits) => u64::from_str_radix(digits, 16).ok(),
        None => text.replace('_', "").parse().ok(),
    }
}
