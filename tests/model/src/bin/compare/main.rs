//! Compares `libultra.a` with the model: on each of N inputs made from a seed, every one of
//! the thirteen calls is made on both, and the answers and every lent byte have to be the
//! same.
//!
//! ```text
//! compare [N] [SEED] [--threads T]     N inputs, 1,000,000 if not given
//! compare --one SEED INDEX             a single input, every call shown
//! ```
//!
//! It is built with the feature `archive`, and the folder of the archive in
//! `ULTRA_ARCHIVE_DIR`. About thirty thousand inputs are needed to meet every number and shape.
//!
//! Status 0: no difference, and every number that a call can give and every shape was met. 1: a
//! difference, a fault of the library, a call without end, or something never met. 2: wrong usage.

#![forbid(unsafe_code)]

mod bench;
mod driver;
mod lent;
mod tally;

fn main() -> std::process::ExitCode {
    driver::main()
}
