//! Compares the listing program with the model: on each of N inputs made from a seed, what
//! it prints has to be the model's listing, byte for byte.
//!
//! ```text
//! listings PROGRAM [N] [SEED]     N inputs, 4,000 if not given
//! ```
//!
//! An input on which the two differ is written to a file in `target/listings`, below the
//! current folder. About a thousand inputs are needed to meet everything that is asked for.
//!
//! Status 0: no difference, and every line, refusal number and shape was met. 1: a
//! difference, another exit status than 0, a program without end, or something never met.
//! 2: wrong usage.

#![forbid(unsafe_code)]

mod driver;
mod fullest;
mod inputs;
mod likely;
mod program;
mod tally;

use std::env;
use std::fs;
use std::path::PathBuf;
use std::process::ExitCode;

use driver::Run;
use ultra_model::generator::{number, DEFAULT_SEED};

const DEFAULT_INPUTS: u64 = 4_000;
const USAGE: &str = "usage: listings PROGRAM [N] [SEED]";

fn parse(arguments: &[String]) -> Result<Run, String> {
    let (program, numbers) = arguments.split_first().ok_or(USAGE)?;
    let numbers: Option<Vec<u64>> = numbers.iter().map(|text| number(text)).collect();
    let (inputs, seed) = match numbers.as_deref() {
        Some([]) => (DEFAULT_INPUTS, DEFAULT_SEED),
        Some([inputs]) => (*inputs, DEFAULT_SEED),
        Some([inputs, seed]) => (*inputs, *seed),
        _ => return Err(USAGE.into()),
    };
    let program: PathBuf =
        fs::canonicalize(program).map_err(|error| format!("{program}: {error}"))?;
    Ok(Run {
        program,
        inputs,
        seed,
    })
}

fn main() -> ExitCode {
    let arguments: Vec<String> = env::args().skip(1).collect();
    match parse(&arguments) {
        Ok(run) => driver::compare(&run),
        Err(what) => {
            eprintln!("{what}");
            ExitCode::from(2)
        }
    }
}
