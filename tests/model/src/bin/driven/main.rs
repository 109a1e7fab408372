//! Compares the driver program, and so every published call of Rattle, with the model: on each
//! of N inputs made from a seed, calls are sent to the program in frames, and every number,
//! every string and every lent byte that it answers has to be the model's.
//!
//! ```text
//! driven PROGRAM [N] [SEED]          N inputs, 300,000 if not given
//! driven PROGRAM --one SEED INDEX    a single input, every call shown
//! ```
//!
//! Of every hundred inputs some forty have a Handover payload besides, to be read or to be
//! written, some twenty a buffer that is exported to one, which is read back, and some ten a
//! buffer that is asked for its command line with boards' texts. Most calls are lent the buffer
//! that the program kept, so that a sequence of calls is one on the program's own memory.
//! Malformed frames are among the calls, and inputs that end the program have a process each. The
//! frames of an input on which the two differ are left in `target/driven`, below the current
//! folder; the program can be given them again. About fifty thousand inputs are needed to meet
//! everything that is asked for.
//!
//! Status 0: no difference, and every number and shape was met. 1: a difference, another end of
//! the program than a success, a call without an answer, or something never met. 2: wrong usage.

#![forbid(unsafe_code)]

mod again;
mod bench;
mod endings;
mod exports;
mod limits;
mod lines;
mod link;
mod malformed;
mod payloads;
mod program;
mod run;
mod several;
mod spelling;
mod tally;
mod telling;
mod writings;

use std::env;
use std::fs;
use std::process::ExitCode;

use run::Run;
use ultra_model::generator::{number, DEFAULT_SEED};

const DEFAULT_INPUTS: u64 = 300_000;
const USAGE: &str = "usage: driven PROGRAM [N] [SEED] | driven PROGRAM --one SEED INDEX";

enum Task {
    All(Run),
    One(Run, u64),
}

fn parse(arguments: &[String]) -> Result<Task, String> {
    let (program, rest) = arguments.split_first().ok_or(USAGE)?;
    let program = fs::canonicalize(program).map_err(|error| format!("{program}: {error}"))?;
    let (one, rest) = match rest.split_first() {
        Some((option, rest)) if option == "--one" => (true, rest),
        _ => (false, rest),
    };
    let numbers: Option<Vec<u64>> = rest.iter().map(|text| number(text)).collect();
    let run = |inputs, seed| Run {
        program: program.clone(),
        inputs,
        seed,
    };
    match (one, numbers.as_deref()) {
        (false, Some([])) => Ok(Task::All(run(DEFAULT_INPUTS, DEFAULT_SEED))),
        (false, Some([inputs])) => Ok(Task::All(run(*inputs, DEFAULT_SEED))),
        (false, Some([inputs, seed])) => Ok(Task::All(run(*inputs, *seed))),
        (true, Some([seed, index])) => Ok(Task::One(run(0, *seed), *index)),
        _ => Err(USAGE.into()),
    }
}

fn main() -> ExitCode {
    let arguments: Vec<String> = env::args().skip(1).collect();
    match parse(&arguments) {
        Ok(Task::All(run)) => run::all(&run),
        Ok(Task::One(run, index)) => run::one(&run, index),
        Err(what) => {
            eprintln!("{what}");
            ExitCode::from(2)
        }
    }
}
