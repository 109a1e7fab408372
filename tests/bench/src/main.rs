//! How fast `libultra.a` is beside the Rust model and an unchecked walk in C: same process,
//! same input, in turn. It is no test: a goal that is missed is only said.
//!
//! Without arguments it prints the times. `--once WHO CALL INPUT TIMES` makes one call that
//! often, for callgrind, and `--list` names all of these; instructions.py goes by it.

mod answers;
mod inputs;
mod jobs;
mod records;
mod subjects;
mod timing;
mod walks;

use std::env;
use std::hint::black_box;
use std::process::ExitCode;

use inputs::Input;
use jobs::{ultra_bench_measured, Call, Job, Who};

fn main() -> ExitCode {
    let arguments: Vec<String> = env::args().skip(1).collect();
    let arguments: Vec<&str> = arguments.iter().map(String::as_str).collect();
    let inputs = inputs::all();
    match arguments[..] {
        [] => {
            answers::compare(&inputs);
            timing::report(&inputs);
            ExitCode::SUCCESS
        }
        ["--list"] => {
            list(&inputs);
            ExitCode::SUCCESS
        }
        ["--once", who, call, input, times] => match once(&inputs, who, call, input, times) {
            Some(()) => ExitCode::SUCCESS,
            None => usage(),
        },
        _ => usage(),
    }
}

fn usage() -> ExitCode {
    eprintln!("ultra_bench [--list | --once WHO CALL INPUT TIMES]");
    ExitCode::from(2)
}

/// Call, its title, input, its title, whether it has a goal, and who, between tabs.
fn list(inputs: &[Input]) {
    for call in Call::ALL {
        for input in inputs.iter().filter(|input| call.takes(input)) {
            let goal = if input.is_extra() { "extra" } else { "goal" };
            for who in call.subjects() {
                let names = [
                    call.name(),
                    call.title(),
                    input.name,
                    input.title,
                    goal,
                    who.name(),
                ];
                println!("{}", names.join("\t"));
            }
        }
    }
}

fn once(inputs: &[Input], who: &str, call: &str, input: &str, times: &str) -> Option<()> {
    let who = Who::ALL.into_iter().find(|one| one.name() == who)?;
    let call = Call::ALL.into_iter().find(|one| one.name() == call)?;
    let input = inputs.iter().find(|one| one.name == input)?;
    if !call.takes(input) || !call.subjects().contains(&who) {
        return None;
    }
    black_box(ultra_bench_measured(
        &mut Job::new(call, input),
        who,
        times.parse().ok()?,
    ));
    Some(())
}
