//! Arguments, threads, and what happens when something is wrong.

use std::env;
use std::os::unix::process::{parent_id, ExitStatusExt};
use std::process::{self, Command, ExitCode, ExitStatus, Stdio};
use std::sync::atomic::{AtomicU64, Ordering};
use std::sync::Mutex;
use std::thread;
use std::time::{Duration, Instant};

use ultra_model::generator::given::hex;
use ultra_model::generator::inputs::{self, Bench, Difference};
use ultra_model::generator::{number, DEFAULT_SEED};
use ultra_model::tally::Tally;

use crate::bench::Archive;
use crate::tally::{ALL, ROWS};

const DEFAULT_INPUTS: u64 = 1_000_000;
const DEFAULT_THREADS: u64 = 2;
/// An input that takes longer than this is taken to have no end.
const PATIENCE: Duration = Duration::from_secs(60);

/// The signals of a fault: illegal instruction, trap, abort, bus error, arithmetic, and
/// memory that is not there.
const FAULTS: [i32; 6] = [4, 5, 6, 7, 8, 11];
/// The index of a worker that is at none.
const IDLE: u64 = u64::MAX;

const USAGE: &str = "usage: compare [N] [SEED] [--threads T] | compare --one SEED INDEX";

/// What to run: the inputs of these indices.
#[derive(Clone, Copy)]
struct Run {
    seed: u64,
    from: u64,
    to: u64,
    threads: u64,
}

enum Task {
    All(Run),
    One {
        seed: u64,
        index: u64,
    },
    /// What a run's own child process does.
    Part(Run),
}

fn parse(arguments: &[String]) -> Option<Task> {
    let mut options = Vec::new();
    let mut numbers = Vec::new();
    let mut threads = DEFAULT_THREADS;
    let mut rest = arguments.iter();
    while let Some(argument) = rest.next() {
        match argument.as_str() {
            "--threads" => threads = number(rest.next()?).filter(|&threads| threads > 0)?,
            option if option.starts_with("--") => options.push(option),
            text => numbers.push(number(text)?),
        }
    }
    let run = |seed, from, to| Run {
        seed,
        from,
        to,
        threads,
    };
    match (&options[..], &numbers[..]) {
        ([], []) => Some(Task::All(run(DEFAULT_SEED, 0, DEFAULT_INPUTS))),
        ([], [to]) => Some(Task::All(run(DEFAULT_SEED, 0, *to))),
        ([], [to, seed]) => Some(Task::All(run(*seed, 0, *to))),
        (["--one"], [seed, index]) => Some(Task::One {
            seed: *seed,
            index: *index,
        }),
        (["--part"], [seed, from, to]) => Some(Task::Part(run(*seed, *from, *to))),
        _ => None,
    }
}

pub fn main() -> ExitCode {
    let arguments: Vec<String> = env::args().skip(1).collect();
    match parse(&arguments) {
        Some(Task::All(run)) => supervise(run),
        Some(Task::One { seed, index }) => one(seed, index),
        Some(Task::Part(run)) => part(run),
        None => {
            eprintln!("{USAGE}");
            ExitCode::from(2)
        }
    }
}

/// Runs the inputs in a child process, so that a fault of the library can be told, and
/// found among the inputs.
fn supervise(run: Run) -> ExitCode {
    let status = child(run, false);
    let Some(signal) = status.signal() else {
        return ExitCode::from(status.code().unwrap_or(1) as u8);
    };
    if !FAULTS.contains(&signal) {
        eprintln!("the comparison was ended by signal {signal}");
        return ExitCode::FAILURE;
    }
    eprintln!("FAULT: the comparison ended by signal {signal}; looking for the input");
    let Run {
        mut from, mut to, ..
    } = run;
    while to - from > 1 {
        let middle = from + (to - from) / 2;
        let half = Run {
            from,
            to: middle,
            ..run
        };
        match child(half, true).signal() {
            Some(_) => to = middle,
            None => from = middle,
        }
    }
    eprintln!("it is the last call of this one:");
    let seed = run.seed;
    let again = this_program(&["--one".into(), seed.to_string(), from.to_string()]);
    let ended = again.map(|mut command| command.status());
    if !matches!(ended, Ok(Ok(status)) if status.signal().is_some()) {
        eprintln!("(this time it did not fault)");
    }
    eprintln!("repeat it with: compare --one {seed:#x} {from}");
    ExitCode::FAILURE
}

fn this_program(arguments: &[String]) -> std::io::Result<Command> {
    let mut command = Command::new(env::current_exe()?);
    command.args(arguments);
    Ok(command)
}

fn child(run: Run, quiet: bool) -> ExitStatus {
    let arguments = [
        "--part".to_string(),
        run.seed.to_string(),
        run.from.to_string(),
        run.to.to_string(),
        "--threads".to_string(),
        run.threads.to_string(),
    ];
    let started = this_program(&arguments).and_then(|mut command| {
        if quiet {
            command.stdout(Stdio::null()).stderr(Stdio::null());
        }
        command.status()
    });
    started.unwrap_or_else(|error| {
        eprintln!("cannot start the comparison: {error}");
        process::exit(1)
    })
}

/// The inputs split by index over the threads. Of several differences the one of the lowest
/// index is told, however many threads there are.
fn part(run: Run) -> ExitCode {
    let began = Instant::now();
    let first: Mutex<Option<(u64, Difference)>> = Mutex::new(None);
    // No input from here on needs to be run.
    let stop = AtomicU64::new(run.to);
    let at: Vec<AtomicU64> = (0..run.threads).map(|_| AtomicU64::new(IDLE)).collect();
    let mut total = Tally::new(ROWS, ALL);

    thread::scope(|scope| {
        let workers: Vec<_> = (0..run.threads)
            .map(|place| {
                let (first, stop, at) = (&first, &stop, &at[place as usize]);
                scope.spawn(move || {
                    let mut bench = Archive::new(false);
                    let mut index = run.from + place;
                    while index < stop.load(Ordering::Relaxed) {
                        at.store(index, Ordering::Relaxed);
                        if let Err(difference) = inputs::run(&mut bench, run.seed, index) {
                            stop.fetch_min(index, Ordering::Relaxed);
                            let mut first = first.lock().unwrap();
                            if first.as_ref().is_none_or(|(lowest, _)| index < *lowest) {
                                *first = Some((index, difference));
                            }
                        }
                        index += run.threads;
                    }
                    at.store(IDLE, Ordering::Relaxed);
                    bench.tally
                })
            })
            .collect();
        watch(run.seed, &at, || {
            workers.iter().all(|worker| worker.is_finished())
        });
        for worker in workers {
            total.merge(&worker.join().expect("a worker panicked"));
        }
    });

    if let Some((index, Difference(what))) = first.into_inner().unwrap() {
        let seed = run.seed;
        eprintln!("DIFFERENCE at seed {seed:#x}, index {index}: {what}");
        eprintln!("the whole input, call by call:");
        one(seed, index);
        eprintln!("repeat it with: compare --one {seed:#x} {index}");
        return ExitCode::FAILURE;
    }
    let seconds = began.elapsed().as_secs_f64();
    println!(
        "{} inputs from seed {:#x}, on {} threads: 0 differences",
        total.inputs(),
        run.seed,
        run.threads
    );
    total.print();
    println!("seconds: {seconds:.1}");
    let gaps = total.gaps();
    for gap in &gaps {
        eprintln!("NOT COVERED: {gap}");
    }
    ExitCode::from(u8::from(!gaps.is_empty()))
}

/// Waits for the workers; ends the run if one of them stays at an input.
fn watch(seed: u64, at: &[AtomicU64], done: impl Fn() -> bool) {
    let parent = parent_id();
    let now = |index: &AtomicU64| (index.load(Ordering::Relaxed), Instant::now());
    let mut seen: Vec<(u64, Instant)> = at.iter().map(now).collect();
    while !done() {
        thread::sleep(Duration::from_millis(20));
        if parent_id() != parent {
            // Nobody waits for the result any more.
            process::exit(1);
        }
        for (seen, at) in seen.iter_mut().zip(at) {
            let index = at.load(Ordering::Relaxed);
            if index != seen.0 {
                *seen = now(at);
            } else if index != IDLE && seen.1.elapsed() > PATIENCE {
                eprintln!("NO END: seed {seed:#x}, index {index} has not come to an end");
                eprintln!("repeat it with: compare --one {seed:#x} {index}");
                process::exit(1);
            }
        }
    }
}

fn one(seed: u64, index: u64) -> ExitCode {
    let mut bench = Archive::new(true);
    match inputs::run(&mut bench, seed, index) {
        Ok(()) => {
            eprintln!("no difference");
            ExitCode::SUCCESS
        }
        Err(Difference(what)) => {
            eprintln!("DIFFERENCE: {what}");
            eprintln!("the model's buffer now: {}", hex(bench.bytes()));
            ExitCode::FAILURE
        }
    }
}
