//! The inputs spread over two programs, and what is told of a difference.

use std::fs;
use std::io;
use std::path::{Path, PathBuf};
use std::process::ExitCode;
use std::sync::atomic::{AtomicU64, Ordering};
use std::thread;
use std::time::Instant;

use ultra_model::generator::inputs::{self, Difference, Kind};
use ultra_model::generator::rng::Rng;
use ultra_model::tally::Tally;

use crate::bench::Driven;
use crate::endings::Otherwise;
use crate::link::{Found, Link};
use crate::tally::{gaps, ALL, ROWS};
use crate::{again, endings, exports, limits, lines, malformed, payloads, several};

/// How many programs run at a time.
const PROGRAMS: u64 = 2;
/// Where frames are written, below the current folder.
const FOLDER: &str = "target/driven";
/// Set apart from the numbers that make the input and its calls.
const SALT: u64 = 0x4D4F_5245;
const PAYLOAD_SALT: u64 = 0x4841_4E44;
const LINE_SALT: u64 = 0x4C49_4E45;
const EXPORT_SALT: u64 = 0x4558_504F;
/// Every so many inputs there are malformed frames, and the longest frames.
const MALFORMED_EVERY: u64 = 64;
const LIMITS_EVERY: u64 = 4_096;

pub struct Run {
    pub program: PathBuf,
    pub inputs: u64,
    pub seed: u64,
}

/// Makes and runs the input of this index.
fn input(bench: &mut Driven, seed: u64, index: u64) -> Result<(), Difference> {
    inputs::run(bench, seed, index)?;
    let rng = &mut Rng::for_input(seed ^ SALT, index);
    if Kind::of(index) == Kind::Rebuild {
        again::run(bench, rng)?;
    }
    if index.is_multiple_of(MALFORMED_EVERY) {
        malformed::run(bench, rng)?;
    }
    if index.is_multiple_of(LIMITS_EVERY) {
        limits::run(bench, rng)?;
    }
    several::run(bench, rng)?;
    lines::run(bench, &mut Rng::for_input(seed ^ LINE_SALT, index))?;
    payloads::run(bench, &mut Rng::for_input(seed ^ PAYLOAD_SALT, index))?;
    exports::run(bench, &mut Rng::for_input(seed ^ EXPORT_SALT, index))
}

pub fn all(run: &Run) -> ExitCode {
    let began = Instant::now();
    let endings = match endings::run(&run.program, run.seed) {
        Ok(endings) => endings,
        Err(Otherwise { what, input }) => {
            eprintln!("DIFFERENCE in a process of its own: {what}");
            leave("ending.frames", "its whole input", &input);
            return ExitCode::FAILURE;
        }
    };
    let (tally, found) = match run_all(run) {
        Ok(result) => result,
        Err(error) => {
            eprintln!("{}: {error}", run.program.display());
            return ExitCode::FAILURE;
        }
    };
    if let Some(found) = found {
        report(run, &found);
        return ExitCode::FAILURE;
    }
    let (inputs, seed, calls) = (tally.inputs(), run.seed, tally.calls());
    println!(
        "{inputs} inputs from seed {seed:#x}, {calls} calls to {PROGRAMS} programs: 0 differences"
    );
    println!("{endings} whole inputs, each to a program of its own: 0 differences");
    tally.print();
    println!("seconds: {:.1}", began.elapsed().as_secs_f64());
    let gaps = gaps(&tally);
    for gap in &gaps {
        eprintln!("NOT COVERED: {gap}");
    }
    ExitCode::from(u8::from(!gaps.is_empty()))
}

/// What was met, and of all differences the one of the lowest index.
fn run_all(run: &Run) -> io::Result<(Tally, Option<Found>)> {
    // No input from here on needs to be run.
    let stop = AtomicU64::new(run.inputs);
    let mut total = Tally::new(ROWS, ALL);
    let mut found = Vec::new();
    thread::scope(|scope| {
        let stop = &stop;
        let workers: Vec<_> = (0..PROGRAMS)
            .map(|place| scope.spawn(move || work(run, place, stop)))
            .collect();
        for worker in workers {
            let (tally, difference) = worker.join().expect("a worker panicked")?;
            total.merge(&tally);
            found.extend(difference);
        }
        Ok(())
    })
    .map(|()| (total, found.into_iter().min_by_key(|found| found.index)))
}

/// One program: input after input, up to a difference.
fn work(run: &Run, place: u64, stop: &AtomicU64) -> io::Result<(Tally, Option<Found>)> {
    let mut bench = Driven::new(Link::ahead(&run.program)?);
    let mut index = place;
    let mut own = None;
    while own.is_none() && index < stop.load(Ordering::Relaxed) {
        if let Err(Difference(what)) = input(&mut bench, run.seed, index) {
            own = Some(Found {
                index,
                what,
                cut: false,
            });
        }
        index += PROGRAMS;
    }
    // What the reader found was sent before, and is the reason where sending failed.
    let (tally, found) = bench.finish();
    let found = found.or(own);
    if let Some(found) = &found {
        stop.fetch_min(found.index, Ordering::Relaxed);
    }
    Ok((tally, found))
}

fn report(run: &Run, found: &Found) {
    let Found { index, what, .. } = found;
    let seed = run.seed;
    eprintln!("DIFFERENCE at seed {seed:#x}, index {index}: {what}");
    eprintln!("the whole input, call by call:");
    if one(run, *index) == ExitCode::SUCCESS {
        eprintln!("(alone it does not differ: it depends on the calls before)");
    }
    eprintln!("repeat it with: driven PROGRAM --one {seed:#x} {index}");
}

/// One input alone. Its frames are left, and where there is a difference the frame of that call
/// with the buffer's bytes.
pub fn one(run: &Run, index: u64) -> ExitCode {
    let link = match Link::shown(&run.program) {
        Ok(link) => link,
        Err(error) => {
            eprintln!("{}: {error}", run.program.display());
            return ExitCode::FAILURE;
        }
    };
    let mut bench = Driven::new(link);
    let difference = input(&mut bench, run.seed, index);
    let file = format!("{:#x}-{index}", run.seed);
    if let Link::Shown(shown) = &bench.link {
        leave(&format!("{file}.frames"), "all its frames", &shown.frames);
    }
    match difference {
        Ok(()) => {
            eprintln!("no difference");
            ExitCode::SUCCESS
        }
        Err(Difference(what)) => {
            eprintln!("DIFFERENCE: {what}");
            leave(&format!("{file}.frame"), "that frame", &bench.whole);
            ExitCode::FAILURE
        }
    }
}

/// Writes frames to a file, to be given to the program again.
fn leave(file: &str, what: &str, bytes: &[u8]) {
    let file = Path::new(FOLDER).join(file);
    let written = fs::create_dir_all(FOLDER).and_then(|()| fs::write(&file, bytes));
    match written {
        Ok(()) => eprintln!("{what}: {}", file.display()),
        Err(error) => eprintln!("{}: {error}", file.display()),
    }
}
