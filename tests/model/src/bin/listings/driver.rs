//! The inputs spread over two threads, and what is told of a difference.

use std::fs;
use std::io;
use std::path::{Path, PathBuf};
use std::process::ExitCode;
use std::sync::atomic::{AtomicU64, Ordering};
use std::thread;
use std::time::Instant;

use ultra_model::listing::listing;

use crate::inputs::{self, Input};
use crate::program::{self, Ran};
use crate::tally::Tally;

/// How many programs run at a time.
const THREADS: usize = 2;
/// Where inputs are written, below the current folder.
const FOLDER: &str = "target/listings";
/// How much of a line is shown, and how much of it before the difference.
const SHOWN: usize = 120;
const SHOWN_BEFORE: usize = 40;

pub struct Run {
    pub program: PathBuf,
    pub inputs: u64,
    pub seed: u64,
}

struct Difference {
    index: u64,
    what: String,
}

/// What the threads share: the next index, and the first at which none is begun any more.
struct Progress {
    next: AtomicU64,
    stop: AtomicU64,
}

pub fn compare(run: &Run) -> ExitCode {
    let began = Instant::now();
    if let Err(error) = fs::create_dir_all(FOLDER) {
        eprintln!("{FOLDER}: {error}");
        return ExitCode::FAILURE;
    }
    let (tally, difference) = run_all(run);
    if let Some(difference) = difference {
        report(run.seed, &difference);
        return ExitCode::FAILURE;
    }
    let (inputs, seed) = (run.inputs, run.seed);
    println!("{inputs} inputs from seed {seed:#x}: 0 differences");
    tally.print();
    println!("seconds: {:.1}", began.elapsed().as_secs_f64());
    let gaps = tally.gaps();
    for gap in &gaps {
        eprintln!("NOT COVERED: {gap}");
    }
    ExitCode::from(u8::from(!gaps.is_empty()))
}

/// What was met, and of all differences the one of the lowest index.
fn run_all(run: &Run) -> (Tally, Option<Difference>) {
    let progress = Progress {
        next: AtomicU64::new(0),
        stop: AtomicU64::new(run.inputs),
    };
    let mut total = Tally::default();
    let mut differences = Vec::new();
    thread::scope(|scope| {
        let progress = &progress;
        let workers: Vec<_> = (0..THREADS)
            .map(|place| scope.spawn(move || work(run, progress, place)))
            .collect();
        for worker in workers {
            let (tally, difference) = worker.join().expect("a worker panicked");
            total.merge(&tally);
            differences.extend(difference);
        }
    });
    let first = differences.into_iter().min_by_key(|found| found.index);
    (total, first)
}

/// One thread: input after input, up to a difference.
fn work(run: &Run, progress: &Progress, place: usize) -> (Tally, Option<Difference>) {
    let mut tally = Tally::default();
    let process = std::process::id();
    let scratch = Path::new(FOLDER).join(format!("scratch-{process}-{place}.bin"));
    let mut difference = None;
    while difference.is_none() {
        let index = progress.next.fetch_add(1, Ordering::Relaxed);
        if index >= progress.stop.load(Ordering::Relaxed) {
            break;
        }
        let input = inputs::make(run.seed, index);
        let expected = listing(&input.bytes);
        tally.count(&input, &expected);
        let ran = program::run(&run.program, &input, &scratch);
        if let Some(what) = judge(ran, &expected) {
            progress.stop.fetch_min(index, Ordering::Relaxed);
            difference = Some(Difference { index, what });
        }
    }
    // Only an input that came from a file has left one.
    let _ = fs::remove_file(&scratch);
    (tally, difference)
}

/// How the program differs, if it does.
fn judge(ran: io::Result<Ran>, expected: &[u8]) -> Option<String> {
    let ran = match ran {
        Ok(ran) => ran,
        Err(error) => return Some(error.to_string()),
    };
    if ran.output != expected {
        let line = differing_line(&ran.output, expected);
        return Some(format!("{line}\n  ended by {}", ran.status));
    }
    if !ran.status.success() {
        return Some(format!("the listing is right, but ended by {}", ran.status));
    }
    if !ran.errors.is_empty() {
        let errors = show(&ran.errors, 0);
        return Some(format!(
            "the listing is right, but this was written too: {errors}"
        ));
    }
    None
}

/// The first line that is not the same on both sides; a line has its newline with it.
fn differing_line(output: &[u8], expected: &[u8]) -> String {
    let mut program = output.split_inclusive(|byte| *byte == b'\n');
    let mut model = expected.split_inclusive(|byte| *byte == b'\n');
    let mut number = 1;
    loop {
        let (line, other) = (program.next(), model.next());
        if line != other || line.is_none() {
            return tell(number, line, other);
        }
        number += 1;
    }
}

fn tell(number: usize, program: Option<&[u8]>, model: Option<&[u8]>) -> String {
    let (ours, theirs) = (model.unwrap_or_default(), program.unwrap_or_default());
    let same = ours.iter().zip(theirs).take_while(|(a, b)| a == b).count();
    let side = |line: Option<&[u8]>| line.map_or("(no line)".into(), |line| show(line, same));
    let (program, model) = (side(program), side(model));
    format!("line {number}, from its byte {same} on\n  program: {program}\n  model:   {model}")
}

/// The part of a line about the byte at which a difference begins.
fn show(line: &[u8], at: usize) -> String {
    let from = at.saturating_sub(SHOWN_BEFORE).min(line.len());
    let part = &line[from..line.len().min(from + SHOWN)];
    let before = if from > 0 { ".. " } else { "" };
    let after = if from + part.len() < line.len() {
        " .."
    } else {
        ""
    };
    format!("{before}\"{}\"{after}", part.escape_ascii())
}

fn report(seed: u64, difference: &Difference) {
    let Difference { index, what } = difference;
    let Input { kind, bytes, feed } = inputs::make(seed, *index);
    eprintln!("DIFFERENCE at seed {seed:#x}, index {index} ({kind}, {feed:?}): {what}");
    let file = Path::new(FOLDER).join(format!("{seed:#x}-{index}.bin"));
    let length = bytes.len();
    match fs::write(&file, bytes) {
        Ok(()) => eprintln!("its input, {length} bytes, is in {}", file.display()),
        Err(error) => eprintln!("its input cannot be written to {}: {error}", file.display()),
    }
}
