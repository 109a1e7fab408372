//! Rounds of each subject in turn, so that what else the machine does falls on all alike.

use std::ffi::c_int;
use std::hint::black_box;
use std::time::Duration;

use crate::inputs::Input;
use crate::jobs::{ultra_bench_measured, Call, Job, Who};

const ROUNDS: usize = 21;
/// A round lasts at least this long.
const ROUND: Duration = Duration::from_millis(20);

/// Nanoseconds for a call, or for a whole building.
#[derive(Clone, Copy)]
pub struct Time {
    pub median: f64,
    pub least: f64,
}

/// The times of the call's subjects, in their order.
pub fn time(call: Call, input: &Input) -> Vec<Time> {
    let mut job = Job::new(call, input);
    let subjects = call.subjects();
    let times: Vec<u64> = subjects
        .iter()
        .map(|&who| times_for_a_round(&mut job, who))
        .collect();
    let mut seen = vec![Vec::with_capacity(ROUNDS); subjects.len()];
    for _ in 0..ROUNDS {
        for ((&who, &times), seen) in subjects.iter().zip(&times).zip(&mut seen) {
            let taken = round(&mut job, who, times);
            seen.push(taken.as_nanos() as f64 / times as f64);
        }
    }
    seen.into_iter()
        .map(|mut seen| {
            seen.sort_by(f64::total_cmp);
            Time {
                median: seen[ROUNDS / 2],
                least: seen[0],
            }
        })
        .collect()
}

fn round(job: &mut Job, who: Who, times: u64) -> Duration {
    let start = processor_time();
    black_box(ultra_bench_measured(job, who, times));
    processor_time() - start
}

/// The time that this thread had a processor: what others had is not counted. Linux, as the
/// archive's ABI is.
fn processor_time() -> Duration {
    #[repr(C)]
    struct Timespec {
        seconds: i64,
        nanoseconds: i64,
    }
    extern "C" {
        fn clock_gettime(clock: c_int, time: *mut Timespec) -> c_int;
    }
    const CLOCK_THREAD_CPUTIME_ID: c_int = 3;

    let mut time = Timespec {
        seconds: 0,
        nanoseconds: 0,
    };
    let failed = unsafe { clock_gettime(CLOCK_THREAD_CPUTIME_ID, &mut time) };
    assert_eq!(failed, 0, "there is no clock of the thread");
    Duration::new(time.seconds as u64, time.nanoseconds as u32)
}

fn times_for_a_round(job: &mut Job, who: Who) -> u64 {
    let mut times = 1;
    loop {
        let taken = round(job, who, times);
        if taken >= ROUND {
            // A quarter more, since the next rounds may be quicker.
            return times + times / 4 + 1;
        }
        // Up to the goal by what was seen, at most tenfold at once.
        let wanted = ROUND.as_nanos() as u64 * times / (taken.as_nanos() as u64).max(1);
        times = wanted.clamp(times, 10 * times) + 1;
    }
}

/// The tables of all calls, in Markdown.
pub fn report(inputs: &[Input]) {
    let mut misses = 0;
    for call in Call::ALL {
        println!(
            "\n{}: ns, median (least) of {ROUNDS} rounds\n",
            call.title()
        );
        header(call);
        let mut beyond = Vec::new();
        for input in inputs.iter().filter(|input| call.takes(input)) {
            let times = time(call, input);
            let by = |other: usize| times[0].median / times[other].median;
            let by_least = |other: usize| times[0].least / times[other].least;
            let goal = if by(1) <= 1.0 { "PASS" } else { "MISS" };
            misses += usize::from(goal == "MISS");
            let mut row = format!("| {} |", input.title);
            for time in &times {
                row += &format!(" {} ({}) |", figure(time.median), figure(time.least));
            }
            for other in 1..times.len() {
                row += &format!(" {:.2} ({:.2}) |", by(other), by_least(other));
                if other == 1 {
                    row += &format!(" {goal} |");
                }
            }
            println!("{row}");
            if call == Call::Read && input.is_usual() {
                beyond = vec![("the bare walk", by(2)), ("the using walk", by(3))];
            }
        }
        for (what, ratio) in beyond {
            let goal = if ratio <= 3.0 { "PASS" } else { "MISS" };
            misses += usize::from(ratio > 3.0);
            println!("\nReading the usual input takes {ratio:.2} times {what}; goal 3.00: {goal}");
        }
    }
    println!("\nGoals missed: {misses}");
}

/// The head of a call's table; instructions.py prints the same columns.
fn header(call: Call) {
    let columns = match call {
        Call::Read => {
            "| input | library | Rust | bare walk | using walk | library / Rust | goal 1.00 | library / bare | library / using |\n\
             |---|---|---|---|---|---|---|---|---|"
        }
        Call::Refuse => {
            "| input | library | Rust | library / Rust | goal 1.00 |\n\
             |---|---|---|---|---|"
        }
        _ => {
            "| input | library | Rust | unchecked C | library / Rust | goal 1.00 | library / unchecked |\n\
             |---|---|---|---|---|---|---|"
        }
    };
    println!("{columns}");
}

fn figure(nanoseconds: f64) -> String {
    if nanoseconds < 100.0 {
        format!("{nanoseconds:.1}")
    } else {
        format!("{nanoseconds:.0}")
    }
}
