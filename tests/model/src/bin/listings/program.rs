//! Running the program on one input.

use std::fs::{self, File};
use std::io::{self, Read, Write};
use std::path::{Path, PathBuf};
use std::process::{Child, ChildStdin, Command, ExitStatus, Stdio};
use std::thread;
use std::time::{Duration, Instant};

use crate::inputs::{Feed, Input};

/// A program that runs longer than this is taken to have no end.
const PATIENCE: Duration = Duration::from_secs(30);
/// How often it is asked whether the program has ended.
const INTERVAL: Duration = Duration::from_micros(100);
/// No listing is as long as this; a program that prints more is not read further.
const MOST_OUTPUT: u64 = 1 << 20;
/// After the pieces of an input; the first gives the program time to start.
const PAUSES: [Duration; 3] = [
    Duration::from_millis(2),
    Duration::from_millis(1),
    Duration::from_millis(1),
];

/// What the program did: how it ended, and what it wrote to its two outputs.
pub struct Ran {
    pub status: ExitStatus,
    pub output: Vec<u8>,
    pub errors: Vec<u8>,
}

/// Runs the program. `scratch` is a file that only this run uses.
pub fn run(program: &Path, input: &Input, scratch: &Path) -> io::Result<Ran> {
    let mut child = Command::new(program)
        .stdin(standard_input(input, scratch)?)
        .stdout(Stdio::piped())
        .stderr(Stdio::piped())
        .spawn()?;
    let (stdin, stdout, stderr) = (child.stdin.take(), child.stdout.take(), child.stderr.take());
    thread::scope(|scope| {
        scope.spawn(|| stdin.map(|pipe| write(pipe, input)));
        let output = scope.spawn(|| stdout.map(read).unwrap_or_default());
        let errors = scope.spawn(|| stderr.map(read).unwrap_or_default());
        let status = wait(&mut child)?;
        Ok(Ran {
            status,
            output: output.join().expect("reading does not panic"),
            errors: errors.join().expect("reading does not panic"),
        })
    })
}

fn standard_input(input: &Input, scratch: &Path) -> io::Result<Stdio> {
    match input.feed {
        Feed::Whole | Feed::Pieces(_) => Ok(Stdio::piped()),
        Feed::File => {
            fs::write(scratch, &input.bytes)?;
            File::open(scratch).map(Stdio::from)
        }
        Feed::Unreadable => {
            let folder = scratch.parent().map_or(PathBuf::from("."), PathBuf::from);
            File::open(folder).map(Stdio::from)
        }
    }
}

/// Writes the input and closes the pipe. The program may leave what is past the room
/// unread, so that a write fails; what it prints is judged all the same.
fn write(mut pipe: ChildStdin, input: &Input) {
    let mut rest = &input.bytes[..];
    if let Feed::Pieces(ends) = input.feed {
        for (end, pause) in ends.into_iter().zip(PAUSES) {
            let (piece, after) = rest.split_at(end + rest.len() - input.bytes.len());
            rest = after;
            let _ = pipe.write_all(piece).and_then(|()| pipe.flush());
            thread::sleep(pause);
        }
    }
    let _ = pipe.write_all(rest);
}

fn read(pipe: impl Read) -> Vec<u8> {
    let mut bytes = Vec::new();
    let _ = pipe.take(MOST_OUTPUT).read_to_end(&mut bytes);
    bytes
}

/// Waits for the program, and ends it if it does not end by itself.
fn wait(child: &mut Child) -> io::Result<ExitStatus> {
    let began = Instant::now();
    while began.elapsed() < PATIENCE {
        if let Some(status) = child.try_wait()? {
            return Ok(status);
        }
        thread::sleep(INTERVAL);
    }
    child.kill()?;
    child.wait()?;
    Err(io::Error::other("the program did not come to an end"))
}
