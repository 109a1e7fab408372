//! Whole inputs of the program, up to its end: frames cut short, frames that say that they are
//! too long, and the first call with the buffer kept. Each has a process of its own.

use std::io::{self, Read, Write};
use std::path::Path;
use std::thread;

use ultra_model::driving::frame::{put_frame, Head, Lent, FRAME_LIMIT, HEAD_LENGTH};
use ultra_model::driving::table::{ADD_COMMAND_LINE, BEGIN, COMMAND_LINE, READ};
use ultra_model::driving::{Driver, MALFORMED};
use ultra_model::generator::contexts;
use ultra_model::generator::rng::Rng;

use crate::program::Program;
use crate::telling;

/// No output is as long as this; of a longer one the rest is not read.
const MOST_OUTPUT: u64 = 1 << 22;

/// An input, and what it is.
struct Ending {
    what: String,
    input: Vec<u8>,
}

/// How the program differs on an input.
pub struct Otherwise {
    pub what: String,
    pub input: Vec<u8>,
}

/// Tries all of them; how many there were, or how the program differs on one.
pub fn run(program: &Path, seed: u64) -> Result<usize, Otherwise> {
    let endings = all(&mut Rng::for_input(seed, 0));
    let count = endings.len();
    for Ending { what, input } in endings {
        let found = compare(program, &input).unwrap_or_else(|error| Some(error.to_string()));
        if let Some(found) = found {
            let what = format!("{what}: {found}");
            return Err(Otherwise { what, input });
        }
    }
    Ok(count)
}

/// How the program's whole output differs from the model's, if it does.
fn compare(path: &Path, input: &[u8]) -> io::Result<Option<String>> {
    let (program, mut stdin, stdout) = Program::start(path)?;
    let mut output = Vec::new();
    thread::scope(|scope| {
        // A program that has ended takes no more; what it answered is judged all the same.
        scope.spawn(move || stdin.write_all(input));
        stdout.take(MOST_OUTPUT).read_to_end(&mut output)
    })?;
    let expected = Driver::run(input);
    if output == expected {
        return Ok(telling::bad_end(program.ended()));
    }
    let same = output.iter().zip(&expected).take_while(|(a, b)| a == b);
    Ok(Some(format!(
        "the program writes {} bytes and the model {}, the same for {}",
        output.len(),
        expected.len(),
        same.count()
    )))
}

fn all(rng: &mut Rng) -> Vec<Ending> {
    let buffer = contexts::valid(rng, false).buffer.bytes;
    let mut read = Vec::new();
    put_frame(&mut read, READ, &[], &[Lent::Bytes(&buffer)]);
    let mut kept = Vec::new();
    put_frame(&mut kept, READ, &[], &[Lent::Kept]);
    let mut endings = vec![
        ending("no input", &[]),
        ending("the kept buffer at the start", &[&kept, &read, &kept]),
    ];
    endings.extend(cut_short(&read, &kept));
    endings.extend(too_long(&read, &kept));
    endings.push(longest(&kept));
    endings
}

fn ending(what: impl Into<String>, frames: &[&[u8]]) -> Ending {
    Ending {
        what: what.into(),
        input: frames.concat(),
    }
}

/// A frame that ends within its head, after it, and within its strings; after another frame.
fn cut_short(read: &[u8], kept: &[u8]) -> Vec<Ending> {
    let places = (1..=HEAD_LENGTH + 5).chain([read.len() / 2, read.len() - 1]);
    let cut = |at: usize| {
        let what = format!("a frame cut short after {at} bytes");
        ending(what, &[read, kept, &read[..at]])
    };
    places.map(cut).collect()
}

/// Frames of just more than the most, with what they say or without, and calls after them,
/// which are not made.
fn too_long(read: &[u8], kept: &[u8]) -> Vec<Ending> {
    let least = (FRAME_LIMIT - HEAD_LENGTH + 1) as u32;
    let mut endings = Vec::new();
    for rest in [least, least + 7, 1 << 31, u32::MAX - 15, u32::MAX] {
        for (call, body) in [(READ, 0), (MALFORMED, 0), (BEGIN, least as usize)] {
            let head = Head {
                call,
                numbers: 0,
                strings: 1,
                rest,
            };
            let body = vec![0; body];
            let what = format!(
                "call {call} with {rest} bytes to follow, and {}",
                body.len()
            );
            endings.push(ending(what, &[read, &head.bytes(), &body, kept]));
        }
    }
    endings
}

/// A frame of just the most bytes is answered, also where it is no call, and the next one too.
fn longest(kept: &[u8]) -> Ending {
    let text = vec![b'x'; FRAME_LIMIT - HEAD_LENGTH - 8];
    let mut frames = Vec::new();
    for call in [ADD_COMMAND_LINE, COMMAND_LINE, MALFORMED] {
        put_frame(&mut frames, call, &[], &[Lent::Kept, Lent::Bytes(&text)]);
    }
    ending("frames of just the most bytes", &[&frames, kept])
}
