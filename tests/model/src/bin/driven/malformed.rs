//! Frames that are no call: each is answered as malformed, and the buffer stays.

use ultra_model::driving::frame::{put_frame, Lent, FRAME_LIMIT, HEAD_LENGTH, KEPT};
use ultra_model::driving::table::*;
use ultra_model::driving::MALFORMED;
use ultra_model::generator::inputs::{Bench, Difference};
use ultra_model::generator::rng::Rng;

use crate::bench::Driven;
use crate::spelling::{self, Asked};
use crate::tally::Shape;

/// The ways in which a frame is malformed.
const SHAPES: [Shape; 12] = [
    Shape::UnknownCall,
    Shape::OtherNumbers,
    Shape::OtherStrings,
    Shape::RestTooLong,
    Shape::RestTooShort,
    Shape::StringPastTheEnd,
    Shape::CountsThatWrap,
    Shape::BufferTooLong,
    Shape::MapTooLong,
    Shape::TooManyModules,
    Shape::TooManyParts,
    Shape::NoBoard,
];

/// Malformed frames, and after each a call that shows the buffer.
pub fn run(bench: &mut Driven, rng: &mut Rng) -> Result<(), Difference> {
    for _ in 0..3 {
        let shape = rng.pick(&SHAPES);
        let frame = make(rng, shape);
        let answer = bench.send(&frame, |whole| frame.clone_into(whole))?;
        if answer.call != MALFORMED {
            return Err(Difference("the model takes a malformed frame".into()));
        }
        bench.tally.shape(shape as usize);
        let shows = match rng.pick(&[READ, LISTING_LENGTH, COMMAND_LINE, AGENT_NAME]) {
            COMMAND_LINE => spelling::line(rng, bench.bytes()),
            call => Asked::new(call, &[], &[]),
        };
        bench.make_kept(&shows)?;
    }
    Ok(())
}

fn make(rng: &mut Rng, shape: Shape) -> Vec<u8> {
    let call = 1 + rng.below(LAST as usize) as u32;
    let (numbers, strings) = arguments(call).unwrap_or_default();
    match shape {
        Shape::UnknownCall => {
            let any = 1 << 31 | rng.word() as u32;
            let after = LAST + 1;
            let unknown = rng.pick(&[0, after, 63, 64, 256 + call, 1 << 16 | call, KEPT, any]);
            frame(rng, unknown, numbers, strings)
        }
        Shape::OtherNumbers => {
            let other = one_off(rng, numbers);
            frame(rng, call, other, strings)
        }
        Shape::OtherStrings => {
            let other = one_off(rng, strings);
            frame(rng, call, numbers, other)
        }
        Shape::RestTooLong => {
            let mut frame = frame(rng, call, numbers, strings);
            let more = 1 + rng.below(9);
            frame.extend(rng.bytes(more));
            told(frame)
        }
        Shape::RestTooShort => {
            // Any call but the first cursor, whose frame has nothing to cut off.
            let call = if call == FIRST { STEP } else { call };
            let (numbers, strings) = arguments(call).unwrap_or_default();
            let mut frame = frame(rng, call, numbers, strings);
            let rest = frame.len() - HEAD_LENGTH;
            frame.truncate(HEAD_LENGTH + rng.below(rest));
            told(frame)
        }
        Shape::StringPastTheEnd => string_past_the_end(rng),
        Shape::CountsThatWrap => counts_that_wrap(rng, call),
        Shape::BufferTooLong => buffer_too_long(rng),
        Shape::TooManyModules => too_many_modules(rng),
        Shape::TooManyParts => too_many_parts(rng),
        // As it was asked for before boards had a text.
        Shape::NoBoard => frame(rng, COMMAND_LINE, 0, 1),
        _ => map_too_long(rng),
    }
}

/// A frame of random contents; the buffer is kept or given.
fn frame(rng: &mut Rng, call: u32, numbers: usize, strings: usize) -> Vec<u8> {
    let numbers: Vec<u64> = (0..numbers).map(|_| rng.word()).collect();
    let lengths: Vec<usize> = (0..strings).map(|_| rng.below(40)).collect();
    let bytes: Vec<Vec<u8>> = lengths.iter().map(|length| rng.bytes(*length)).collect();
    let mut strings: Vec<Lent> = bytes.iter().map(|string| Lent::Bytes(string)).collect();
    if let (true, Some(buffer)) = (rng.chance(50), strings.first_mut()) {
        *buffer = Lent::Kept;
    }
    let mut frame = Vec::new();
    put_frame(&mut frame, call, &numbers, &strings);
    frame
}

fn one_off(rng: &mut Rng, count: usize) -> usize {
    match count > 0 && rng.chance(50) {
        true => count - 1,
        false => count + 1,
    }
}

/// Puts a word over the four bytes there.
fn put_word(frame: &mut [u8], at: usize, word: u32) {
    frame[at..at + 4].copy_from_slice(&word.to_le_bytes());
}

/// The frame with its own length in its head.
fn told(mut frame: Vec<u8>) -> Vec<u8> {
    let rest = frame.len() - HEAD_LENGTH;
    put_word(&mut frame, 12, rest as u32);
    frame
}

/// The string after the buffer says that it is longer than what follows, or that it is kept.
fn string_past_the_end(rng: &mut Rng) -> Vec<u8> {
    let call = rng.pick(&[
        COPY_MAP_BYTES,
        COMMAND_LINE,
        ADD_COMMAND_LINE,
        ADD_MAP,
        LIST,
        ADD_MODULES,
        EXPORT,
    ]);
    let length = 8 * rng.below(5);
    let (buffer, string) = (rng.bytes(20), rng.bytes(length));
    let mut frame = Vec::new();
    let strings = [Lent::Bytes(&buffer[..]), Lent::Bytes(&string[..])];
    // An export alone has a number.
    let load: &[u64] = if call == EXPORT { &[0] } else { &[] };
    put_frame(&mut frame, call, load, &strings);
    let at = frame.len() - length - 4;
    let longer = length as u32 + rng.pick(&[1, 8, 1 << 16, 1 << 31]);
    put_word(&mut frame, at, rng.pick(&[longer, longer, KEPT, KEPT - 3]));
    frame
}

/// Counts whose bytes are right modulo 2^32.
fn counts_that_wrap(rng: &mut Rng, call: u32) -> Vec<u8> {
    let (numbers, strings) = arguments(call).unwrap_or_default();
    let mut frame = frame(rng, call, numbers, strings);
    match rng.chance(50) {
        true => put_word(
            &mut frame,
            4,
            numbers as u32 + rng.pick(&[1 << 29, 7 << 29]),
        ),
        false => put_word(
            &mut frame,
            8,
            strings as u32 + rng.pick(&[1 << 30, 3 << 30]),
        ),
    }
    frame
}

fn buffer_too_long(rng: &mut Rng) -> Vec<u8> {
    let call = rng.pick(&[READ, BEGIN, COMMAND_LINE, LISTING_LENGTH]);
    // Of these the command line alone has a second string.
    let boards = usize::from(call == COMMAND_LINE);
    let most = FRAME_LIMIT - HEAD_LENGTH - 4 - 4 * boards;
    let length = rng.pick(&[BUFFER_LIMIT + 1, BUFFER_LIMIT + 8, 200_000, most]);
    let buffer = vec![1; length];
    let strings = [Lent::Bytes(&buffer), Lent::Bytes(&[])];
    let mut frame = Vec::new();
    put_frame(&mut frame, call, &[], &strings[..1 + boards]);
    frame
}

fn map_too_long(rng: &mut Rng) -> Vec<u8> {
    let call = rng.pick(&[COPY_MAP, ADD_MAP]);
    let length = 8 * (NUMBERS_LIMIT + 1) + rng.pick(&[0, 0, 7, 8, 30_000]);
    list_too_long(rng, call, length)
}

fn too_many_modules(rng: &mut Rng) -> Vec<u8> {
    let more = rng.pick(&[
        0,
        0,
        1,
        LISTED_MODULE_SIZE - 1,
        LISTED_MODULE_SIZE,
        1_000_000,
    ]);
    let length = LISTED_MODULE_SIZE * (MODULES_LIMIT + 1) + more;
    list_too_long(rng, ADD_MODULES, length)
}

/// Records that could be written, in the buffer kept or given, and an empty run.
fn too_many_parts(rng: &mut Rng) -> Vec<u8> {
    let length = 8 * (NUMBERS_LIMIT + 1) + rng.pick(&[0, 0, 7, 8, 30_000]);
    let (buffer, parts) = (rng.bytes(60), vec![0; length]);
    let buffer = rng.pick(&[Lent::Kept, Lent::Bytes(&buffer)]);
    let strings = [&[0xFF; 32][..], &parts, &[]].map(Lent::Bytes);
    let strings = [&[buffer][..], &strings].concat();
    let mut frame = Vec::new();
    put_frame(&mut frame, HANDOVER_WRITE, &[], &strings);
    frame
}

/// A call with the buffer kept or given, and a second string of that length.
fn list_too_long(rng: &mut Rng, call: u32, length: usize) -> Vec<u8> {
    let (buffer, list) = (rng.bytes(40), vec![1; length]);
    let buffer = rng.pick(&[Lent::Kept, Lent::Bytes(&buffer)]);
    let mut frame = Vec::new();
    put_frame(&mut frame, call, &[], &[buffer, Lent::Bytes(&list)]);
    frame
}
