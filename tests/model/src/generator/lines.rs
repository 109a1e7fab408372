//! For the command line's question: contexts with a line, with an empty one and without
//! one, buffers that are refused although a line is there, and the texts that a board lends.

use crate::generator::arguments::View;
use crate::generator::contexts::{good_records, types, Layout, ROOM};
use crate::generator::records::Record;
use crate::generator::rng::Rng;

const LINE: u32 = 5;
/// A board's text that is a part of the buffer is at most this long.
const MOST_OF_BUFFER: usize = 100_000;

// ---- Buffers ----

/// A buffer that is asked for its line.
pub fn buffer(rng: &mut Rng) -> Vec<u8> {
    match rng.below(50) {
        0..=11 => {
            let line = line(rng);
            context(rng, Some(line))
        }
        12..=18 => {
            let empty = Record::line_of(rng, 0);
            context(rng, Some(empty))
        }
        19..=28 => context(rng, None),
        29..=40 => refused_after_line(rng),
        41..=44 => refused_for_line(rng),
        45..=48 => refused_before_line(rng),
        _ => at_the_limit(rng),
    }
}

/// A line of a few bytes or more, so that it mostly occurs once in its buffer.
fn line(rng: &mut Rng) -> Record {
    let length = rng.pick(&[1, 4, 5, 6, 7, 8, 9, 15, 16, 40, 300]);
    Record::line_of(rng, length)
}

fn context(rng: &mut Rng, line: Option<Record>) -> Vec<u8> {
    let layout = layout(rng, line);
    followed(rng, &layout)
}

/// A good context that has this line, or none; foreign or not.
fn layout(rng: &mut Rng, line: Option<Record>) -> Layout {
    let foreign = rng.chance(50);
    let mut types = types(rng, foreign);
    types.retain(|kind| *kind != LINE);
    let mut records = good_records(rng, &types);
    if let Some(line) = line {
        // After the kernel or at the end, where it stands between no two of one type.
        let at = rng.pick(&[2, records.len()]);
        records.insert(at, line);
    }
    let mut layout = Layout::of(&records);
    if foreign {
        layout.make_foreign(rng);
    }
    layout
}

/// The layout's bytes, and after them nothing, anything, or a line that is no part of the list.
fn followed(rng: &mut Rng, layout: &Layout) -> Vec<u8> {
    let mut bytes = layout.bytes();
    match rng.below(4) {
        0 => {}
        1 => {
            let length = rng.below(40);
            bytes.extend(rng.bytes(length));
        }
        _ => bytes.extend(line(rng).attribute()),
    }
    bytes
}

fn header(kind: u32, size: u32) -> Vec<u8> {
    [kind, size].map(u32::to_le_bytes).concat()
}

/// A context with a line, empty or not, that is refused for what comes after it.
fn refused_after_line(rng: &mut Rng) -> Vec<u8> {
    let line = match rng.chance(25) {
        true => Record::line_of(rng, 0),
        false => line(rng),
    };
    let mut layout = layout(rng, Some(line));
    let bad = match rng.below(8) {
        0 => header(0, 8),
        1 => [header(7, 12), vec![0; 4]].concat(),
        2 => header(7, 1 << 20),
        3 => {
            let first = rng.pick(&[1, 2]);
            Record::good(rng, first).attribute()
        }
        // A second line.
        4 => self::line(rng).attribute(),
        5 => header(4, 8),
        6 => Record::new(rng, 6, 1).attribute(),
        _ => {
            // One attribute more than there is, where the room ends.
            layout.head[4] += 1;
            return layout.bytes();
        }
    };
    layout.attributes.push(bad);
    layout.recount();
    followed(rng, &layout)
}

/// A context that is refused for the line itself, which comes last.
fn refused_for_line(rng: &mut Rng) -> Vec<u8> {
    let mut layout = layout(rng, None);
    let mut line = line(rng).attribute();
    let last = line.len() - 1;
    match rng.below(4) {
        // Without a zero, whatever comes next.
        0 => line[8..].fill(b'x'),
        1 => line[8] = rng.pick(&[128, 200, 255]),
        2 => line = header(LINE, 8),
        _ => {
            // The room ends before the attribute does.
            line.truncate(8 + rng.below(last - 7));
            layout.attributes.push(line);
            layout.recount();
            return layout.bytes();
        }
    }
    layout.attributes.push(line);
    layout.recount();
    followed(rng, &layout)
}

/// A context with a line that is refused for its head, or for its first attribute.
fn refused_before_line(rng: &mut Rng) -> Vec<u8> {
    let line = line(rng);
    let mut layout = layout(rng, Some(line));
    match rng.below(5) {
        0 => layout.head[0] = 0,
        1 | 2 => layout.head[4] = rng.pick(&[0, 1]),
        3 => layout.head[5] = 4,
        _ => layout.attributes[0][8..12].fill(0),
    }
    let mut bytes = followed(rng, &layout);
    if rng.chance(10) {
        bytes.truncate(rng.below(8));
    }
    bytes
}

/// A line that ends at 65,536 or passes it, in a buffer that goes on.
fn at_the_limit(rng: &mut Rng) -> Vec<u8> {
    let mut layout = Layout::of(&good_records(rng, &[1, 2]));
    let line = line(rng).attribute();
    let end = ROOM + rng.pick(&[0, 8]);
    let filler = end - layout.used() - line.len();
    layout.attributes.push(Record::Other(7, filler).attribute());
    layout.attributes.push(line);
    layout.recount();
    let mut bytes = layout.bytes();
    bytes.extend(rng.bytes(9));
    bytes
}

// ---- Boards ----

/// A text that a board lends beside this buffer: of any bytes and of any length, and often one
/// that is easily taken for the context's own.
pub fn board(rng: &mut Rng, buf: &[u8]) -> Vec<u8> {
    match rng.below(100) {
        0..=19 => Vec::new(),
        20..=39 => ascii(rng),
        40..=61 => with_zeros(rng),
        62..=71 => {
            let length = 1 + rng.below(60);
            rng.bytes(length)
        }
        72..=84 => like_the_line(rng, buf),
        85..=97 => of_the_buffer(rng, buf),
        _ => long(rng),
    }
}

fn ascii(rng: &mut Rng) -> Vec<u8> {
    let length = rng.pick(&[1, 2, 5, 7, 8, 9, 31]);
    let text = rng.bytes(length).into_iter();
    text.map(|byte| b' ' + byte % 95).collect()
}

/// A zero first, last, somewhere within, or nothing but zeros.
fn with_zeros(rng: &mut Rng) -> Vec<u8> {
    let mut text = ascii(rng);
    match rng.below(6) {
        0 => text.insert(0, 0),
        1 => text.push(0),
        2 => text.fill(0),
        3 => text = [&[0][..], &text, &[0]].concat(),
        _ => {
            let at = 1 + rng.below(text.len());
            let after = ascii(rng);
            text.insert(at, 0);
            text.extend(after);
        }
    }
    text
}

/// The context's own line, or nearly that.
fn like_the_line(rng: &mut Rng, buf: &[u8]) -> Vec<u8> {
    let Some(line) = View::new(buf).line() else {
        return ascii(rng);
    };
    let mut text = line.to_vec();
    match rng.below(6) {
        0 | 1 => {}
        // With its closing zero.
        2 => text.push(0),
        3 => text.push(b'x'),
        4 => text.truncate(line.len().saturating_sub(1)),
        _ => text.iter_mut().take(1).for_each(|byte| *byte ^= 1),
    }
    text
}

/// All bytes of the buffer, those that it begins with, or those that it ends with.
fn of_the_buffer(rng: &mut Rng, buf: &[u8]) -> Vec<u8> {
    let buf = &buf[..buf.len().min(MOST_OF_BUFFER)];
    let at = rng.below(buf.len() + 1);
    let part = rng.pick(&[buf, &buf[..at], &buf[..at.min(8)], &buf[at..]]);
    part.to_vec()
}

/// About as long as the room, which is no limit of the board's text.
fn long(rng: &mut Rng) -> Vec<u8> {
    let length = rng.pick(&[65_535, 65_536, 65_537, 70_000, 100_000]);
    let mut text = rng.bytes(length);
    if rng.chance(50) {
        text.iter_mut().for_each(|byte| *byte = (*byte).max(1));
    }
    text
}
