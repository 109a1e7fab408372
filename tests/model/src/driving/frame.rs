//! Frames: the form that a call and its answer have on their way to and from the program.

use crate::format::{u32_at, u64_at};

/// "A frame of a call has at most 1,048,576 bytes."
pub const FRAME_LIMIT: usize = 1_048_576;
/// Call, how many numbers, how many strings, how many bytes follow.
pub const HEAD_LENGTH: usize = 16;
/// In place of the buffer's length: it is the one of the last call that had one.
pub const KEPT: u32 = u32::MAX;

/// A string of a call: its bytes, or the word for the kept buffer.
#[derive(Clone, Copy, Debug, PartialEq, Eq)]
pub enum Lent<'a> {
    Kept,
    Bytes(&'a [u8]),
}

impl Lent<'_> {
    /// How many bytes it takes in a frame.
    fn width(&self) -> usize {
        match self {
            Lent::Kept => 4,
            Lent::Bytes(bytes) => 4 + bytes.len(),
        }
    }
}

/// The sixteen bytes that a frame begins with.
#[derive(Clone, Copy, Debug, PartialEq, Eq)]
pub struct Head {
    pub call: u32,
    pub numbers: u32,
    pub strings: u32,
    pub rest: u32,
}

impl Head {
    pub fn of(bytes: &[u8; HEAD_LENGTH]) -> Head {
        let [call, numbers, strings, rest] = [0, 4, 8, 12].map(|at| u32_at(bytes, at));
        Head {
            call,
            numbers,
            strings,
            rest,
        }
    }

    pub fn bytes(&self) -> [u8; HEAD_LENGTH] {
        let mut bytes = [0; HEAD_LENGTH];
        let words = [self.call, self.numbers, self.strings, self.rest];
        for (place, word) in bytes.chunks_exact_mut(4).zip(words) {
            place.copy_from_slice(&word.to_le_bytes());
        }
        bytes
    }

    /// How long the whole frame says that it is.
    pub fn frame_length(&self) -> u64 {
        HEAD_LENGTH as u64 + u64::from(self.rest)
    }

    pub fn is_too_long(&self) -> bool {
        self.frame_length() > FRAME_LIMIT as u64
    }
}

/// Puts a frame after what is there.
pub fn put_frame(out: &mut Vec<u8>, call: u32, numbers: &[u64], strings: &[Lent]) {
    let rest = 8 * numbers.len() + strings.iter().map(Lent::width).sum::<usize>();
    let head = Head {
        call,
        numbers: numbers.len() as u32,
        strings: strings.len() as u32,
        rest: rest as u32,
    };
    out.extend(head.bytes());
    for number in numbers {
        out.extend(number.to_le_bytes());
    }
    for string in strings {
        match string {
            Lent::Kept => out.extend(KEPT.to_le_bytes()),
            Lent::Bytes(bytes) => {
                out.extend((bytes.len() as u32).to_le_bytes());
                out.extend(*bytes);
            }
        }
    }
}

/// A frame taken apart.
#[derive(Clone, Debug, PartialEq, Eq)]
pub struct Frame<'a> {
    pub call: u32,
    pub numbers: Vec<u64>,
    pub strings: Vec<Lent<'a>>,
}

/// None where the lengths do not add up. `frame` is all of it, as long as its head says.
pub fn parse_frame(frame: &[u8]) -> Option<Frame<'_>> {
    let (head, mut rest) = frame.split_first_chunk()?;
    let head = Head::of(head);
    let numbers = take(&mut rest, (head.numbers as usize).checked_mul(8)?)?;
    let numbers = numbers.chunks_exact(8).map(|word| u64_at(word, 0));
    let mut strings = Vec::new();
    for place in 0..head.strings {
        let (length, after) = rest.split_first_chunk()?;
        rest = after;
        strings.push(match u32::from_le_bytes(*length) {
            KEPT if place == 0 => Lent::Kept,
            length => Lent::Bytes(take(&mut rest, length as usize)?),
        });
    }
    rest.is_empty().then(|| Frame {
        call: head.call,
        numbers: numbers.collect(),
        strings,
    })
}

/// The next bytes, which are taken off.
fn take<'a>(rest: &mut &'a [u8], length: usize) -> Option<&'a [u8]> {
    let (taken, after) = rest.split_at_checked(length)?;
    *rest = after;
    Some(taken)
}
