//! The published calls of Rattle, as the driver program makes them: a frame in, a frame out
//! (crates/call_driver/README.md). [`Driver`] is that program by the model.

mod adding;
mod asking;
pub mod frame;
mod handover;
pub mod table;

use crate::driving::frame::{parse_frame, put_frame, Frame, Head, Lent, HEAD_LENGTH};
use crate::driving::table::{adds, arguments, is_handover, list_limit, BEGIN, BUFFER_LIMIT};
use crate::format;

/// The call that a malformed frame is answered with.
pub const MALFORMED: u32 = u32::MAX;

/// What a call answered.
#[derive(Clone, Debug, Default, PartialEq, Eq)]
pub struct Answer {
    pub call: u32,
    pub numbers: Vec<u64>,
    /// Whether the buffer is the first of its strings.
    pub lent: bool,
    /// The strings after the buffer.
    pub strings: Vec<Vec<u8>>,
}

impl Answer {
    /// Number and value, then these numbers.
    fn new(answer: format::Answer, more: &[u64]) -> Answer {
        let mut numbers = match answer {
            Ok(value) => vec![0, value as u64],
            Err(refusal) => vec![refusal.number as u64, refusal.offset.into()],
        };
        numbers.extend(more);
        Answer {
            numbers,
            lent: true,
            ..Answer::default()
        }
    }

    fn with(mut self, strings: Vec<Vec<u8>>) -> Answer {
        self.strings = strings;
        self
    }

    fn malformed() -> Answer {
        Answer {
            call: MALFORMED,
            ..Answer::default()
        }
    }
}

/// The program, with the buffer that it keeps.
#[derive(Clone, Debug, Default)]
pub struct Driver {
    pub buffer: Vec<u8>,
}

impl Driver {
    /// Makes the call of a frame, which is as long as its head says.
    pub fn answer(&mut self, frame: &[u8]) -> Answer {
        let Some(frame) = parse_frame(frame).filter(is_well_formed) else {
            return Answer::malformed();
        };
        if let Some(Lent::Bytes(buffer)) = frame.strings.first() {
            self.buffer.clear();
            self.buffer.extend(*buffer);
        }
        let strings: Vec<&[u8]> = frame.strings.iter().map(bytes).collect();
        let given = strings.get(1..).unwrap_or_default();
        let answer = match frame.call {
            call if call == BEGIN || adds(call) => {
                adding::answer(&mut self.buffer, call, &frame.numbers, given)
            }
            call if is_handover(call) => {
                handover::answer(&mut self.buffer, call, &frame.numbers, given)
            }
            call => asking::answer(&self.buffer, call, &frame.numbers, given),
        };
        Answer {
            call: frame.call,
            ..answer
        }
    }

    /// Puts the answer's frame after what is there, with the buffer as it is now.
    pub fn put_answer(&self, out: &mut Vec<u8>, answer: &Answer) {
        let buffer = answer.lent.then_some(Lent::Bytes(&self.buffer));
        let strings = answer.strings.iter().map(|string| Lent::Bytes(string));
        let strings: Vec<Lent> = buffer.into_iter().chain(strings).collect();
        put_frame(out, answer.call, &answer.numbers, &strings);
    }

    /// All that the program writes where this is all it reads.
    pub fn run(mut input: &[u8]) -> Vec<u8> {
        let mut driver = Driver::default();
        let mut out = Vec::new();
        while let Some(head) = input.first_chunk::<HEAD_LENGTH>() {
            let head = Head::of(head);
            if head.is_too_long() {
                driver.put_answer(&mut out, &Answer::malformed());
                break;
            }
            let Some((frame, after)) = input.split_at_checked(head.frame_length() as usize) else {
                break;
            };
            let answer = driver.answer(frame);
            driver.put_answer(&mut out, &answer);
            input = after;
        }
        out
    }
}

fn bytes<'a>(string: &Lent<'a>) -> &'a [u8] {
    match string {
        Lent::Kept => &[],
        Lent::Bytes(bytes) => bytes,
    }
}

fn is_well_formed(frame: &Frame) -> bool {
    let given = (frame.numbers.len(), frame.strings.len());
    let length = |place| frame.strings.get(place).map_or(0, |s| bytes(s).len());
    arguments(frame.call) == Some(given)
        && length(0) <= BUFFER_LIMIT
        && list_limit(frame.call).is_none_or(|(place, size, most)| length(place) / size <= most)
}
