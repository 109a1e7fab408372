//! Calls, answers and differences in words.

use std::io;
use std::process::ExitStatus;

use ultra_model::driving::frame::{parse_frame, Lent};
use ultra_model::generator::given::hex;

use crate::tally::ROWS;

/// Of a longer string only this many bytes are shown; the file has all of it.
const SHOWN: usize = 96;

fn name(call: u32) -> String {
    let row = (call as usize)
        .checked_sub(1)
        .and_then(|place| ROWS.get(place));
    row.map_or(format!("call {call}"), |row| format!("{call} {}", row.name))
}

fn string(lent: &Lent) -> String {
    match lent {
        Lent::Kept => "kept".into(),
        Lent::Bytes(bytes) if bytes.len() > SHOWN => {
            format!("[{}: {}..]", bytes.len(), hex(&bytes[..SHOWN]))
        }
        Lent::Bytes(bytes) => format!("[{}: {}]", bytes.len(), hex(bytes)),
    }
}

fn contents(frame: &[u8]) -> String {
    match parse_frame(frame) {
        Some(frame) => {
            let strings: Vec<String> = frame.strings.iter().map(string).collect();
            format!("{:?} {}", frame.numbers, strings.join(" "))
        }
        None => format!("(no frame) {}", string(&Lent::Bytes(frame))),
    }
}

pub fn call(frame: &[u8]) -> String {
    let call = frame.first_chunk().map(|call| u32::from_le_bytes(*call));
    format!("{} {}", name(call.unwrap_or_default()), contents(frame))
}

pub fn answer(frame: &[u8]) -> String {
    match parse_frame(frame) {
        Some(parsed) if parsed.call == u32::MAX => "malformed".into(),
        _ => contents(frame),
    }
}

/// The first place at which the two answers are not the same.
fn place(program: &[u8], model: &[u8]) -> String {
    let (Some(program), Some(model)) = (parse_frame(program), parse_frame(model)) else {
        return "the program gives no frame".into();
    };
    let counts = (program.numbers.len(), program.strings.len());
    if program.call != model.call || counts != (model.numbers.len(), model.strings.len()) {
        return "another call, or other numbers of numbers and strings".into();
    }
    let mut pairs = program.numbers.iter().zip(&model.numbers);
    if let Some(at) = pairs.position(|(a, b)| a != b) {
        return format!("number {at}");
    }
    let mut pairs = program.strings.iter().zip(&model.strings).enumerate();
    match pairs.find(|(_, (a, b))| a != b) {
        Some((at, (Lent::Bytes(a), Lent::Bytes(b)))) => {
            let same = a.iter().zip(*b).take_while(|(a, b)| a == b).count();
            format!("string {at} from its byte {same} on")
        }
        _ => "nowhere that can be told".into(),
    }
}

pub fn difference(frame: &[u8], program: &[u8], model: &[u8]) -> String {
    let program_says = match program.is_empty() {
        true => "no answer".into(),
        false => answer(program),
    };
    format!(
        "{}\n  given:   {}\n  program: {program_says}\n  model:   {}\n  first at: {}",
        call(frame).split(' ').take(2).collect::<Vec<_>>().join(" "),
        contents(frame),
        answer(model),
        place(program, model),
    )
}

/// What is wrong about the program's end, if anything is.
pub fn bad_end(ended: io::Result<ExitStatus>) -> Option<String> {
    match ended {
        Ok(status) if status.success() => None,
        Ok(status) => Some(format!("the program ended by {status}")),
        Err(error) => Some(format!("the program's end: {error}")),
    }
}
