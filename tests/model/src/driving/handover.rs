//! Handover payloads: the calls of request R-2.

use std::ops::Range;

use crate::driving::table::*;
use crate::driving::Answer;
use crate::format::u64_at;
use crate::requests::handover::{read, record_at, write};

/// Makes the call of this number.
pub fn answer(buf: &mut [u8], call: u32, numbers: &[u64], strings: &[&[u8]]) -> Answer {
    match call {
        HANDOVER_READ => Answer::new(read(buf).map(|payload| payload.size), &[]),
        AGENT => agent(buf),
        AGENT_NAME => {
            let name = read(buf).map(|payload| payload.agent_name);
            handed_back(buf, name.unwrap_or(0..0))
        }
        RECORD_AT => record(buf, numbers[0]),
        RECORD_NAME => {
            let name = record_at(buf, numbers[0]).map(|(_, listed)| listed.name);
            handed_back(buf, name.unwrap_or(0..0))
        }
        RECORD_META => {
            let meta = record_at(buf, numbers[0]).map(|(_, listed)| listed.meta);
            handed_back(buf, meta.unwrap_or(0..0))
        }
        _ => {
            // "the parts are taken as many times 8 bytes as there are whole"
            let parts = strings[1].chunks_exact(8);
            let parts: Vec<u64> = parts.map(|number| u64_at(number, 0)).collect();
            Answer::new(write(buf, strings[0], &parts, strings[2]), &[])
        }
    }
}

/// A string's start and length.
fn place(part: &Range<usize>) -> [u64; 2] {
    [part.start as u64, part.len() as u64]
}

/// "offset; its string's start, length"
fn agent(buf: &[u8]) -> Answer {
    match read(buf) {
        Err(refusal) => Answer::new(Err(refusal), &[0; 3]),
        Ok(payload) => {
            let [start, length] = place(&payload.agent_name);
            Answer::new(Ok(payload.size), &[payload.agent.into(), start, length])
        }
    }
}

/// "tag, flags, start, size, name, meta; its name's start, length; its meta's start, length"
fn record(buf: &[u8], index: u64) -> Answer {
    match record_at(buf, index) {
        Err(refusal) => Answer::new(Err(refusal), &[0; 10]),
        Ok((size, listed)) => {
            let record = listed.record;
            let words = [
                record.tag.into(),
                record.flags.into(),
                record.start,
                record.size,
                record.name.into(),
                record.meta.into(),
            ];
            let (name, meta) = (place(&listed.name), place(&listed.meta));
            Answer::new(Ok(size), &[&words[..], &name, &meta].concat())
        }
    }
}

/// A string: where it is, how long, and its bytes.
fn handed_back(buf: &[u8], part: Range<usize>) -> Answer {
    Answer::new(Ok(0), &place(&part)).with(vec![buf[part].to_vec()])
}
