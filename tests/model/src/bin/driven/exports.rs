//! Contexts exported to Handover payloads, which no call toward C does. Every payload that
//! is made is read back, and reads as the list that the model says.

use ultra_model::driving::table::*;
use ultra_model::generator::call::Call;
use ultra_model::generator::contexts;
use ultra_model::generator::exports;
use ultra_model::generator::inputs::{Bench, Difference};
use ultra_model::generator::records::Record;
use ultra_model::generator::rng::Rng;
use ultra_model::requests::export::List;
use ultra_model::requests::handover::record_start;

use crate::bench::Driven;
use crate::spelling::Asked;
use crate::tally::{exports::Shape, Counted};
use crate::writings;

/// Of payloads with more records than this not every one is asked for.
const MANY: usize = 48;
/// A longer payload is not written again, and a longer output not read as a whole.
const LONG: usize = 2_000;

/// An input of an export, or none; now and then of what the input before left.
pub fn run(bench: &mut Driven, rng: &mut Rng) -> Result<(), Difference> {
    match rng.below(100) {
        0..=12 => {
            bench.load(exports::buffer(rng));
            export(bench, rng)
        }
        13..=20 => export(bench, rng),
        21 => while_built(bench, rng),
        _ => Ok(()),
    }
}

/// Exports the buffer that is due, with a load address and an output that suit it.
fn export(bench: &mut Driven, rng: &mut Rng) -> Result<(), Difference> {
    let size = exports::payload_size(bench.bytes());
    let (load, length) = (exports::load(rng, size), exports::output(rng, size));
    let output = rng.bytes(length);
    export_to(bench, rng, load, &output)
}

/// Exports the buffer that is due, and reads the payload back. With a longer output than a buffer
/// may be, the frame has no place for the buffer's bytes.
pub fn export_to(
    bench: &mut Driven,
    rng: &mut Rng,
    load: u64,
    output: &[u8],
) -> Result<(), Difference> {
    let context = bench.bytes().to_vec();
    let asked = Asked::new(EXPORT, &[load], &[output]);
    let answer = match output.len() > BUFFER_LIMIT {
        true => bench.make_kept(&asked)?,
        false => bench.make(&asked)?,
    };
    match (answer.numbers[0], List::of(&context, load)) {
        (0, Ok(list)) => read_back(bench, rng, &list, &answer.strings[0]),
        (0, Err(_)) => Err(Difference("a refused context is exported".into())),
        _ => Ok(()),
    }
}

/// Asked on the buffer that the program keeps, after each step of a context's building.
fn while_built(bench: &mut Driven, rng: &mut Rng) -> Result<(), Difference> {
    let length = 800 + rng.below(1_000);
    bench.load(rng.bytes(length));
    bench.make(&Asked::new(BEGIN, &[], &[]))?;
    for kind in contexts::types(rng, false) {
        let call = Call::adding(Record::good(rng, kind)).expect("types 1 to 6 are added");
        bench.call(&call)?;
        let built = bench.bytes().to_vec();
        export(bench, rng)?;
        if bench.bytes() != built {
            bench.load(built);
        }
    }
    Ok(())
}

// ---- Read back ----

/// What the questions for a record are to answer.
struct Expected<'a> {
    /// "tag, flags, start, size, name, meta"
    words: [u64; 6],
    /// Where a string starts, and its bytes; a string that is not named is empty, at 0.
    name: (u64, &'a [u8]),
    meta: (u64, &'a [u8]),
}

/// All records of a list as they are read.
fn expected<'a>(list: &List<'a>) -> Vec<Expected<'a>> {
    let table = record_start(list.items.len()) as u64;
    let mut next = list.agent.len() as u64 + 1;
    // A string's offset in the table, where it starts, and its bytes.
    let mut place = |string: Option<&'a [u8]>| match string {
        Some(string) => {
            let offset = next;
            next += string.len() as u64 + 1;
            (offset, (table + offset, string))
        }
        None => (0, (0, &[][..])),
    };
    let items = list.items.iter().map(|item| {
        let (name_offset, name) = place(item.name);
        let (meta_offset, meta) = place(item.meta);
        let [tag, flags] = [item.tag.into(), 0];
        Expected {
            words: [tag, flags, item.start, item.size, name_offset, meta_offset],
            name,
            meta,
        }
    });
    items.collect()
}

/// "A payload so made is accepted by R-2's reader and reads as this list". It is lent alone, or
/// with what the output has after it.
fn read_back(
    bench: &mut Driven,
    rng: &mut Rng,
    list: &List,
    output: &[u8],
) -> Result<(), Difference> {
    let (size, count) = (list.size(), list.items.len());
    let whole = output.len() <= LONG && rng.chance(25);
    let lent = if whole { output } else { &output[..size] };
    bench.load(lent.to_vec());
    read_agent(bench, list)?;
    let all = expected(list);
    let indices = indices(rng, count);
    for &index in &indices {
        read_record(bench, index as u64, &all[index], size as u64)?;
    }
    let past = bench.make_kept(&Asked::new(RECORD_AT, &[count as u64], &[]))?;
    let refused = [&[3, size as u64][..], &[0; 10]].concat();
    same("past the last record", past.numbers == refused)?;
    bench.tally.shape(match indices.len() == count {
        true => Shape::ReadBack.place(),
        false => Shape::ReadBackInPart.place(),
    });
    if size <= LONG && rng.chance(10) {
        write_again(bench, rng, &output[..size])?;
    }
    Ok(())
}

/// A difference unless it is the same.
fn same(what: &str, is: bool) -> Result<(), Difference> {
    match is {
        true => Ok(()),
        false => Err(Difference(format!(
            "an exported payload reads as another list: {what}"
        ))),
    }
}

/// Calls 26 to 28.
fn read_agent(bench: &mut Driven, list: &List) -> Result<(), Difference> {
    let size = list.size() as u64;
    let table = record_start(list.items.len()) as u64;
    let length = list.agent.len() as u64;
    let read = bench.make(&Asked::new(HANDOVER_READ, &[], &[]))?;
    same("its size", read.numbers == [0, size])?;
    let agent = bench.make_kept(&Asked::new(AGENT, &[], &[]))?;
    same("the agent", agent.numbers == [0, size, 0, table, length])?;
    let name = bench.make_kept(&Asked::new(AGENT_NAME, &[], &[]))?;
    same("the agent's place", name.numbers == [0, 0, table, length])?;
    same("the agent's string", name.strings == [list.agent])
}

/// Every record, or of many the first, the last, and some between them.
fn indices(rng: &mut Rng, count: usize) -> Vec<usize> {
    if count <= MANY {
        return (0..count).collect();
    }
    let mut indices = vec![0, 1, count - 4, count - 3, count - 2, count - 1];
    indices.extend((0..4).map(|_| 2 + rng.below(count - 6)));
    indices
}

/// Calls 29 to 31.
fn read_record(
    bench: &mut Driven,
    index: u64,
    expected: &Expected,
    size: u64,
) -> Result<(), Difference> {
    let place = |(start, string): (u64, &[u8])| [start, string.len() as u64];
    let (name, meta) = (expected.name, expected.meta);
    let numbers = [&[0, size][..], &expected.words, &place(name), &place(meta)].concat();
    let record = bench.make_kept(&Asked::new(RECORD_AT, &[index], &[]))?;
    same("a record", record.numbers == numbers)?;
    for (call, string) in [(RECORD_NAME, name), (RECORD_META, meta)] {
        let answer = bench.make_kept(&Asked::new(call, &[index], &[]))?;
        same("a string's place", answer.numbers[2..] == place(string))?;
        same("a string", answer.strings == [string.1])?;
    }
    Ok(())
}

/// The payload is in the form that is written: written again from its reading, it has the same
/// bytes.
fn write_again(bench: &mut Driven, rng: &mut Rng, payload: &[u8]) -> Result<(), Difference> {
    writings::again(bench, rng)?;
    if bench.bytes()[..payload.len()] != *payload {
        let what = "an exported payload, written again, has other bytes";
        return Err(Difference(what.into()));
    }
    bench.tally.shape(Shape::WrittenAgain.place());
    Ok(())
}
