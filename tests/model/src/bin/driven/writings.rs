//! Handover payloads written; what was written is read back, and written again from its reading.

use ultra_model::driving::table::*;
use ultra_model::format::u32_at;
use ultra_model::generator::inputs::{Bench, Difference};
use ultra_model::generator::payloads::{CMDLINE, FILE};
use ultra_model::generator::rng::Rng;
use ultra_model::generator::writings::{self, Writing};

use crate::bench::Driven;
use crate::spelling::Asked;
use crate::tally::{writings::Shape, Counted};

/// Of payloads longer than this not every record is asked for.
const LONG: usize = 2_000;

pub fn run(bench: &mut Driven, rng: &mut Rng) -> Result<(), Difference> {
    let writing = writings::writing(rng);
    bench.load(rng.bytes(writing.output));
    let asked = spell(rng, &writing);
    let numbers = bench.make(&asked)?.numbers;
    if numbers[0] == 0 {
        read_back(bench, rng, &writing, numbers[1])?;
    }
    // Another one over it, in whatever room there is.
    if rng.chance(15) {
        let writing = writings::writing(rng);
        let asked = spell(rng, &writing);
        bench.make_kept(&asked)?;
        bench.make_kept(&Asked::new(HANDOVER_READ, &[], &[]))?;
    }
    Ok(())
}

/// The records, the parts, now and then with bytes left over, and the run.
fn spell(rng: &mut Rng, writing: &Writing) -> Asked {
    let mut parts = writing.part_bytes(rng);
    // More often where a number may be missing, which these are not.
    if rng.chance(if writing.numbers.is_some() { 25 } else { 4 }) {
        let left_over = 1 + rng.below(7);
        let any = rng.bytes(left_over);
        parts.extend(rng.pick(&[&any[..], &[0; 7][..left_over]]));
    }
    let records = writing.record_bytes();
    Asked::new(HANDOVER_WRITE, &[], &[&records, &parts, &writing.run])
}

/// What was written is accepted. Now and then all of it is asked for: its strings are those that
/// were given, and written again it has the same bytes.
fn read_back(
    bench: &mut Driven,
    rng: &mut Rng,
    writing: &Writing,
    size: u64,
) -> Result<(), Difference> {
    let read = bench.make_kept(&Asked::new(HANDOVER_READ, &[], &[]))?;
    if read.numbers != [0, size] {
        return Err(Difference("what was written is not read".into()));
    }
    bench.tally.shape(Shape::ReadBack.place());
    let size = size as usize;
    if size > LONG || !rng.chance(25) {
        return Ok(());
    }
    let before = bench.bytes()[..size].to_vec();
    let reading = again(bench, rng)?;
    if reading.named() != writing.strings() {
        return Err(Difference("other strings are read than were given".into()));
    }
    if bench.bytes()[..size] != before {
        return Err(Difference("written again, the bytes are others".into()));
    }
    bench.tally.shape(Shape::WrittenAgain.place());
    Ok(())
}

/// What the questions answer of a payload.
pub struct Reading {
    /// The records' bytes, one after the other.
    records: Vec<u8>,
    /// The agent's string, then of each record its name and its meta: where it starts, and its
    /// bytes. None for one that is not named, whose part is at 0.
    strings: Vec<Option<(u64, Vec<u8>)>>,
}

impl Reading {
    fn named(&self) -> Vec<Vec<u8>> {
        let named = self.strings.iter().flatten();
        named.map(|(_, bytes)| bytes.clone()).collect()
    }

    fn take(&mut self, start: u64, strings: Vec<Vec<u8>>) {
        let string = strings.into_iter().next().filter(|_| start != 0);
        self.strings.push(string.map(|bytes| (start, bytes)));
    }

    /// The records with zeros for the offsets of their strings.
    fn without_offsets(&self) -> Vec<u8> {
        let mut records = self.records.clone();
        for record in records.chunks_exact_mut(32) {
            match u32_at(record, 0) {
                FILE => record[24..].fill(0),
                CMDLINE => record[28..].fill(0),
                _ => {}
            }
        }
        records
    }
}

/// Asks for the agent, and for records until there are no more.
fn ask(bench: &mut Driven) -> Result<Reading, Difference> {
    let mut reading = Reading {
        records: Vec::new(),
        strings: Vec::new(),
    };
    let agent = bench.make_kept(&Asked::new(AGENT, &[], &[]))?;
    let name = bench.make_kept(&Asked::new(AGENT_NAME, &[], &[]))?;
    reading.take(agent.numbers[3], name.strings);
    for index in 0.. {
        let record = bench.make_kept(&Asked::new(RECORD_AT, &[index], &[]))?;
        let numbers = record.numbers;
        if numbers[0] != 0 {
            break;
        }
        for (word, width) in numbers[2..8].iter().zip([4, 4, 8, 8, 4, 4]) {
            reading.records.extend(&word.to_le_bytes()[..width]);
        }
        for (call, start) in [(RECORD_NAME, numbers[8]), (RECORD_META, numbers[10])] {
            let string = bench.make_kept(&Asked::new(call, &[index], &[]))?;
            reading.take(start, string.strings);
        }
    }
    Ok(reading)
}

/// Asks for all of an accepted payload, and writes it again into junk: from its strings, one
/// after the other, or from the payload's own bytes as the run. It reads as the same list, but
/// for the offsets.
pub fn again(bench: &mut Driven, rng: &mut Rng) -> Result<Reading, Difference> {
    let payload = bench.bytes().to_vec();
    let reading = ask(bench)?;
    let (parts, run) = match rng.chance(50) {
        true => from_strings(rng, &reading),
        false => (from_payload(&reading), payload),
    };
    let parts: Vec<u8> = parts.into_iter().flat_map(u64::to_le_bytes).collect();
    let asked = Asked::new(HANDOVER_WRITE, &[], &[&reading.records, &parts, &run]);
    let lengths = reading.named().into_iter().map(|string| string.len() + 1);
    let size = 16 + reading.records.len() + lengths.sum::<usize>();
    let more = rng.pick(&[0, 0, 1, 30]);
    bench.load(rng.bytes(size + more));
    if bench.make(&asked)?.numbers != [0, size as u64] {
        return Err(Difference("refused as read, or of another size".into()));
    }
    let written = ask(bench)?;
    if written.named() != reading.named() || written.without_offsets() != reading.without_offsets()
    {
        return Err(Difference("written again, another list is read".into()));
    }
    bench.tally.shape(Shape::ListWrittenAgain.place());
    Ok(reading)
}

/// A run of the strings with any bytes between them.
fn from_strings(rng: &mut Rng, reading: &Reading) -> (Vec<u64>, Vec<u8>) {
    let (mut parts, mut run) = (Vec::new(), Vec::new());
    for string in &reading.strings {
        let between = rng.below(3);
        run.extend(rng.bytes(between));
        let bytes = string.as_ref().map_or(&[][..], |(_, bytes)| bytes);
        parts.extend([run.len() as u64, bytes.len() as u64]);
        run.extend(bytes);
    }
    (parts, run)
}

/// The strings where they lie in the payload.
fn from_payload(reading: &Reading) -> Vec<u64> {
    let strings = reading.strings.iter();
    let part = |string: &Option<(u64, Vec<u8>)>| match string {
        Some((start, bytes)) => [*start, bytes.len() as u64],
        None => [0, 0],
    };
    strings.flat_map(part).collect()
}
