//! Handover payloads, which no call toward C takes: read, and asked for their agent and their
//! records.

use ultra_model::driving::table::*;
use ultra_model::format::u32_at;
use ultra_model::generator::inputs::{Bench, Difference};
use ultra_model::generator::payloads;
use ultra_model::generator::rng::Rng;

use crate::bench::Driven;
use crate::spelling::Asked;
use crate::writings;

/// Of a longer payload fewer questions are asked.
const LONG: usize = 8_192;

/// An input of payloads, of writing, or none; and now and then what the input before left, which
/// is a context or close to one.
pub fn run(bench: &mut Driven, rng: &mut Rng) -> Result<(), Difference> {
    match rng.below(100) {
        0..=24 => read(bench, rng),
        25..=42 => writings::run(bench, rng),
        43 => {
            bench.make(&Asked::new(HANDOVER_READ, &[], &[]))?;
            Ok(())
        }
        _ => Ok(()),
    }
}

/// Reads a buffer and asks about it; now and then a payload is written again from its reading.
fn read(bench: &mut Driven, rng: &mut Rng) -> Result<(), Difference> {
    let bytes = payloads::payload(rng);
    let count = match bytes.len() {
        16.. => u64::from(u32_at(&bytes, 12)),
        _ => 0,
    };
    bench.load(bytes);
    let accepted = bench.make(&Asked::new(HANDOVER_READ, &[], &[]))?.numbers[0] == 0;
    let questions = if bench.bytes().len() > LONG { 2 } else { 5 };
    for _ in 0..questions {
        let asked = question(rng, count);
        bench.make(&asked)?;
    }
    // A payload is no context, and the other way round.
    if rng.chance(2) {
        bench.make(&Asked::new(READ, &[], &[]))?;
    }
    if accepted && bench.bytes().len() < LONG && rng.chance(10) {
        writings::again(bench, rng)?;
    }
    Ok(())
}

fn question(rng: &mut Rng, count: u64) -> Asked {
    let call = rng.pick(&[
        AGENT,
        AGENT_NAME,
        RECORD_AT,
        RECORD_AT,
        RECORD_AT,
        RECORD_NAME,
        RECORD_NAME,
        RECORD_META,
        RECORD_META,
    ]);
    match call {
        AGENT | AGENT_NAME => Asked::new(call, &[], &[]),
        _ => Asked::new(call, &[payloads::index(rng, count)], &[]),
    }
}
