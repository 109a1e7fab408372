//! The command line with a board's text, which no call toward C takes: several texts on one
//! buffer, and one after each step of a context's building.

use ultra_model::driving::table::*;
use ultra_model::generator::call::Call;
use ultra_model::generator::contexts;
use ultra_model::generator::inputs::{Bench, Difference};
use ultra_model::generator::lines;
use ultra_model::generator::records::Record;
use ultra_model::generator::rng::Rng;

use crate::bench::Driven;
use crate::spelling::{self, Asked};

/// How many boards' texts there are for one buffer.
const TEXTS: usize = 4;

pub fn run(bench: &mut Driven, rng: &mut Rng) -> Result<(), Difference> {
    match rng.below(100) {
        0..=8 => texts(bench, rng),
        9 => while_built(bench, rng),
        _ => Ok(()),
    }
}

/// Where the context's own line lies is the same whatever the board's text is, and is what the
/// question without that text says.
fn texts(bench: &mut Driven, rng: &mut Rng) -> Result<(), Difference> {
    bench.load(lines::buffer(rng));
    let part = bench.make(&Asked::new(COMMAND_LINE_PART, &[], &[]))?;
    for _ in 0..TEXTS {
        let asked = spelling::line(rng, bench.bytes());
        if bench.make(&asked)?.numbers != part.numbers {
            return Err(Difference("a board's text moves the line".into()));
        }
    }
    Ok(())
}

/// Asked on the buffer that the program keeps: there is no line before it was added, and from
/// then on it is there.
fn while_built(bench: &mut Driven, rng: &mut Rng) -> Result<(), Difference> {
    let length = 800 + rng.below(1_000);
    bench.load(rng.bytes(length));
    bench.make(&Asked::new(BEGIN, &[], &[]))?;
    ask_kept(bench, rng)?;
    let mut types = contexts::types(rng, false);
    if !types.contains(&5) {
        types.push(5);
    }
    for kind in types {
        let call = Call::adding(Record::good(rng, kind)).expect("types 1 to 6 are added");
        bench.call(&call)?;
        ask_kept(bench, rng)?;
    }
    Ok(())
}

fn ask_kept(bench: &mut Driven, rng: &mut Rng) -> Result<(), Difference> {
    let asked = spelling::line(rng, bench.bytes());
    bench.make_kept(&asked).map(|_| ())
}
