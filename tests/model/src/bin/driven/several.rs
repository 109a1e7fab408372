//! Lists of modules, which no call toward C takes: on whatever an input leaves, in sequences on
//! one buffer, and beside the adds of the same modules one by one.

use ultra_model::driving::table::*;
use ultra_model::generator::call::Call;
use ultra_model::generator::contexts;
use ultra_model::generator::inputs::{Bench, Difference};
use ultra_model::generator::module_lists;
use ultra_model::generator::records::Record;
use ultra_model::generator::rng::Rng;

use crate::bench::Driven;
use crate::spelling::{self, Asked};
use crate::tally::Shape;

pub fn run(bench: &mut Driven, rng: &mut Rng) -> Result<(), Difference> {
    if bench.takes() {
        let asked = any_list(rng);
        bench.make(&asked)?;
    }
    match rng.below(100) {
        0..=11 => one_by_one(bench, rng),
        12..=15 => sequence(bench, rng),
        16 | 17 => none(bench, rng),
        _ => Ok(()),
    }
}

fn any_list(rng: &mut Rng) -> Asked {
    let list = module_lists::modules(rng);
    spelling::module_list(rng, &list)
}

/// "With no modules it .. doesn't look at the buffer": not even for a head.
fn none(bench: &mut Driven, rng: &mut Rng) -> Result<(), Difference> {
    let length = rng.below(10);
    bench.load(rng.bytes(length));
    let asked = spelling::module_list(rng, &[]);
    bench.make(&asked)?;
    Ok(())
}

/// "with the same bytes and answers as adding them one by one"
fn one_by_one(bench: &mut Driven, rng: &mut Rng) -> Result<(), Difference> {
    let asked = any_list(rng);
    let singles = singles(&asked.strings[0]);
    let bytes = contexts::for_modules(rng, singles.len());
    bench.load(bytes.clone());
    let several = bench.make(&asked)?.numbers;
    let left = bench.bytes().to_vec();

    bench.load(bytes);
    // With no module there is no answer of an add.
    let (mut answer, mut added) = (vec![0, 0], 0);
    for single in singles {
        answer = bench.make(&single)?.numbers;
        if answer[0] != 0 {
            break;
        }
        added += 1;
    }
    answer.push(added);
    if several != answer {
        let what = format!("a list answers {several:?}, its modules one by one {answer:?}");
        return Err(Difference(what));
    }
    if left != bench.bytes() {
        let what = "a list leaves other bytes than its modules one by one";
        return Err(Difference(what.into()));
    }
    bench.tally.shape(Shape::OneByOne as usize);
    Ok(())
}

/// The adds of a list's modules as single records.
fn singles(list: &[u8]) -> Vec<Asked> {
    let modules = list.chunks_exact(LISTED_MODULE_SIZE);
    let single = |module: &[u8]| {
        let numbers = [0, 8, 16].map(|at| ultra_model::format::u64_at(module, at));
        Asked::new(ADD_MODULE, &numbers, &[&module[24..]])
    };
    modules.map(single).collect()
}

/// Lists on one buffer, which the program keeps, with other calls between them.
fn sequence(bench: &mut Driven, rng: &mut Rng) -> Result<(), Difference> {
    match rng.chance(50) {
        true => begin(bench, rng)?,
        false => {
            let count = rng.below(40);
            bench.load(contexts::for_modules(rng, count));
        }
    }
    for _ in 0..2 + rng.below(5) {
        let asked = any_list(rng);
        bench.make_kept(&asked)?;
        between(bench, rng)?;
    }
    bench.make_kept(&Asked::new(READ, &[], &[]))?;
    Ok(())
}

/// A beginning in junk, mostly with the two attributes that modules come after.
fn begin(bench: &mut Driven, rng: &mut Rng) -> Result<(), Difference> {
    let length = 432 + rng.below(30 * 96);
    bench.load(rng.bytes(length));
    bench.make(&Asked::new(BEGIN, &[], &[]))?;
    for kind in [1, 2] {
        if rng.chance(90) {
            add(bench, rng, kind)?;
        }
    }
    Ok(())
}

fn add(bench: &mut Driven, rng: &mut Rng, kind: u32) -> Result<(), Difference> {
    let call = Call::adding(Record::good(rng, kind)).expect("types 1 to 6 are added");
    bench.call(&call).map(|_| ())
}

/// A question, an add after which no module may stand, a single module, or nothing.
fn between(bench: &mut Driven, rng: &mut Rng) -> Result<(), Difference> {
    match rng.below(8) {
        0 => {
            let index = rng.below(20) as u64;
            bench.make_kept(&Asked::new(ATTRIBUTE, &[index], &[]))?;
        }
        1 => {
            bench.make_kept(&Asked::new(MODULE_HOLDING, &[rng.bits(64)], &[]))?;
        }
        2 => {
            let kind = rng.pick(&[3, 5, 6]);
            add(bench, rng, kind)?;
        }
        3 | 4 => add(bench, rng, 4)?,
        _ => {}
    }
    Ok(())
}
