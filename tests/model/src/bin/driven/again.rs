//! "a plain context, built again from its reading, has the same bytes": what the questions
//! answer at each index is given to the adds, as it is.

use ultra_model::driving::table::*;
use ultra_model::driving::Answer;
use ultra_model::generator::contexts::{self, Layout};
use ultra_model::generator::inputs::{Bench, Difference};
use ultra_model::generator::rng::Rng;

use crate::bench::Driven;
use crate::spelling::Asked;
use crate::tally::Shape;

/// Reads a plain context, and builds it again in another buffer.
pub fn run(bench: &mut Driven, rng: &mut Rng) -> Result<(), Difference> {
    let types = contexts::types(rng, false);
    let plain = Layout::of(&contexts::good_records(rng, &types)).bytes();
    let adds = read(bench, rng, &plain, types.len() as u64)?;

    let spare = rng.pick(&[0, 0, 1, 8, 100]);
    let mut built = rng.bytes(plain.len() + spare);
    bench.load(built.clone());
    bench.make(&Asked::new(BEGIN, &[], &[]))?;
    for add in adds {
        if bench.make(&add)?.numbers[0] != 0 {
            return Err(Difference(format!("refused as read: {add:?}")));
        }
    }
    built[..plain.len()].copy_from_slice(&plain);
    if bench.bytes() != built {
        return Err(Difference("built again, the bytes are others".into()));
    }
    bench.tally.shape(Shape::Rebuilt as usize);
    Ok(())
}

/// The adds of what the questions answer from index 0 to the count.
fn read(
    bench: &mut Driven,
    rng: &mut Rng,
    plain: &[u8],
    count: u64,
) -> Result<Vec<Asked>, Difference> {
    let mut bytes = plain.to_vec();
    let spare = rng.below(50);
    bytes.extend(rng.bytes(spare));
    bench.load(bytes);
    let mut adds = Vec::new();
    for index in 0..=count {
        let attribute = bench.make(&Asked::new(ATTRIBUTE, &[index], &[]))?;
        let part = bench.make(&Asked::new(ATTRIBUTE_PART, &[index], &[]))?;
        adds.extend(add(&attribute, &part.strings[0]));
    }
    match adds.len() as u64 == count {
        true => Ok(adds),
        false => Err(Difference("reading answers another list".into())),
    }
}

/// The add of what was answered for an attribute; none past the count.
fn add(attribute: &Answer, part: &[u8]) -> Option<Asked> {
    let numbers = &attribute.numbers;
    let strings: Vec<&[u8]> = attribute.strings.iter().map(Vec::as_slice).collect();
    Some(match numbers[2] {
        1 => Asked::new(ADD_PLATFORM, &numbers[7..16], &strings[..1]),
        2 => Asked::new(ADD_KERNEL, &numbers[16..22], &strings[1..4]),
        3 => Asked::new(ADD_MAP, &[], &[part]),
        4 => Asked::new(ADD_MODULE, &numbers[22..25], &strings[4..]),
        5 => Asked::new(ADD_COMMAND_LINE, &[], &[part]),
        6 => Asked::new(ADD_FRAMEBUFFER, &numbers[25..31], &[]),
        _ => return None,
    })
}
