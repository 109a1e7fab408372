//! The inputs: what kind the one of an index is, its buffer, and the calls made on it. All
//! of it comes from the seed and the index alone.

use crate::generator::arguments::View;
use crate::generator::call::{Call, CALLS};
use crate::generator::contexts::{self, Layout};
use crate::generator::given::Start;
use crate::generator::records::{lend, Record};
use crate::generator::rng::Rng;

/// How the two sides differ, in words.
#[derive(Debug)]
pub struct Difference(pub String);

/// Two sides on one buffer: every call is made on both, and answers and lent bytes are
/// compared.
pub trait Bench {
    /// Buffers longer than this are not stepped through from the first to the last.
    const WALKED: usize = usize::MAX;

    /// Makes ready for the input of this index.
    fn input(&mut self, seed: u64, index: u64, kind: Kind);
    fn start(&mut self, start: Start);
    /// Back to what the input started with.
    fn restart(&mut self);
    /// The buffer as it is now, which is the same on both sides.
    fn bytes(&self) -> &[u8];
    /// Makes the call; what both sides answered, as it is toward C.
    fn call(&mut self, call: &Call) -> Result<u64, Difference>;

    /// Whether the next of the calls that an input has for each buffer is made.
    fn takes(&mut self) -> bool {
        true
    }
}

#[derive(Clone, Copy, Debug, PartialEq, Eq)]
pub enum Kind {
    Random,
    Head,
    Valid,
    Foreign,
    Begun,
    Spoilt,
    Boundary,
    Cut,
    Byte,
    Many,
    Large,
    Sequence,
    Rebuild,
}

impl Kind {
    pub const ALL: [Kind; 13] = [
        Kind::Random,
        Kind::Head,
        Kind::Valid,
        Kind::Foreign,
        Kind::Begun,
        Kind::Spoilt,
        Kind::Boundary,
        Kind::Cut,
        Kind::Byte,
        Kind::Many,
        Kind::Large,
        Kind::Sequence,
        Kind::Rebuild,
    ];

    /// How many of 1,024 inputs are of this kind.
    fn share(self) -> u64 {
        match self {
            Kind::Random => 36,
            Kind::Head => 86,
            Kind::Valid => 110,
            Kind::Foreign => 130,
            Kind::Begun => 150,
            Kind::Spoilt => 150,
            Kind::Boundary => 160,
            Kind::Cut => 60,
            Kind::Byte => 56,
            Kind::Many => 8,
            Kind::Large => 10,
            Kind::Sequence => 50,
            Kind::Rebuild => 18,
        }
    }

    pub fn of(index: u64) -> Kind {
        // An odd factor spreads the kinds over any run of indices.
        let mut place = index.wrapping_mul(405) % 1_024;
        for kind in Kind::ALL {
            if place < kind.share() {
                return kind;
            }
            place -= kind.share();
        }
        Kind::Random
    }

    pub fn name(self) -> &'static str {
        match self {
            Kind::Random => "random",
            Kind::Head => "head",
            Kind::Valid => "valid",
            Kind::Foreign => "foreign",
            Kind::Begun => "begun",
            Kind::Spoilt => "spoilt",
            Kind::Boundary => "boundary",
            Kind::Cut => "cut",
            Kind::Byte => "byte",
            Kind::Many => "many",
            Kind::Large => "large",
            Kind::Sequence => "sequence",
            Kind::Rebuild => "rebuild",
        }
    }

    pub fn what(self) -> &'static str {
        match self {
            Kind::Random => "random bytes",
            Kind::Head => "a head and likely headers, random bodies",
            Kind::Valid => "contexts as the adds write them",
            Kind::Foreign => "contexts with other versions, types, sizes and silent bytes",
            Kind::Begun => "lists of no or one attribute",
            Kind::Spoilt => "contexts with one or two faults",
            Kind::Boundary => "a boundary of the rules, on either side",
            Kind::Cut => "contexts lent in part",
            Kind::Byte => "contexts with one byte changed",
            Kind::Many => "lists of about 256 and 1,024 attributes",
            Kind::Large => "buffers of about 65,536 bytes and more",
            Kind::Sequence => "sequences of calls on one buffer",
            Kind::Rebuild => "contexts built and walked through",
        }
    }
}

/// Makes and runs the input of this index.
pub fn run(bench: &mut impl Bench, seed: u64, index: u64) -> Result<(), Difference> {
    let rng = &mut Rng::for_input(seed, index);
    let kind = Kind::of(index);
    bench.input(seed, index, kind);
    let start = match kind {
        Kind::Random => contexts::random(rng),
        Kind::Head => contexts::head(rng),
        Kind::Valid => contexts::valid(rng, false),
        Kind::Foreign => contexts::valid(rng, true),
        Kind::Begun => contexts::begun(rng),
        Kind::Spoilt => contexts::spoilt(rng),
        Kind::Boundary => contexts::boundary(rng),
        Kind::Cut => contexts::cut(rng),
        Kind::Byte => contexts::byte(rng),
        Kind::Many => contexts::many(rng),
        Kind::Large => contexts::large(rng),
        Kind::Sequence => return sequence(bench, rng),
        Kind::Rebuild => return rebuild(bench, rng),
    };
    each_on_its_own(bench, rng, start, kind)
}

/// Every call on the buffer as it was at first.
fn each_on_its_own(
    bench: &mut impl Bench,
    rng: &mut Rng,
    start: Start,
    kind: Kind,
) -> Result<(), Difference> {
    let bytes = start.buffer.bytes.clone();
    bench.start(start);
    let view = View::new(&bytes);
    for call in questions(rng, &view) {
        if bench.takes() {
            bench.call(&call)?;
        }
    }
    for call in changes(rng, &view) {
        if bench.takes() {
            bench.call(&call)?;
            bench.restart();
        }
    }
    if kind == Kind::Large || rng.below(250) == 0 {
        bench.call(&view.add_long(rng))?;
        bench.restart();
    }
    if rng.chance(3) {
        walk(bench)?;
    }
    Ok(())
}

/// The calls that change nothing; those whose arguments matter more than once.
fn questions(rng: &mut Rng, view: &View) -> Vec<Call> {
    vec![
        Call::Read,
        view.step(rng),
        view.step(rng),
        view.step(rng),
        view.attribute(rng),
        view.attribute(rng),
        view.copy_map(rng),
        Call::CommandLine,
        view.module_holding(rng),
        view.module_holding(rng),
    ]
}

fn changes(rng: &mut Rng, view: &View) -> Vec<Call> {
    let mut calls: Vec<_> = (1..=6).map(|kind| view.add(rng, kind)).collect();
    calls.push(Call::Begin);
    calls
}

/// From the first cursor to the end, or to a refusal.
fn walk<B: Bench>(bench: &mut B) -> Result<(), Difference> {
    if bench.bytes().len() > B::WALKED {
        return Ok(());
    }
    let mut offset = 8;
    for index in 0..=1_024 {
        let answer = bench.call(&Call::Step { index, offset })?;
        if answer == 0 || answer >> 32 != 0 {
            break;
        }
        offset = answer as u32;
    }
    Ok(())
}

/// Every call that was not yet made on this input.
fn the_rest(bench: &mut impl Bench, rng: &mut Rng, made: &[bool; CALLS]) -> Result<(), Difference> {
    let bytes = bench.bytes().to_vec();
    let view = View::new(&bytes);
    let calls = [questions(rng, &view), changes(rng, &view)].concat();
    for call in calls {
        if !made[call.id()] {
            bench.call(&call)?;
        }
    }
    Ok(())
}

/// Beginnings, good and bad adds in good and bad orders, and questions in between, all on
/// one buffer.
fn sequence(bench: &mut impl Bench, rng: &mut Rng) -> Result<(), Difference> {
    let length = match rng.below(20) {
        0 => rng.below(100),
        1..=3 => 432 + 8 * rng.below(30),
        4 => 65_500 + rng.below(4_500) * rng.below(2),
        _ => 432 + rng.below(1_200),
    };
    let steps = if length > 60_000 {
        12
    } else {
        8 + rng.below(24)
    };
    let bytes = rng.bytes(length);
    let buffer = lend(rng, bytes);
    bench.start(Start {
        buffer,
        ..Start::default()
    });
    let mut made = [false; CALLS];
    for step in 0..steps {
        let bytes = bench.bytes().to_vec();
        let view = View::new(&bytes);
        let call = match rng.below(100) {
            _ if step == 0 && rng.chance(85) => Call::Begin,
            0..=2 => Call::Begin,
            3..=22 => {
                let mut calls = questions(rng, &view);
                calls.swap_remove(rng.below(calls.len()))
            }
            23..=29 => {
                let kind = 1 + rng.below(6) as u32;
                view.add(rng, kind)
            }
            _ => {
                // What may come next, mostly.
                let kind = match view.count {
                    0 => 1,
                    1 => 2,
                    _ => 3 + rng.below(4) as u32,
                };
                match rng.chance(70) {
                    true => Call::adding(Record::good(rng, kind)).expect("types 1 to 6"),
                    false => view.add(rng, kind),
                }
            }
        };
        bench.call(&call)?;
        made[call.id()] = true;
    }
    bench.call(&Call::Read)?;
    walk(bench)?;
    the_rest(bench, rng, &made)
}

/// "a plain context, built again from its reading, has the same bytes": the adds of its
/// records, in a buffer of junk, give the bytes that the table gives.
fn rebuild(bench: &mut impl Bench, rng: &mut Rng) -> Result<(), Difference> {
    let types = contexts::types(rng, false);
    let records = contexts::good_records(rng, &types);
    let plain = Layout::of(&records).bytes();
    let spare = rng.pick(&[0, 0, 1, 8, 100]);
    let mut bytes = rng.bytes(plain.len() + spare);
    let buffer = lend(rng, bytes.clone());
    bench.start(Start {
        buffer,
        ..Start::default()
    });
    bytes[..plain.len()].copy_from_slice(&plain);

    let mut made = [false; CALLS];
    let adds = records.into_iter().filter_map(Call::adding);
    for call in std::iter::once(Call::Begin).chain(adds) {
        let answer = bench.call(&call)?;
        made[call.id()] = true;
        if answer >> 32 != 0 {
            return Err(Difference(format!(
                "both sides refuse a good record: {call:?}"
            )));
        }
    }
    if bench.bytes() != bytes {
        return Err(Difference(
            "both sides build other bytes than the table gives".into(),
        ));
    }
    if bench.call(&Call::Read)? != plain.len() as u64 {
        return Err(Difference("both sides read another used length".into()));
    }
    made[Call::Read.id()] = true;
    walk(bench)?;
    the_rest(bench, rng, &made)
}
