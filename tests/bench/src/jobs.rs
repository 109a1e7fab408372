//! What is measured: a call on an input, by one of the subjects, a number of times.

use std::hint::black_box;

use crate::inputs::{Buffer, Input, ROOM};
use crate::subjects::{add, Library, Model, Subject, Walk};

#[derive(Clone, Copy, Debug, PartialEq, Eq)]
pub enum Call {
    Read,
    /// Reading a context that is refused: the walks do not refuse, so they have no part in it.
    Refuse,
    Attribute,
    CopyMap,
    Build,
}

#[derive(Clone, Copy, Debug, PartialEq, Eq)]
pub enum Who {
    Library,
    Model,
    /// The unchecked walk; for reading, the bare one.
    Walk,
    /// The unchecked walk that looks at everything; for reading alone.
    Use,
}

impl Call {
    pub const ALL: [Call; 5] = [
        Call::Read,
        Call::Refuse,
        Call::Attribute,
        Call::CopyMap,
        Call::Build,
    ];

    pub fn name(self) -> &'static str {
        match self {
            Call::Read => "read",
            Call::Refuse => "refuse",
            Call::Attribute => "attribute",
            Call::CopyMap => "copy",
            Call::Build => "build",
        }
    }

    pub fn title(self) -> &'static str {
        match self {
            Call::Read => "Reading (`ultra_read`)",
            Call::Refuse => "Reading a map that is refused (`ultra_read`)",
            Call::Attribute => "The attribute at the last index (`ultra_attribute`)",
            Call::CopyMap => "Copying the map out (`ultra_copy_map`)",
            Call::Build => "Building (`ultra_begin`, `ultra_add_..`)",
        }
    }

    /// The other orders of types are there for reading alone.
    pub fn takes(self, input: &Input) -> bool {
        match self {
            Call::Refuse => input.refusal != 0,
            Call::Read => input.refusal == 0,
            _ => input.refusal == 0 && !input.is_extra(),
        }
    }

    pub fn subjects(self) -> &'static [Who] {
        match self {
            Call::Read => &[Who::Library, Who::Model, Who::Walk, Who::Use],
            Call::Refuse => &[Who::Library, Who::Model],
            _ => &[Who::Library, Who::Model, Who::Walk],
        }
    }
}

impl Who {
    pub const ALL: [Who; 4] = [Who::Library, Who::Model, Who::Walk, Who::Use];

    pub fn name(self) -> &'static str {
        match self {
            Who::Library => "library",
            Who::Model => "model",
            Who::Walk => "walk",
            Who::Use => "use",
        }
    }
}

pub struct Job<'a> {
    pub call: Call,
    pub input: &'a Input,
    /// What copying and building write to. Zeroed here and not again: what is written is
    /// the same each time, and the bytes after it decide nothing.
    pub target: Buffer,
}

impl<'a> Job<'a> {
    pub fn new(call: Call, input: &'a Input) -> Job<'a> {
        let target = match (call, &input.plan.from) {
            (Call::Build, Some(from)) => from.clone(),
            _ => Buffer::zeroed(),
        };
        Job {
            call,
            input,
            target,
        }
    }
}

/// Makes the job's call this often; the sum of its answers. By its name, callgrind counts
/// just what happens in here.
#[no_mangle]
#[inline(never)]
pub fn ultra_bench_measured(job: &mut Job, who: Who, times: u64) -> u64 {
    match who {
        Who::Library => by::<Library>(job, times),
        Who::Model => by::<Model>(job, times),
        Who::Walk => by::<Walk>(job, times),
        Who::Use => {
            let context = job.input.context.bytes();
            repeat(times, || Walk::use_all(black_box(context)))
        }
    }
}

fn by<S: Subject>(job: &mut Job, times: u64) -> u64 {
    let input = job.input;
    let context = input.context.bytes();
    let target = job.target.bytes_mut();
    match job.call {
        Call::Read | Call::Refuse => repeat(times, || S::read(black_box(context))),
        Call::Attribute => {
            let last = u64::from(input.count) - 1;
            repeat(times, || S::attribute(black_box(context), black_box(last)))
        }
        Call::CopyMap => repeat(times, || {
            S::copy_map(black_box(context), black_box(&mut *target))
        }),
        Call::Build => repeat(times, || build::<S>(black_box(&mut *target), input)),
    }
}

fn repeat(times: u64, mut call: impl FnMut() -> u64) -> u64 {
    (0..times).fold(0, |sum, _| black_box(call()).wrapping_add(sum))
}

/// The whole plan; the sum of its answers.
fn build<S: Subject>(target: &mut [u8], input: &Input) -> u64 {
    debug_assert_eq!(target.len(), ROOM);
    let begun = match &input.plan.from {
        None => S::begin(target),
        // Back to the context that stood there, by its head: the bytes are as they were.
        Some(from) => {
            target[..8].copy_from_slice(&from.bytes()[..8]);
            8
        }
    };
    input.plan.adds.iter().fold(begun, |sum, one| {
        sum.wrapping_add(add::<S>(target, black_box(one)))
    })
}
