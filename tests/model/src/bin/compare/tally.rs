//! What the calls toward C can answer, and the shapes that have to be met.

use ultra_model::generator::call::{Call, CALLS};
use ultra_model::generator::given::Given;
use ultra_model::tally::{
    adding, asking, joined, maps, modules, Row, Tally, BEGINNING, COPYING, NONE, READING, STEPPING,
};

/// In the order of [`Call::id`]. The command line has no number. A platform has no 12 of its
/// own toward C: no member can be left absent.
pub const ROWS: &[Row; CALLS] = &[
    asking("read", READING),
    asking("step", STEPPING),
    asking("begin", BEGINNING),
    adding("add_platform", &[13, 14]),
    adding("add_kernel", &[12, 13, 14, 15]),
    adding("add_map", &[10, 12, 13, 15, 16]),
    adding("add_module", &[11, 13, 14, 15]),
    adding("add_command_line", &[10, 14]),
    adding("add_framebuffer", &[10, 13, 15]),
    asking("attribute", READING),
    asking("copy_map", COPYING),
    asking("command_line", NONE),
    asking("module_holding", READING),
];

ultra_model::shapes! {
    StepToTheEnd: "steps to the end",
    IndexPastTheCount: "attributes asked for at or past the count",
    EmptyMapCopied: "empty maps copied",
    LineFound: "command lines found",
    EmptyLineFound: "empty command lines found",
    NoLine: "no command line",
    ModuleFound: "addresses held by a module",
    NoModule: "addresses held by none",
    BufferUnaligned: "inputs whose buffer is not aligned to 8",
    BufferPastTheRoom: "inputs whose buffer is longer than 65,536",
    EmptySliceNull: "empty slices lent as null",
    EmptySliceNotNull: "empty slices lent with an address",
}

/// The names of all shapes.
pub const ALL: &[&str] = &joined::<COUNT>(&[SHAPES, maps::SHAPES, modules::SHAPES]);

const COUNT: usize = SHAPES.len() + maps::SHAPES.len() + modules::SHAPES.len();

fn met(tally: &mut Tally, shape: Shape) {
    tally.shape(shape as usize);
}

fn of_map(tally: &mut Tally, met: Vec<usize>) {
    met.into_iter()
        .for_each(|place| tally.shape(SHAPES.len() + place));
}

/// Counts what was answered of an address in a buffer that is accepted.
fn holding(tally: &mut Tally, buf: &[u8], address: u64, start: u32) {
    let shape = match start {
        0 => Shape::NoModule,
        _ => Shape::ModuleFound,
    };
    met(tally, shape);
    let Some(shapes) = modules::asked(buf, address, start.into()) else {
        return tally.impossible();
    };
    let first = SHAPES.len() + maps::SHAPES.len();
    for shape in shapes {
        tally.shape(first + shape as usize);
    }
}

pub fn buffer(tally: &mut Tally, given: &Given) {
    if !given.shift.is_multiple_of(8) {
        met(tally, Shape::BufferUnaligned);
    }
    if given.bytes.len() > 65_536 {
        met(tally, Shape::BufferPastTheRoom);
    }
    slice(tally, given);
}

pub fn slice(tally: &mut Tally, given: &Given) {
    match (given.bytes.is_empty(), given.null) {
        (true, true) => met(tally, Shape::EmptySliceNull),
        (true, false) => met(tally, Shape::EmptySliceNotNull),
        (false, _) => {}
    }
}

/// Counts an answer that both sides gave about this buffer.
pub fn answer(tally: &mut Tally, call: &Call, answer: u64, buf: &[u8], buffer_accepted: bool) {
    let (number, value) = (answer >> 32, answer as u32);
    if let Call::CommandLine = call {
        // The text's start stands in the number's place.
        tally.answer(call.id(), 0, false);
        let shape = match (number, value) {
            (0, _) => Shape::NoLine,
            (_, 0) => Shape::EmptyLineFound,
            _ => Shape::LineFound,
        };
        return met(tally, shape);
    }
    tally.answer(call.id(), number, call.adds() && buffer_accepted);
    match (call, number, value) {
        (Call::Read, ..) => of_map(tally, maps::read(buf, number, value as usize)),
        (Call::AddMap { entries }, ..) if buffer_accepted => {
            of_map(tally, maps::given(&entries.bytes, number));
        }
        (Call::Step { .. }, 0, 0) => met(tally, Shape::StepToTheEnd),
        // A count above 1,024 is 3 at 0.
        (Call::Attribute { .. }, 3, 1..) => met(tally, Shape::IndexPastTheCount),
        (Call::CopyMap { .. }, 0, 0) => met(tally, Shape::EmptyMapCopied),
        (Call::ModuleHolding { address }, 0, start) => holding(tally, buf, *address, start),
        _ => {}
    }
}
