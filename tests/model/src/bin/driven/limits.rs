//! The longest buffers, maps, outputs, texts, lists, runs and frames that the program takes.

use ultra_model::driving::frame::{FRAME_LIMIT, HEAD_LENGTH};
use ultra_model::driving::table::*;
use ultra_model::generator::contexts::{self, Layout};
use ultra_model::generator::inputs::Difference;
use ultra_model::generator::module_lists;
use ultra_model::generator::payloads;
use ultra_model::generator::records::Record;
use ultra_model::generator::rng::Rng;

use crate::bench::Driven;
use crate::exports;
use crate::spelling::{self, Asked};

pub fn run(bench: &mut Driven, rng: &mut Rng) -> Result<(), Difference> {
    // A context at the start of the longest buffer.
    let mut bytes = contexts::valid(rng, false).buffer.bytes;
    bytes.resize(BUFFER_LIMIT, 0xA5);
    bench.load(bytes);
    bench.make(&Asked::new(READ, &[], &[]))?;
    bench.make_kept(&Asked::new(MODULE_HOLDING, &[rng.word()], &[]))?;
    let name: &[u8] = b"last";
    bench.make_kept(&Asked::new(ADD_MODULE, &[1, 4096, 1], &[name]))?;

    let bytes = contexts::valid(rng, false).buffer.bytes;
    bench.load(bytes);
    if let Record::Map(entries) = Record::map_of(rng, NUMBERS_LIMIT / 3) {
        bench.make(&Asked::new(ADD_MAP, &[], &[&entries.bytes]))?;
    }
    for more in [0, 7] {
        let output = rng.bytes(8 * NUMBERS_LIMIT + more);
        bench.make_kept(&Asked::new(COPY_MAP, &[], &[&output]))?;
    }
    for call in [ADD_COMMAND_LINE, COPY_MAP_BYTES, COMMAND_LINE, LIST] {
        // With the kept buffer a frame has its head and two lengths besides the string.
        let string = rng.bytes(FRAME_LIMIT - HEAD_LENGTH - 8);
        bench.make_kept(&Asked::new(call, &[], &[&string]))?;
    }
    longest_board(bench, rng)?;
    most_modules(bench, rng)?;
    longest_writing(bench, rng)?;
    longest_output(bench, rng)
}

/// The longest board's text beside the longest buffer, which has a line, has none, or is refused.
/// No answer is longer than this one.
fn longest_board(bench: &mut Driven, rng: &mut Rng) -> Result<(), Difference> {
    let board = rng.bytes(FRAME_LIMIT - HEAD_LENGTH - 8);
    for types in [&[1, 2, 5][..], &[1, 2], &[]] {
        let mut bytes = Layout::of(&contexts::good_records(rng, types)).bytes();
        bytes.resize(BUFFER_LIMIT, 0xA5);
        bench.load(bytes);
        bench.make(&Asked::new(COMMAND_LINE_PART, &[], &[]))?;
        bench.make_kept(&Asked::new(COMMAND_LINE, &[], &[&board]))?;
    }
    Ok(())
}

/// As many modules as a frame may give, with as many bytes left over as are no module.
fn most_modules(bench: &mut Driven, rng: &mut Rng) -> Result<(), Difference> {
    bench.load(contexts::for_modules(rng, 3 * MODULES_LIMIT));
    for left_over in [0, LISTED_MODULE_SIZE - 1] {
        let list = module_lists::good(rng, MODULES_LIMIT);
        let mut asked = spelling::module_list(rng, &list);
        let string = &mut asked.strings[0];
        string.truncate(MODULES_LIMIT * LISTED_MODULE_SIZE);
        string.extend(rng.bytes(left_over));
        bench.make(&asked)?;
    }
    Ok(())
}

/// A payload at the start of the longest buffer, of as many numbers as a frame may give, and of
/// the longest run.
fn longest_writing(bench: &mut Driven, rng: &mut Rng) -> Result<(), Difference> {
    let records = payloads::records(rng, 1)[0].bytes();
    let parts = |start: u64| [start, 5].map(u64::to_le_bytes).concat();
    bench.load(vec![0xA5; BUFFER_LIMIT]);
    for left_over in [0, 7] {
        let mut parts = parts(1);
        let more = 8 * NUMBERS_LIMIT + left_over - parts.len();
        parts.extend(rng.bytes(more));
        bench.make(&Asked::new(
            HANDOVER_WRITE,
            &[],
            &[&records, &parts, b"0agent"],
        ))?;
    }
    // With the kept buffer a frame has its head, four lengths, a record and two numbers besides.
    let run = vec![b'x'; FRAME_LIMIT - HEAD_LENGTH - 16 - 32 - 16];
    for start in [0, run.len() as u64 - 5, run.len() as u64 - 4] {
        let asked = Asked::new(HANDOVER_WRITE, &[], &[&records, &parts(start), &run]);
        bench.make_kept(&asked)?;
    }
    bench.make_kept(&Asked::new(AGENT_NAME, &[], &[]))?;
    Ok(())
}

/// A context in the longest buffer, exported to the longest output that a frame may have beside it.
fn longest_output(bench: &mut Driven, rng: &mut Rng) -> Result<(), Difference> {
    let mut bytes = Layout::of(&contexts::good_records(rng, &[1, 2, 4, 3])).bytes();
    bytes.resize(BUFFER_LIMIT, 0xA5);
    bench.load(bytes);
    bench.make(&Asked::new(READ, &[], &[]))?;
    // With the kept buffer a frame has its head, a number and two lengths besides.
    let output = rng.bytes(FRAME_LIMIT - HEAD_LENGTH - 16);
    exports::export_to(bench, rng, 0, &output)
}
