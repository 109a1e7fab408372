//! The shapes of a context that is exported to a Handover payload, and of what refuses it.
//! Number and size are worked out once more, by the headers: so an answer that is wrong on both
//! sides is told too.

use ultra_model::driving::frame::{FRAME_LIMIT, HEAD_LENGTH};
use ultra_model::format::{
    u32_at, u64_at, COMMAND_LINE, COUNT_LEAST, ENTRY_SIZE, FRAMEBUFFER, HEADER_SIZE, HEAD_SIZE,
    MAP, MODULE, PAGE, PLATFORM, ROOM_LIMIT,
};
use ultra_model::reading;

use super::{Made, Shapes};

ultra_model::shapes! {
    Exported: "contexts exported",
    ReadBack: "payloads exported and read back, every record",
    ReadBackInPart: "payloads exported and read back, some of many records",
    WrittenAgain: "payloads exported and written again from their reading, with the same bytes",
    KeptChanged: "contexts exported from the buffer kept, which a call before had changed",
    Least: "contexts exported to 81 bytes",
    MostRecords: "contexts exported to 1,024 records",
    NoMap: "contexts exported without a map",
    EmptyMap: "contexts exported with an empty map",
    NoMapModules: "contexts exported with modules and no map",
    ModulesFirst: "contexts exported with modules before the map",
    ModulesAfter: "contexts exported with modules after the map",
    LineFirst: "contexts exported with a command line before the map and the modules",
    Line: "command lines exported",
    LineEmpty: "empty command lines exported",
    LineBytesAfter: "command lines exported with other bytes after their zero",
    NoLine: "contexts exported without a command line",
    Rsdp: "RSDP addresses exported",
    RsdpAtTheTop: "RSDP addresses exported that end at 2^64",
    NoRsdp: "contexts exported with an RSDP address of 0",
    LoadNone: "load addresses of 0",
    LoadOdd: "load addresses of no whole page",
    LoadAtTheTop: "payloads exported that end at 2^64",
    RangeFree: "ranges exported of type 1",
    RangeLoader: "ranges exported of type 0xFFFF0001",
    RangeModule: "ranges exported of type 0xFFFF0002",
    RangeStack: "ranges exported of type 0xFFFF0003",
    RangeKernel: "ranges exported of type 0xFFFF0004",
    RangeFirmware: "ranges exported of types 2 to 4",
    RangeWide: "ranges exported of a type that is another's in its low 32 bits alone",
    RangeOther: "ranges exported of any other type",
    RangeEmpty: "ranges exported of size 0",
    RangeAtTheTop: "ranges exported that end at 2^64",
    FileNameLongest: "files exported with a name of 63 bytes",
    FileNameEmpty: "files exported with an empty name",
    FileNameBytesAfter: "files exported with other bytes after their name's zero",
    FileOfPart: "files exported with a size of no whole pages",
    FilesSeveral: "contexts exported with several modules",
    AgentLongest: "agents exported of 31 bytes",
    AgentEmpty: "empty agents exported",
    AgentBytesAfter: "agents exported with other bytes after their zero",
    FramebufferLeft: "contexts exported without their framebuffer",
    TreeLeft: "contexts exported without the address of their device tree",
    OtherLeft: "contexts exported without their attributes of a type from 7 up",
    Bios: "contexts exported with a platform of type 1",
    PlatformShort: "contexts exported with a platform of 56 bytes",
    OtherVersion: "contexts exported of another version than 1.0",
    BufferPastTheRoom: "contexts exported from a buffer longer than 65,536",
    OutputExact: "outputs of just the payload exported",
    OutputLonger: "outputs with bytes past the payload exported",
    OutputPastTheRoom: "outputs longer than 65,536, exported to",
    OutputOfFrame: "outputs that fill a frame, exported to",
    WholeRoom: "payloads of 65,536 bytes exported to an output of as many",
    WholeRoomOfMore: "payloads of 65,536 bytes exported to a longer output",
    ByReader: "exports refused by reading",
    ByReaderCount: "exports refused as 3 by reading",
    ByReaderRange: "exports refused as 15 by reading",
    ByReaderAndLoad: "exports refused by reading, with a load address that is 15",
    ByReaderAndOutput: "exports refused by reading, with an output of less than a head",
    Count: "exports refused as 3 for their records",
    CountOneMore: "exports: 3 alone, for 1,025 records",
    CountAndRange: "exports: 3 with a sum that is 15",
    CountAndRoom: "exports: 3 with an output that is 18",
    Range: "exports refused as 15 for the load address or the RSDP's",
    LoadByOne: "exports: 15 alone, for a load address that passes 2^64 by one",
    RsdpByOne: "exports: 15 alone, for an RSDP address that passes 2^64 by one",
    RsdpMost: "exports: 15 alone, for an RSDP address of 2^64 - 1",
    LoadAndRsdp: "exports: 15 for both addresses",
    RangeAndRoom: "exports: 15 with an output that is 18",
    RangeOfTrueSize: "exports: 15 for a payload that passes 2^64 after its first 65,536 bytes",
    Room: "exports refused as 18 for their output",
    RoomByteShort: "exports: 18 for an output one byte short",
    RoomNone: "exports: 18 for an output of no bytes",
    RoomBelowHead: "exports: 18 for an output of 15 bytes",
    RoomOfHead: "exports: 18 for an output of 16 bytes",
    RoomPastTheLimit: "exports: 18 for 65,537 bytes in an output of as many or more",
    RoomFarPast: "exports: 18 for a payload above 65,536 bytes in an output of 70,000",
}

/// What an accepted context has, by its headers.
#[derive(Default)]
struct Found<'a> {
    platform: &'a [u8],
    entries: Option<&'a [u8]>,
    modules: Vec<&'a [u8]>,
    /// What the command line has after its header.
    line: Option<&'a [u8]>,
    /// The types, in order.
    types: Vec<u32>,
}

impl<'a> Found<'a> {
    fn of(buf: &'a [u8]) -> Found<'a> {
        let mut found = Found::default();
        let mut start = HEAD_SIZE;
        for _ in 0..u32_at(buf, 4) {
            let [kind, size] = [0, 4].map(|at| u32_at(buf, start + at));
            let attribute = &buf[start..][..size as usize];
            let body = &attribute[HEADER_SIZE..];
            match kind {
                PLATFORM => found.platform = attribute,
                MAP => found.entries = Some(body),
                MODULE => found.modules.push(attribute),
                COMMAND_LINE => found.line = Some(body),
                _ => {}
            }
            found.types.push(kind);
            start += attribute.len();
        }
        found
    }

    fn rsdp(&self) -> u64 {
        u64_at(self.platform, 48)
    }

    fn agent(&self) -> &'a [u8] {
        &self.platform[16..48]
    }

    /// All but SELF and the end.
    fn besides(&self) -> usize {
        let ranges = self.entries.map_or(0, |entries| entries.len() / ENTRY_SIZE);
        let has_rsdp = usize::from(self.rsdp() != 0);
        ranges + self.modules.len() + usize::from(self.line.is_some()) + has_rsdp
    }

    /// Each name has its zero, and a zero for the meta after it.
    fn size(&self) -> usize {
        let closed = |field: &[u8]| text(field).len() + 1;
        let files = self.modules.iter().map(|module| closed(name(module)) + 1);
        let line = self.line.map_or(0, closed);
        16 + 32 * (2 + self.besides()) + closed(self.agent()) + files.sum::<usize>() + line
    }

    /// Where the first attribute of a type stands.
    fn place(&self, kind: u32) -> Option<usize> {
        self.types.iter().position(|found| *found == kind)
    }
}

fn name(module: &[u8]) -> &[u8] {
    &module[16..80]
}

/// The text in a field, up to its zero.
fn text(field: &[u8]) -> &[u8] {
    field.split(|&byte| byte == 0).next().unwrap_or_default()
}

fn has_bytes_after(field: &[u8]) -> bool {
    field[text(field).len()..].iter().any(|&byte| byte != 0)
}

/// What refuses the export of an accepted context, each asked by itself.
struct Faults {
    count: usize,
    size: usize,
    /// What the load address and the size add up to, and the RSDP's address and 20.
    load_end: u128,
    rsdp_end: u128,
    output: usize,
}

const TOP: u128 = 1 << 64;

impl Faults {
    fn of(found: &Found, load: u64, output: usize) -> Faults {
        let (size, rsdp) = (found.size(), u128::from(found.rsdp()));
        Faults {
            count: 2 + found.besides(),
            size,
            load_end: u128::from(load) + size as u128,
            rsdp_end: if rsdp == 0 { 0 } else { rsdp + 20 },
            output,
        }
    }

    fn too_many(&self) -> bool {
        self.count > 1_024
    }

    fn passes(&self) -> bool {
        self.load_end > TOP || self.rsdp_end > TOP
    }

    fn too_short(&self) -> bool {
        self.size > self.output || self.size > ROOM_LIMIT
    }

    /// Number and value.
    fn answer(&self) -> (u64, u64) {
        match (self.too_many(), self.passes(), self.too_short()) {
            (true, _, _) => (3, 0),
            (_, true, _) => (15, 0),
            (_, _, true) => (18, 0),
            _ => (0, self.size as u64),
        }
    }
}

pub(super) fn count(shapes: &mut Shapes, made: &Made) {
    let (load, output) = (made.asked.numbers[0], made.given());
    if reading::read(made.before, COUNT_LEAST).is_err() {
        return by_reader(shapes, made, load);
    }
    let found = Found::of(made.before);
    let faults = Faults::of(&found, load, output.len());
    if faults.answer() != (made.number(), made.value()) || !leaves_the_rest(made) {
        return shapes.impossible();
    }
    match made.number() {
        0 => exported(shapes, made, &found, &faults),
        3 => too_many(shapes, &faults),
        15 => past_the_top(shapes, &faults),
        _ => too_short(shapes, &faults),
    }
}

/// Bytes past the payload stay, and all of them in a refusal.
fn leaves_the_rest(made: &Made) -> bool {
    let (before, after) = (made.given(), &made.answer.strings[0][..]);
    let written = match made.number() {
        0 => made.value() as usize,
        _ => 0,
    };
    before.len() == after.len() && before[written..] == after[written..]
}

// ---- Refused ----

fn by_reader(shapes: &mut Shapes, made: &Made, load: u64) {
    if !leaves_the_rest(made) {
        return shapes.impossible();
    }
    shapes.met(Shape::ByReader);
    shapes.met_if(made.number() == 3, Shape::ByReaderCount);
    shapes.met_if(made.number() == 15, Shape::ByReaderRange);
    // No payload is shorter than 81 bytes.
    let passes = u128::from(load) + 81 > TOP;
    shapes.met_if(passes, Shape::ByReaderAndLoad);
    shapes.met_if(made.given().len() < 16, Shape::ByReaderAndOutput);
}

fn too_many(shapes: &mut Shapes, faults: &Faults) {
    shapes.met(Shape::Count);
    let (passes, too_short) = (faults.passes(), faults.too_short());
    let alone = !passes && !too_short;
    shapes.met_if(alone && faults.count == 1_025, Shape::CountOneMore);
    shapes.met_if(passes, Shape::CountAndRange);
    shapes.met_if(too_short, Shape::CountAndRoom);
}

fn past_the_top(shapes: &mut Shapes, faults: &Faults) {
    let (load, rsdp) = (faults.load_end, faults.rsdp_end);
    shapes.met(Shape::Range);
    shapes.met_if(faults.too_short(), Shape::RangeAndRoom);
    shapes.met_if(load > TOP && rsdp > TOP, Shape::LoadAndRsdp);
    if !faults.too_short() {
        shapes.met_if(load == TOP + 1 && rsdp <= TOP, Shape::LoadByOne);
        shapes.met_if(rsdp == TOP + 1 && load <= TOP, Shape::RsdpByOne);
        shapes.met_if(rsdp == TOP + 19 && load <= TOP, Shape::RsdpMost);
    }
    let excess = faults.size.saturating_sub(ROOM_LIMIT) as u128;
    let hidden = load > TOP && load - excess <= TOP && rsdp <= TOP;
    shapes.met_if(hidden, Shape::RangeOfTrueSize);
}

fn too_short(shapes: &mut Shapes, faults: &Faults) {
    let (size, output) = (faults.size, faults.output);
    shapes.met(Shape::Room);
    shapes.met_if(size == output + 1, Shape::RoomByteShort);
    shapes.met_if(output == 0, Shape::RoomNone);
    shapes.met_if(output == 15, Shape::RoomBelowHead);
    shapes.met_if(output == 16, Shape::RoomOfHead);
    // An output that is long enough, but for the room.
    let one_more = size == ROOM_LIMIT + 1;
    shapes.met_if(one_more && output >= size, Shape::RoomPastTheLimit);
    shapes.met_if(size <= 70_000 && output == 70_000, Shape::RoomFarPast);
}

// ---- Exported ----

fn exported(shapes: &mut Shapes, made: &Made, found: &Found, faults: &Faults) {
    shapes.met(Shape::Exported);
    shapes.met_if(made.kept == Some(true), Shape::KeptChanged);
    shapes.met_if(faults.size == 81, Shape::Least);
    shapes.met_if(faults.count == 1_024, Shape::MostRecords);
    let past_the_room = made.before.len() > ROOM_LIMIT;
    shapes.met_if(past_the_room, Shape::BufferPastTheRoom);
    shapes.met_if(made.before[..2] != [1, 0], Shape::OtherVersion);
    addresses(shapes, made.asked.numbers[0], found, faults);
    output(shapes, faults);
    order(shapes, found);
    platform(shapes, found);
    let entries = found.entries.unwrap_or_default().chunks_exact(ENTRY_SIZE);
    entries.for_each(|entry| range(shapes, entry));
    found.modules.iter().for_each(|module| file(shapes, module));
    line(shapes, found.line);
}

fn addresses(shapes: &mut Shapes, load: u64, found: &Found, faults: &Faults) {
    shapes.met_if(load == 0, Shape::LoadNone);
    shapes.met_if(!load.is_multiple_of(PAGE), Shape::LoadOdd);
    shapes.met_if(faults.load_end == TOP, Shape::LoadAtTheTop);
    shapes.met(match found.rsdp() {
        0 => Shape::NoRsdp,
        _ => Shape::Rsdp,
    });
    shapes.met_if(faults.rsdp_end == TOP, Shape::RsdpAtTheTop);
}

fn output(shapes: &mut Shapes, faults: &Faults) {
    let (size, output) = (faults.size, faults.output);
    shapes.met(match output == size {
        true => Shape::OutputExact,
        false => Shape::OutputLonger,
    });
    shapes.met_if(output > ROOM_LIMIT, Shape::OutputPastTheRoom);
    // With the buffer kept a frame has its head, a number and two lengths besides.
    let fills_a_frame = output == FRAME_LIMIT - HEAD_LENGTH - 16;
    shapes.met_if(fills_a_frame, Shape::OutputOfFrame);
    if size == ROOM_LIMIT {
        shapes.met(match output == size {
            true => Shape::WholeRoom,
            false => Shape::WholeRoomOfMore,
        });
    }
}

/// What there is, in which order, and what is left behind.
fn order(shapes: &mut Shapes, found: &Found) {
    let [map, module, line] = [MAP, MODULE, COMMAND_LINE].map(|kind| found.place(kind));
    shapes.met_if(map.is_none(), Shape::NoMap);
    let is_empty = found.entries.is_some_and(<[u8]>::is_empty);
    shapes.met_if(is_empty, Shape::EmptyMap);
    match (module, map) {
        (Some(module), Some(map)) => shapes.met(match module < map {
            true => Shape::ModulesFirst,
            false => Shape::ModulesAfter,
        }),
        (Some(_), None) => shapes.met(Shape::NoMapModules),
        _ => {}
    }
    let before = |other: Option<usize>| other.is_some_and(|other| line < Some(other));
    let line_first = line.is_some() && before(map) && before(module);
    shapes.met_if(line_first, Shape::LineFirst);
    shapes.met_if(found.modules.len() > 1, Shape::FilesSeveral);
    let framebuffer = found.types.contains(&FRAMEBUFFER);
    shapes.met_if(framebuffer, Shape::FramebufferLeft);
    let other = found.types.iter().any(|kind| *kind > FRAMEBUFFER);
    shapes.met_if(other, Shape::OtherLeft);
}

fn platform(shapes: &mut Shapes, found: &Found) {
    let platform = found.platform;
    shapes.met_if(u32_at(platform, 8) == 1, Shape::Bios);
    shapes.met_if(platform.len() == 56, Shape::PlatformShort);
    let has_tree = platform.len() >= 80 && u64_at(platform, 72) != 0;
    shapes.met_if(has_tree, Shape::TreeLeft);
    let agent = found.agent();
    match text(agent).len() {
        0 => shapes.met(Shape::AgentEmpty),
        31 => shapes.met(Shape::AgentLongest),
        _ => {}
    }
    shapes.met_if(has_bytes_after(agent), Shape::AgentBytesAfter);
}

fn range(shapes: &mut Shapes, entry: &[u8]) {
    let (address, size, kind) = (u64_at(entry, 0), u64_at(entry, 8), u64_at(entry, 16));
    let low = kind & 0xFFFF_FFFF;
    shapes.met(match kind {
        1 => Shape::RangeFree,
        2..=4 => Shape::RangeFirmware,
        0xFFFF_0001 => Shape::RangeLoader,
        0xFFFF_0002 => Shape::RangeModule,
        0xFFFF_0003 => Shape::RangeStack,
        0xFFFF_0004 => Shape::RangeKernel,
        _ if matches!(low, 1 | 0xFFFF_0001 | 0xFFFF_0003 | 0xFFFF_0004) => Shape::RangeWide,
        _ => Shape::RangeOther,
    });
    shapes.met_if(size == 0, Shape::RangeEmpty);
    let end = u128::from(address) + u128::from(size);
    shapes.met_if(end == TOP, Shape::RangeAtTheTop);
}

fn file(shapes: &mut Shapes, module: &[u8]) {
    let name = name(module);
    match text(name).len() {
        0 => shapes.met(Shape::FileNameEmpty),
        63 => shapes.met(Shape::FileNameLongest),
        _ => {}
    }
    shapes.met_if(has_bytes_after(name), Shape::FileNameBytesAfter);
    let size = u64_at(module, 88);
    shapes.met_if(!size.is_multiple_of(PAGE), Shape::FileOfPart);
}

fn line(shapes: &mut Shapes, field: Option<&[u8]>) {
    let Some(field) = field else {
        return shapes.met(Shape::NoLine);
    };
    shapes.met(match text(field) {
        [] => Shape::LineEmpty,
        _ => Shape::Line,
    });
    shapes.met_if(has_bytes_after(field), Shape::LineBytesAfter);
}
