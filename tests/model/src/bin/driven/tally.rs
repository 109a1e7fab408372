//! What the published calls can answer, and the shapes that have to be met.

pub mod exports;
mod lines;
pub mod payloads;
mod several;
pub mod writings;

use ultra_model::driving::table::*;
use ultra_model::driving::Answer;
use ultra_model::format::{self, MODULE_NAME_WIDTH, NAME_WIDTH, PATH_WIDTH};
use ultra_model::tally::{
    adding, asking, joined, maps, modules, set, Row, Tally, BEGINNING, COPYING, NONE, READING,
    STEPPING,
};

use crate::spelling::Asked;

/// The calls from 1 on. A platform can have an absent member here, and a GUID of a record
/// always has 16 bytes.
pub const ROWS: &[Row; LAST as usize] = &[
    asking("read", READING),
    asking("Cursor::first", NONE),
    asking("Cursor::step", STEPPING),
    asking("attribute", READING),
    asking("attribute_start", READING),
    asking("attribute_part", NONE),
    asking("copy_map", COPYING),
    asking("copy_map_bytes", COPYING),
    asking("command_line", NONE),
    asking("command_line_part", NONE),
    asking("module_holding", READING),
    asking("begin", BEGINNING),
    adding("add_platform", &[12, 13, 14]),
    adding("add_kernel", &[13, 14, 15]),
    adding("add_map", &[10, 12, 13, 15, 16]),
    adding("add_module", &[11, 13, 14, 15]),
    adding("add_command_line", &[10, 14]),
    adding("add_framebuffer", &[10, 13, 15]),
    adding("members::add_platform", &[12, 13, 14]),
    adding("members::add_kernel", &[12, 13, 14, 15]),
    adding("members::add_map", &[10, 12, 13, 15, 16]),
    adding("members::add_module", &[11, 13, 14, 15]),
    asking("list", set(&[0, 18])),
    asking("listing_length", NONE),
    adding("add_modules", &[11, 13, 14, 15]),
    asking("handover::read", PAYLOAD),
    asking("agent", PAYLOAD),
    asking("agent_name", NONE),
    asking("record_at", PAYLOAD),
    asking("record_name", NONE),
    asking("record_meta", NONE),
    asking("handover::write", set(&[0, 3, 15, 18, 22, 23])),
    asking("export", EXPORTING),
];

/// What reading a payload gives.
const PAYLOAD: u32 = set(&[0, 1, 3, 15, 20, 21, 22, 23]);
/// 3 and 15 are reading's too; which of the two gave them, the shapes tell.
const EXPORTING: u32 = READING | set(&[3, 15, 18]);

ultra_model::shapes! {
    BufferGiven: "calls lent the bytes given",
    BufferKept: "calls lent the buffer kept",
    KeptChanged: "calls lent the buffer kept, which a call before had changed",
    BufferEmpty: "buffers of no bytes",
    BufferPastTheRoom: "buffers longer than 65,536",
    BufferLongest: "buffers of 131,072 bytes",
    NumberWide: "numbers wider than their member",
    ArrayFull: "texts of a record without a zero in their array",
    ArrayJustFits: "texts of a record with one zero in their array",
    ArrayAfterZero: "texts of a record with other bytes after a zero",
    ArrayShort: "strings shorter than their array",
    ArrayLong: "strings longer than their array",
    GuidOther: "GUIDs of a record given in other than 16 bytes",
    HigherHalfAbsent: "records without a higher half base",
    DepthAbsent: "records without a depth",
    DtbAbsent: "records without a dtb",
    SmbiosAbsent: "records without an smbios",
    AbsentWithNumber: "absent members with a number other than 0",
    Incomplete: "platforms that are not complete",
    MapBytesLeft: "maps of numbers with bytes left over",
    MapLongest: "maps of 9,000 numbers",
    OutputBytesLeft: "outputs of numbers with bytes left over",
    OutputLongest: "outputs of 9,000 numbers",
    MapOneShort: "outputs one number short of a map",
    MapByteShort: "outputs one byte short of a map",
    MapExact: "outputs of just a map",
    MapLonger: "outputs longer than a map",
    EmptyMapCopied: "empty maps copied",
    ListingOneShort: "outputs one byte short of a listing",
    ListingExact: "outputs of just a listing",
    ListingLonger: "outputs longer than a listing",
    ListingOfContext: "listings of a context",
    ListingOfRefusal: "listings of a refusal",
    StepToAttribute: "steps to an attribute",
    StepToTheEnd: "steps to the end",
    IndexPastTheCount: "attributes asked for at or past the count",
    StartPastTheCount: "starts asked for at or past the count",
    PlatformRecord: "platforms handed back",
    KernelRecord: "kernels handed back",
    MapRecord: "maps handed back, by their place",
    ModuleRecord: "modules handed back",
    LineRecord: "command lines handed back, by their place",
    FramebufferRecord: "framebuffers handed back",
    OtherRecord: "attributes of a type from 7 up handed back",
    NonePresent: "platforms handed back without any late member",
    BasePresent: "platforms handed back with a higher half base alone",
    DepthPresent: "platforms handed back with a depth as their last member",
    DtbPresent: "platforms handed back with a dtb as their last member",
    AllPresent: "platforms handed back with all members",
    TextJustFits: "texts handed back with one zero in their array",
    TextAfterZero: "texts handed back without the bytes after their zero",
    MapPart: "parts that are a map's entries",
    EmptyMapPart: "parts that are a map of no entries",
    LinePart: "parts that are a command line's text",
    EmptyLinePart: "parts that are an empty command line",
    NoPart: "parts of attributes without one",
    PartOfRefused: "parts of refused buffers, and past the count",
    Line: "command lines as their text",
    EmptyLine: "empty command lines",
    NoLine: "no command line",
    PartOnce: "parts that occur once in their buffer",
    ModuleFound: "addresses held by a module",
    NoModule: "addresses held by none",
    Rebuilt: "contexts built again from their reading",
    NoModulesToAccepted: "lists of no modules to a buffer that adding accepts",
    NoModulesToFull: "lists of no modules to 1,024 attributes",
    NoModulesToRefused: "lists of no modules to a buffer that adding refuses",
    NoModulesToShort: "lists of no modules to 1 to 7 bytes",
    NoModulesToNoBytes: "lists of no modules to no bytes",
    ModuleAdded: "lists of one module, added",
    ModulesAdded: "lists of several modules, all added",
    MostModulesAdded: "lists of 16 modules, all added",
    ModulesJustFit: "lists of several modules that end where the room does",
    ModulesUpToTheLimit: "lists that end at 65,536 in a longer buffer",
    ModulesToForeign: "lists added to a context of another version than 1.0",
    ModulesKeptChanged: "lists to the buffer kept, which a call before had changed",
    ModulesBytesLeft: "lists with bytes left over",
    ModulesNumberWide: "lists with a type wider than 32 bits",
    BufferPlace: "lists refused as 9 by reading",
    BufferSplit: "lists refused as 11 by reading",
    BufferValue: "lists refused as 13 by reading",
    BufferText: "lists refused as 14 by reading",
    BufferRange: "lists refused as 15 by reading",
    BufferOther: "lists refused by reading as no module is",
    FirstPlace: "lists refused as 9 for their first module",
    FirstSplit: "lists refused as 11 for their first module",
    FirstValue: "lists refused as 13 for their first module",
    FirstText: "lists refused as 14 for their first module",
    FirstRange: "lists refused as 15 for their first module",
    FirstFull: "lists refused as 17 for their first module",
    FirstRoom: "lists refused as 18 for their first module",
    LaterValue: "lists refused as 13 after modules were added",
    LaterText: "lists refused as 14 after modules were added",
    LaterRange: "lists refused as 15 after modules were added",
    LaterFull: "lists refused as 17 after modules were added",
    LaterRoom: "lists refused as 18 after modules were added",
    FirstBad: "lists of several modules whose first is bad",
    BetweenBad: "lists of several modules with a bad one between the first and the last",
    LastBad: "lists of several modules of which only the last is bad",
    ModuleKind: "lists refused for a module's type alone",
    ModuleAddress: "lists refused for a module's address alone",
    ModuleNameOpen: "lists refused for a name that has no zero",
    ModuleNameAfterZero: "lists refused for a name with bytes after a zero",
    ModuleNameHigh: "lists refused for a name with a byte above 127",
    ModulesByteShort: "lists that lack one byte of room",
    ModulesPastTheLimit: "lists that would pass 65,536 in a longer buffer",
    OneByOne: "lists beside the same modules added one by one",
    UnknownCall: "malformed: a call that is not in the table",
    OtherNumbers: "malformed: a number more or less",
    OtherStrings: "malformed: a string more or less",
    RestTooLong: "malformed: bytes after the last string",
    RestTooShort: "malformed: bytes missing",
    StringPastTheEnd: "malformed: a string that is longer than what follows",
    CountsThatWrap: "malformed: counts that are right modulo 2^32",
    BufferTooLong: "malformed: a buffer of more than 131,072 bytes",
    MapTooLong: "malformed: a map or output of more than 9,000 numbers",
    TooManyModules: "malformed: more than 16 modules",
    TooManyParts: "malformed: parts of more than 9,000 numbers",
    NoBoard: "malformed: a command line asked for without a board's text",
}

/// A shape of one of these files, by its place among the names of all.
pub trait Counted: Copy {
    fn place(self) -> usize;
}

impl Counted for Shape {
    fn place(self) -> usize {
        self as usize
    }
}

impl Counted for payloads::Shape {
    fn place(self) -> usize {
        SHAPES.len() + self as usize
    }
}

impl Counted for writings::Shape {
    fn place(self) -> usize {
        SHAPES.len() + payloads::SHAPES.len() + self as usize
    }
}

impl Counted for modules::Shape {
    fn place(self) -> usize {
        SHAPES.len() + payloads::SHAPES.len() + writings::SHAPES.len() + self as usize
    }
}

impl Counted for lines::Shape {
    fn place(self) -> usize {
        let before = [SHAPES, payloads::SHAPES, writings::SHAPES, modules::SHAPES];
        before.map(<[_]>::len).iter().sum::<usize>() + self as usize
    }
}

impl Counted for exports::Shape {
    fn place(self) -> usize {
        ALL.len() - maps::SHAPES.len() - exports::SHAPES.len() + self as usize
    }
}

/// A shape of a map, by its place among the names of those.
#[derive(Clone, Copy)]
struct OfMap(usize);

impl Counted for OfMap {
    fn place(self) -> usize {
        ALL.len() - maps::SHAPES.len() + self.0
    }
}

/// The names of all shapes.
pub const ALL: &[&str] = &joined::<COUNT>(FILES);

const FILES: &[&[&str]] = &[
    SHAPES,
    payloads::SHAPES,
    writings::SHAPES,
    modules::SHAPES,
    lines::SHAPES,
    exports::SHAPES,
    maps::SHAPES,
];
const COUNT: usize = SHAPES.len()
    + payloads::SHAPES.len()
    + writings::SHAPES.len()
    + modules::SHAPES.len()
    + lines::SHAPES.len()
    + exports::SHAPES.len()
    + maps::SHAPES.len();

/// A call that both sides made.
pub struct Made<'a> {
    pub asked: &'a Asked,
    pub answer: &'a Answer,
    /// The buffer before the call.
    pub before: &'a [u8],
    /// Where the buffer was kept: whether a call had changed it since it was given.
    pub kept: Option<bool>,
    /// Whether it is an add, and its buffer was accepted.
    pub accepted: bool,
}

impl Made<'_> {
    fn number(&self) -> u64 {
        self.answer.numbers[0]
    }

    fn value(&self) -> u64 {
        self.answer.numbers[1]
    }

    fn given(&self) -> &[u8] {
        self.asked.strings.first().map_or(&[], Vec::as_slice)
    }
}

/// Counts shapes.
struct Shapes<'a>(&'a mut Tally);

impl Shapes<'_> {
    fn met(&mut self, shape: impl Counted) {
        self.0.shape(shape.place());
    }

    fn impossible(&mut self) {
        self.0.impossible();
    }

    fn met_if(&mut self, condition: bool, shape: impl Counted) {
        if condition {
            self.met(shape);
        }
    }
}

pub fn count(tally: &mut Tally, made: &Made) {
    let call = made.asked.call;
    tally.answer(call as usize - 1, made.number(), made.accepted);
    let shapes = &mut Shapes(tally);
    if call != FIRST {
        buffer(shapes, made);
    }
    match call {
        READ => {
            let start = made.value() as usize;
            of_map(shapes, maps::read(made.before, made.number(), start));
        }
        STEP => step(shapes, made),
        ATTRIBUTE => attribute(shapes, made),
        // A count above 1,024 is 3 at 0.
        ATTRIBUTE_START => shapes.met_if(
            (made.number(), made.value() > 0) == (3, true),
            Shape::StartPastTheCount,
        ),
        ATTRIBUTE_PART => part(shapes, made),
        COPY_MAP | COPY_MAP_BYTES => copied(shapes, made),
        COMMAND_LINE => {
            line(shapes, made);
            lines::count(shapes, made);
        }
        MODULE_HOLDING if made.number() == 0 => holding(shapes, made),
        ADD_PLATFORM | MEMBERS_ADD_PLATFORM => platform(shapes, made),
        ADD_KERNEL => kernel(shapes, made),
        ADD_MODULE => array(shapes, made.given(), MODULE_NAME_WIDTH),
        ADD_MAP => {
            shapes.met_if(!made.given().len().is_multiple_of(8), Shape::MapBytesLeft);
            shapes.met_if(made.given().len() / 8 == NUMBERS_LIMIT, Shape::MapLongest);
            // Maps given as bytes are counted toward C.
            if made.accepted {
                of_map(shapes, maps::given(made.given(), made.number()));
            }
        }
        LIST => list(shapes, made),
        ADD_MODULES => several::count(shapes, made),
        HANDOVER_WRITE => writings::count(shapes, made),
        EXPORT => exports::count(shapes, made),
        call if is_handover(call) => payloads::count(shapes, made),
        _ => {}
    }
    shapes.met_if(has_wide_number(made.asked), Shape::NumberWide);
}

fn of_map(shapes: &mut Shapes, met: Vec<usize>) {
    met.into_iter().for_each(|place| shapes.met(OfMap(place)));
}

fn holding(shapes: &mut Shapes, made: &Made) {
    shapes.met(match made.value() {
        0 => Shape::NoModule,
        _ => Shape::ModuleFound,
    });
    match modules::asked(made.before, made.asked.numbers[0], made.value()) {
        Some(met) => met.into_iter().for_each(|shape| shapes.met(shape)),
        None => shapes.impossible(),
    }
}

fn buffer(shapes: &mut Shapes, made: &Made) {
    shapes.met(match made.kept {
        None => Shape::BufferGiven,
        Some(_) => Shape::BufferKept,
    });
    shapes.met_if(made.kept == Some(true), Shape::KeptChanged);
    let length = made.before.len();
    shapes.met_if(length == 0, Shape::BufferEmpty);
    shapes.met_if(length > format::ROOM_LIMIT, Shape::BufferPastTheRoom);
    shapes.met_if(length == BUFFER_LIMIT, Shape::BufferLongest);
}

/// Whether a number has bits past those of its member.
fn has_wide_number(asked: &Asked) -> bool {
    let widths: &[u32] = match asked.call {
        STEP => &[32, 32],
        ADD_PLATFORM | MEMBERS_ADD_PLATFORM => &[32, 16, 16, 64, 64, 64, 8, 64, 64],
        ADD_KERNEL | MEMBERS_ADD_KERNEL => &[64, 64, 64, 64, 32, 32],
        ADD_MODULE | MEMBERS_ADD_MODULE => &[32, 64, 64],
        ADD_FRAMEBUFFER => &[32, 32, 32, 16, 16, 64],
        _ => &[],
    };
    let mut members = asked.numbers.iter().zip(widths);
    members.any(|(number, width)| number.checked_shr(*width).unwrap_or(0) != 0)
}

fn step(shapes: &mut Shapes, made: &Made) {
    match made.answer.numbers[..3] {
        [0, _, 1] => shapes.met(Shape::StepToAttribute),
        [0, _, _] => shapes.met(Shape::StepToTheEnd),
        _ => {}
    }
}

/// The text that becomes an array of a record.
fn array(shapes: &mut Shapes, string: &[u8], width: usize) {
    shapes.met_if(string.len() < width, Shape::ArrayShort);
    shapes.met_if(string.len() > width, Shape::ArrayLong);
    let array = &string[..string.len().min(width)];
    let zero = array.iter().position(|&byte| byte == 0);
    let length = zero.unwrap_or(array.len());
    shapes.met_if(length == width, Shape::ArrayFull);
    let other_after = array[length..].iter().any(|&byte| byte != 0);
    shapes.met_if(other_after, Shape::ArrayAfterZero);
    shapes.met_if(length == width - 1 && !other_after, Shape::ArrayJustFits);
}

fn platform(shapes: &mut Shapes, made: &Made) {
    let numbers = &made.asked.numbers;
    if made.asked.call == MEMBERS_ADD_PLATFORM {
        return shapes.met_if(numbers[4] == 0, Shape::Incomplete);
    }
    array(shapes, made.given(), NAME_WIDTH);
    let absent = [
        Shape::HigherHalfAbsent,
        Shape::DepthAbsent,
        Shape::DtbAbsent,
        Shape::SmbiosAbsent,
    ];
    for (bit, shape) in absent.into_iter().enumerate() {
        if numbers[4] >> bit & 1 == 0 {
            shapes.met(shape);
            shapes.met_if(numbers[5 + bit] != 0, Shape::AbsentWithNumber);
        }
    }
}

fn kernel(shapes: &mut Shapes, made: &Made) {
    let strings = &made.asked.strings;
    shapes.met_if(
        strings[..2].iter().any(|guid| guid.len() != 16),
        Shape::GuidOther,
    );
    array(shapes, &strings[2], PATH_WIDTH);
}

/// The map that an accepted buffer has is as long as 24 times the entries copied, or is seen by
/// the number 18.
fn copied(shapes: &mut Shapes, made: &Made) {
    let length = made.given().len();
    if made.asked.call == COPY_MAP {
        shapes.met_if(!length.is_multiple_of(8), Shape::OutputBytesLeft);
        shapes.met_if(length / 8 == NUMBERS_LIMIT, Shape::OutputLongest);
    }
    let whole = length / 8 * 8;
    match made.number() {
        0 => {
            let needed = 24 * made.value() as usize;
            shapes.met_if(needed == 0, Shape::EmptyMapCopied);
            shapes.met_if(needed > 0 && whole == needed, Shape::MapExact);
            shapes.met_if(needed > 0 && whole > needed, Shape::MapLonger);
        }
        18 => {
            let needed = (whole + 8).is_multiple_of(24);
            shapes.met_if(needed && length == whole, Shape::MapOneShort);
            shapes.met_if((length + 1).is_multiple_of(24), Shape::MapByteShort);
        }
        _ => {}
    }
}

fn list(shapes: &mut Shapes, made: &Made) {
    let length = made.given().len();
    match made.number() {
        0 => {
            let used = made.value() as usize;
            shapes.met(match length == used {
                true => Shape::ListingExact,
                false => Shape::ListingLonger,
            });
            shapes.met(match made.answer.strings[0].starts_with(b"refused=") {
                true => Shape::ListingOfRefusal,
                false => Shape::ListingOfContext,
            });
        }
        _ => {
            let needed = ultra_model::listing::listing(made.before).len();
            shapes.met_if(length + 1 == needed, Shape::ListingOneShort);
        }
    }
}

fn attribute(shapes: &mut Shapes, made: &Made) {
    let numbers = &made.answer.numbers;
    match (made.number(), made.value()) {
        (0, _) => {}
        (3, 1..) => return shapes.met(Shape::IndexPastTheCount),
        _ => return,
    }
    shapes.met(match numbers[2] {
        1 => Shape::PlatformRecord,
        2 => Shape::KernelRecord,
        3 => Shape::MapRecord,
        4 => Shape::ModuleRecord,
        5 => Shape::LineRecord,
        6 => Shape::FramebufferRecord,
        _ => Shape::OtherRecord,
    });
    if numbers[2] == 1 {
        shapes.met(match numbers[11] {
            0b0000 => Shape::NonePresent,
            0b0001 => Shape::BasePresent,
            0b0011 => Shape::DepthPresent,
            0b0111 => Shape::DtbPresent,
            _ => Shape::AllPresent,
        });
    }
    // The texts by their place among the strings, and in the attribute.
    for (kind, place, at) in [(1, 0, 16), (2, 3, 80), (4, 4, 16)] {
        if numbers[2] == kind {
            let field = &made.before[numbers[3] as usize + at..];
            text(shapes, &made.answer.strings[place], field);
        }
    }
}

/// A text handed back, and the buffer from its field on.
fn text(shapes: &mut Shapes, array: &[u8], field: &[u8]) {
    let zero = array.iter().position(|&byte| byte == 0);
    shapes.met_if(zero == Some(array.len() - 1), Shape::TextJustFits);
    shapes.met_if(!field.starts_with(array), Shape::TextAfterZero);
}

/// Counts a part that is not empty and occurs once in its buffer, so that its bytes show its
/// place.
fn once(shapes: &mut Shapes, made: &Made, shape: impl Counted) {
    let part = &made.answer.strings[0][..];
    if !part.is_empty() {
        let places = made.before.windows(part.len());
        let places = places.filter(|place| *place == part).take(2).count();
        shapes.met_if(places == 1, shape);
    }
}

fn part(shapes: &mut Shapes, made: &Made) {
    let [start, length] = [2, 3].map(|place| made.answer.numbers[place] as usize);
    if start == 0 {
        let read = ultra_model::questions::attribute(made.before, made.asked.numbers[0]);
        return shapes.met(match read.is_ok() {
            true => Shape::NoPart,
            false => Shape::PartOfRefused,
        });
    }
    let kind = format::u32_at(made.before, start - format::HEADER_SIZE);
    shapes.met(match (kind == format::MAP, length) {
        (true, 0) => Shape::EmptyMapPart,
        (true, _) => Shape::MapPart,
        (false, 0) => Shape::EmptyLinePart,
        (false, _) => Shape::LinePart,
    });
    once(shapes, made, Shape::PartOnce);
}

/// What is handed back is a part of the buffer only where there is a line.
fn line(shapes: &mut Shapes, made: &Made) {
    match made.answer.numbers[2..4] {
        [0, _] => shapes.met(Shape::NoLine),
        [_, 0] => shapes.met(Shape::EmptyLine),
        _ => {
            shapes.met(Shape::Line);
            once(shapes, made, Shape::PartOnce);
        }
    }
}

/// What was never met, and whether too few parts and strings show their place.
pub fn gaps(tally: &Tally) -> Vec<String> {
    let mut gaps = tally.gaps();
    let count = |shape: Shape| tally.met(shape.place());
    let parts = [Shape::MapPart, Shape::LinePart, Shape::Line].map(count);
    let parts: u64 = parts.iter().sum();
    let once = count(Shape::PartOnce);
    if once * 10 < parts * 9 {
        gaps.push(format!("of {parts} parts only {once} occur once"));
    }
    gaps.extend(payloads::gap(tally));
    gaps
}
