//! The inputs. They are laid out by the model's builder, and by hand where an attribute is
//! of a type that is never added or a map is refused; never by the library.

use crate::records::{map_of, Add, COMMAND_LINE, FRAMEBUFFER, KERNEL, MODULES, PLATFORM};
use crate::subjects::{add, Model, Subject};

pub const ROOM: usize = 65_536;

/// Where the entries of a map start that follows the head, a platform and a kernel.
const ENTRIES: usize = 8 + 88 + 336 + 8;
/// As many of them as fit.
const MAP_THAT_FILLS: usize = (ROOM - ENTRIES) / 24;

/// A buffer of the whole room, as the structures of C ask: aligned to 8 bytes.
#[derive(Clone)]
#[repr(align(64))]
struct Bytes([u8; ROOM]);

#[derive(Clone)]
pub struct Buffer(Box<Bytes>);

impl Buffer {
    pub fn zeroed() -> Buffer {
        Buffer(Box::new(Bytes([0; ROOM])))
    }

    pub fn bytes(&self) -> &[u8] {
        &self.0 .0
    }

    pub fn bytes_mut(&mut self) -> &mut [u8] {
        &mut self.0 .0
    }
}

pub struct Input {
    pub name: &'static str,
    /// How the tables call it.
    pub title: &'static str,
    pub context: Buffer,
    pub count: u32,
    /// The number that reading refuses it with, or 0.
    pub refusal: u64,
    pub plan: Plan,
}

/// How a context is built: begun, or on from one that stands in the buffer already.
#[derive(Default)]
pub struct Plan {
    pub from: Option<Buffer>,
    pub adds: Vec<Add>,
}

impl Input {
    /// The one that reading has a goal against the walk on.
    pub fn is_usual(&self) -> bool {
        self.name == "usual"
    }

    /// The third input in another order of its types: for reading alone.
    pub fn is_extra(&self) -> bool {
        self.name.starts_with("many-")
    }

    fn built(name: &'static str, title: &'static str, adds: Vec<Add>) -> Input {
        let mut context = Buffer::zeroed();
        begin(&mut context);
        append(&mut context, &adds);
        Input {
            name,
            title,
            count: count_of(&context),
            context,
            refusal: 0,
            plan: Plan { from: None, adds },
        }
    }
}

pub fn all() -> Vec<Input> {
    let ascending: Vec<u32> = (7..=1024).collect();
    let descending: Vec<u32> = ascending.iter().rev().copied().collect();
    let last = MAP_THAT_FILLS - 1;
    vec![
        usual(),
        one_map(),
        many("many", "1,024 types, ascending", &ascending),
        many("many-descending", "1,024 types, descending", &descending),
        many(
            "many-shuffled",
            "1,024 types, shuffled",
            &shuffled(ascending.clone()),
        ),
        refused("13-last", "2,712 ranges, 13 in the last entry", 13, last),
        refused("15-last", "2,712 ranges, 15 in the last entry", 15, last),
        refused("16-last", "2,712 ranges, 16 in the last pair", 16, last),
        refused("13-first", "2,712 ranges, 13 in the first entry", 13, 0),
        refused("15-first", "2,712 ranges, 15 in the first entry", 15, 0),
        refused("16-first", "2,712 ranges, 16 in the first pair", 16, 1),
    ]
}

/// Twelve attributes and 40 ranges.
fn usual() -> Input {
    let mut adds = vec![
        Add::Platform(&PLATFORM),
        Add::Kernel(&KERNEL),
        Add::Map(map_of(40)),
    ];
    adds.extend(MODULES.iter().map(Add::Module));
    adds.push(Add::CommandLine(COMMAND_LINE));
    adds.push(Add::Framebuffer(&FRAMEBUFFER));
    Input::built("usual", "usual: 12 attributes, 40 ranges", adds)
}

fn one_map() -> Input {
    let adds = vec![
        Add::Platform(&PLATFORM),
        Add::Kernel(&KERNEL),
        Add::Map(map_of(MAP_THAT_FILLS)),
    ];
    Input::built("map", "one map of 2,712 ranges", adds)
}

/// The one map, refused for one number of one entry: its type is 0, or its address is so high
/// that the range passes 2^64, or lies below the end of the entry before. It is not built.
fn refused(name: &'static str, title: &'static str, refusal: u64, entry: usize) -> Input {
    let (number, value) = match refusal {
        13 => (2, 0),
        15 => (0, u64::MAX),
        _ => (0, 0),
    };
    let mut input = Input {
        name,
        title,
        refusal,
        plan: Plan::default(),
        ..one_map()
    };
    let at = ENTRIES + 24 * entry + 8 * number;
    input.context.bytes_mut()[at..at + 8].copy_from_slice(&value.to_le_bytes());
    input
}

/// Types 1 to 6 once each, then the 1,018 given, so that every question has an answer.
/// Types from 7 up are never added, so its plan is another: on from a platform, a kernel and
/// the 1,018, by the four adds that can still be made.
fn many(name: &'static str, title: &'static str, types: &[u32]) -> Input {
    let first = [Add::Platform(&PLATFORM), Add::Kernel(&KERNEL)];
    let rest = || {
        vec![
            Add::Map(map_of(40)),
            Add::Module(&MODULES[0]),
            Add::CommandLine(COMMAND_LINE),
            Add::Framebuffer(&FRAMEBUFFER),
        ]
    };
    let mut from = Buffer::zeroed();
    begin(&mut from);
    append(&mut from, &first);

    let mut context = from.clone();
    append(&mut context, &rest());
    append_others(&mut context, types);
    append_others(&mut from, types);
    Input {
        name,
        title,
        count: count_of(&context),
        context,
        refusal: 0,
        plan: Plan {
            from: Some(from),
            adds: rest(),
        },
    }
}

fn begin(context: &mut Buffer) {
    assert_eq!(Model::begin(context.bytes_mut()), 8);
}

fn append(context: &mut Buffer, adds: &[Add]) {
    for one in adds {
        let answer = add::<Model>(context.bytes_mut(), one);
        assert_eq!(answer >> 32, 0, "an input is refused with {answer:#x}");
    }
}

/// Attributes of 8 to 56 bytes, sizes without a pattern; a body is of any bytes.
fn append_others(context: &mut Buffer, types: &[u32]) {
    let mut at = Model::read(context.bytes()) as usize;
    let mut random = Random(0x5DEE_CE66);
    for kind in types {
        let size = 8 * (1 + random.below(7));
        let attribute = &mut context.bytes_mut()[at..at + size];
        attribute.fill(0xA5);
        attribute[..4].copy_from_slice(&kind.to_le_bytes());
        attribute[4..8].copy_from_slice(&(size as u32).to_le_bytes());
        at += size;
    }
    let count = count_of(context) + types.len() as u32;
    context.bytes_mut()[4..8].copy_from_slice(&count.to_le_bytes());
    assert_eq!(Model::read(context.bytes()), at as u64);
}

fn count_of(context: &Buffer) -> u32 {
    u32::from_le_bytes(context.bytes()[4..8].try_into().unwrap())
}

fn shuffled(mut types: Vec<u32>) -> Vec<u32> {
    let mut random = Random(0x2545_F491);
    for last in (1..types.len()).rev() {
        types.swap(last, random.below(last + 1));
    }
    types
}

/// The same numbers in every run.
struct Random(u64);

impl Random {
    fn below(&mut self, limit: usize) -> usize {
        self.0 = self
            .0
            .wrapping_mul(6_364_136_223_846_793_005)
            .wrapping_add(1_442_695_040_888_963_407);
        (self.0 >> 33) as usize % limit
    }
}
