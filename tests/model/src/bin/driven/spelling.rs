//! The published calls that ask what a call of the generator asks, with their arguments.

use ultra_model::driving::table::*;
use ultra_model::format::{MODULE_NAME_WIDTH, NAME_WIDTH, PATH_WIDTH};
use ultra_model::generator::call::Call;
use ultra_model::generator::lines;
use ultra_model::generator::records::{Framebuffer, Kernel, Module, Platform};
use ultra_model::generator::rng::Rng;

/// A call by its number, with the strings after the buffer.
#[derive(Clone, Debug, Default)]
pub struct Asked {
    pub call: u32,
    pub numbers: Vec<u64>,
    pub strings: Vec<Vec<u8>>,
}

impl Asked {
    pub fn new(call: u32, numbers: &[u64], strings: &[&[u8]]) -> Asked {
        Asked {
            call,
            numbers: numbers.to_vec(),
            strings: strings.iter().map(|string| string.to_vec()).collect(),
        }
    }
}

/// One of the forms that the call has, on this buffer. With `faults`, a record sometimes lacks a
/// member, or has bytes after a zero.
pub fn spell(rng: &mut Rng, call: &Call, buf: &[u8], faults: bool) -> Asked {
    match call {
        Call::Read => Asked::new(READ, &[], &[]),
        Call::Step { index, offset } => {
            let numbers = [wide(rng, *index, 32), wide(rng, *offset, 32)];
            Asked::new(STEP, &numbers, &[])
        }
        Call::Begin => Asked::new(BEGIN, &[], &[]),
        Call::AddPlatform(record) => platform(rng, record, faults),
        Call::AddKernel(record) => kernel(rng, record, faults),
        Call::AddMap { entries } => {
            let form = rng.pick(&[ADD_MAP, MEMBERS_ADD_MAP]);
            Asked::new(form, &[], &[&entries.bytes])
        }
        Call::AddModule(record) => module(rng, record, faults),
        Call::AddCommandLine { text } => Asked::new(ADD_COMMAND_LINE, &[], &[&text.bytes]),
        Call::AddFramebuffer(record) => framebuffer(rng, record),
        Call::Attribute { index } => {
            let form = rng.pick(&[ATTRIBUTE, ATTRIBUTE, ATTRIBUTE_START, ATTRIBUTE_PART]);
            Asked::new(form, &[*index], &[])
        }
        Call::CopyMap { out } => {
            // An output of more numbers than a frame may give is one of bytes.
            let form = match out.bytes.len() / 8 > NUMBERS_LIMIT {
                true => COPY_MAP_BYTES,
                false => rng.pick(&[COPY_MAP, COPY_MAP_BYTES]),
            };
            Asked::new(form, &[], &[&out.bytes])
        }
        Call::CommandLine => match rng.chance(50) {
            true => line(rng, buf),
            false => Asked::new(COMMAND_LINE_PART, &[], &[]),
        },
        Call::ModuleHolding { address } => Asked::new(MODULE_HOLDING, &[*address], &[]),
    }
}

/// "A number is taken by its low bits": now and then there are others.
fn wide(rng: &mut Rng, number: impl Into<u64>, width: u32) -> u64 {
    let number = number.into();
    match rng.chance(8) {
        true => number | rng.word() << width,
        false => number,
    }
}

/// The string for an array of a record: the text, with zeros up to the array's end or without;
/// with bytes past its end, which are left out; or with bytes after a zero.
fn for_array(rng: &mut Rng, text: &[u8], width: usize, faults: bool) -> Vec<u8> {
    let mut string = text.to_vec();
    match rng.below(10) {
        0 | 1 => string.resize(width.max(text.len()), 0),
        2 => {
            string.resize(width.max(text.len()), 0);
            let more = 1 + rng.below(20);
            string.extend(rng.bytes(more));
        }
        3 if faults => {
            let zeros = 1 + rng.below(3);
            string.resize(text.len() + zeros, 0);
            string.push(rng.pick(&[1, b'a', 127, 128, 255]));
        }
        _ => {}
    }
    string
}

/// Which members are present, by their bits, of which only four count.
fn present(rng: &mut Rng, faults: bool) -> u64 {
    let members = match rng.below(8) {
        _ if !faults => 0b1111,
        0 => rng.word() & 0b1111,
        1 => 0b1111 ^ 1 << rng.below(4),
        _ => 0b1111,
    };
    wide(rng, members, 4)
}

/// Not 0 where true, also with low bits of 0.
fn complete(rng: &mut Rng, faults: bool) -> u64 {
    match faults && rng.chance(12) {
        true => 0,
        false => rng.pick(&[1, 1, 1, 2, 256, 1 << 32, 1 << 63, u64::MAX]),
    }
}

fn platform(rng: &mut Rng, record: &Platform, faults: bool) -> Asked {
    let members = rng.chance(50);
    let (call, marked, name) = match members {
        true => (
            MEMBERS_ADD_PLATFORM,
            complete(rng, faults),
            record.name.bytes.clone(),
        ),
        false => {
            let name = for_array(rng, &record.name.bytes, NAME_WIDTH, faults);
            (ADD_PLATFORM, present(rng, faults), name)
        }
    };
    let numbers = [
        wide(rng, record.kind, 32),
        wide(rng, record.loader_major, 16),
        wide(rng, record.loader_minor, 16),
        record.rsdp,
        marked,
        record.higher_half_base,
        wide(rng, record.depth, 8),
        record.dtb,
        record.smbios,
    ];
    Asked::new(call, &numbers, &[&name])
}

fn kernel(rng: &mut Rng, record: &Kernel, faults: bool) -> Asked {
    let (call, path) = match rng.chance(50) {
        true => (MEMBERS_ADD_KERNEL, record.path.bytes.clone()),
        false => {
            let path = for_array(rng, &record.path.bytes, PATH_WIDTH, faults);
            (ADD_KERNEL, path)
        }
    };
    let numbers = [
        record.physical_base,
        record.virtual_base,
        record.size,
        record.partition_type,
        wide(rng, record.disk_index, 32),
        wide(rng, record.partition_index, 32),
    ];
    let guids = [&record.disk_guid.bytes, &record.partition_guid.bytes];
    Asked::new(call, &numbers, &[guids[0], guids[1], &path])
}

fn module(rng: &mut Rng, record: &Module, faults: bool) -> Asked {
    let (call, name) = match rng.chance(50) {
        true => (MEMBERS_ADD_MODULE, record.name.bytes.clone()),
        false => {
            let name = for_array(rng, &record.name.bytes, MODULE_NAME_WIDTH, faults);
            (ADD_MODULE, name)
        }
    };
    let numbers = [wide(rng, record.kind, 32), record.address, record.size];
    Asked::new(call, &numbers, &[&name])
}

/// A list of modules in one string. Now and then bytes are left over, which are no module.
pub fn module_list(rng: &mut Rng, list: &[Module]) -> Asked {
    let mut string = Vec::new();
    for record in list {
        string.extend(listed_module(rng, record));
    }
    if rng.chance(10) {
        let any = 1 + rng.below(LISTED_MODULE_SIZE - 1);
        let more = rng.pick(&[1, 8, 24, LISTED_MODULE_SIZE - 1, any]);
        string.extend(rng.bytes(more));
    }
    Asked::new(ADD_MODULES, &[], &[&string])
}

/// The numbers of a module, and its name as an array. Which modules have a fault, the list says.
fn listed_module(rng: &mut Rng, record: &Module) -> Vec<u8> {
    let numbers = [wide(rng, record.kind, 32), record.address, record.size];
    let mut name = for_array(rng, &record.name.bytes, MODULE_NAME_WIDTH, false);
    name.resize(MODULE_NAME_WIDTH, 0);
    let mut bytes = numbers.map(u64::to_le_bytes).concat();
    bytes.extend(name);
    bytes
}

fn framebuffer(rng: &mut Rng, record: &Framebuffer) -> Asked {
    let numbers = [
        wide(rng, record.width, 32),
        wide(rng, record.height, 32),
        wide(rng, record.pitch, 32),
        wide(rng, record.bpp, 16),
        wide(rng, record.format, 16),
        record.address,
    ];
    Asked::new(ADD_FRAMEBUFFER, &numbers, &[])
}

/// The command line of this buffer, with a board's text.
pub fn line(rng: &mut Rng, buf: &[u8]) -> Asked {
    let board = lines::board(rng, buf);
    Asked::new(COMMAND_LINE, &[], &[&board])
}

/// A listing into an output of about its length.
pub fn list(rng: &mut Rng, length: usize) -> Asked {
    let output = match rng.below(8) {
        0..=2 => length,
        3 => length - 1,
        4 => length + 1 + rng.below(40),
        5 => length + 1,
        6 => rng.below(length),
        _ => 0,
    };
    Asked::new(LIST, &[], &[&rng.bytes(output)])
}
