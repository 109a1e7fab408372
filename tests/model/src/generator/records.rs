//! Records to be given to the adds, and to be laid into buffers: good ones, often just
//! within a boundary, and bad ones, often just past it.
//!
//! The bytes of an attribute are laid out here from the paper's table once more, and not
//! with the model, so that the model's own layout is compared too.

use crate::generator::given::Given;
use crate::generator::rng::Rng;

#[derive(Clone, Debug)]
pub struct Platform {
    pub kind: u32,
    pub loader_major: u16,
    pub loader_minor: u16,
    pub name: Given,
    pub rsdp: u64,
    pub higher_half_base: u64,
    pub depth: u8,
    pub dtb: u64,
    pub smbios: u64,
}

#[derive(Clone, Debug)]
pub struct Kernel {
    pub physical_base: u64,
    pub virtual_base: u64,
    pub size: u64,
    pub partition_type: u64,
    pub disk_guid: Given,
    pub partition_guid: Given,
    pub disk_index: u32,
    pub partition_index: u32,
    pub path: Given,
}

#[derive(Clone, Debug)]
pub struct Module {
    pub kind: u32,
    pub name: Given,
    pub address: u64,
    pub size: u64,
}

#[derive(Clone, Debug)]
pub struct Framebuffer {
    pub width: u32,
    pub height: u32,
    pub pitch: u32,
    pub bpp: u16,
    pub format: u16,
    pub address: u64,
}

#[derive(Clone, Debug)]
pub enum Record {
    Platform(Platform),
    Kernel(Kernel),
    Map(Given),
    Module(Module),
    Line(Given),
    Framebuffer(Framebuffer),
    /// A type from 7 up, which no call adds: type and size.
    Other(u32, usize),
}

pub const PAGE: u64 = 4096;

pub fn lend(rng: &mut Rng, bytes: Vec<u8>) -> Given {
    Given {
        bytes,
        shift: rng.below(16),
        null: rng.chance(50),
    }
}

/// Types from 7 up, also such whose low bits are a defined type's.
pub fn other_type(rng: &mut Rng) -> u32 {
    match rng.below(10) {
        0..=5 => 7 + rng.below(3) as u32,
        6 => rng.pick(&[0x100, 0x1_0000, 0x0100_0000]) + rng.below(8) as u32,
        7 => u32::MAX - rng.below(2) as u32,
        8 => 1 << 31 | rng.below(8) as u32,
        _ => (rng.word() as u32).max(7),
    }
}

/// A number that is not 0 in all its bits, though often in its low ones.
fn nonzero(rng: &mut Rng, width: usize) -> u64 {
    match rng.below(4) {
        0 => 1 << rng.below(width),
        1 => u64::MAX >> (64 - width),
        2 => rng.bits(width).max(1),
        _ => 1 + rng.below(4) as u64,
    }
}

/// Bytes 1 to 127.
fn plain_text(rng: &mut Rng, length: usize) -> Vec<u8> {
    let mut text = rng.bytes(length);
    for byte in &mut text {
        *byte = (*byte & 0x7F).max(1);
    }
    if length > 0 && rng.chance(30) {
        let at = rng.below(length);
        text[at] = rng.pick(&[1, 31, 37, 126, 127]);
    }
    text
}

/// The length of a text that has to leave place for a zero in `width` bytes.
fn text_length(rng: &mut Rng, width: usize) -> usize {
    match rng.below(8) {
        0 => 0,
        1 => 1,
        2 => width - 1,
        3 => width - 2,
        4 => rng.below(width),
        _ => rng.below(12).min(width - 1),
    }
}

/// Spoils a text of a field of `width` bytes; a line, which has no field, has width 0.
fn spoil_text(rng: &mut Rng, text: &mut Vec<u8>, width: usize) {
    match rng.below(if width > 0 { 6 } else { 4 }) {
        0 => {
            let at = rng.below(text.len() + 1);
            text.insert(at, 0);
        }
        1 => text.push(0),
        2 | 3 => {
            let byte = rng.pick(&[128, 129, 200, 255]);
            let at = rng.below(text.len() + 1);
            text.insert(at, byte);
        }
        // No place for the closing zero; also lengths whose low bits look right.
        4 => *text = plain_text(rng, width),
        _ => {
            let length = width + rng.pick(&[1, 8, 200, 256 - width]);
            let length = if rng.chance(3) { 65_536 + 5 } else { length };
            *text = plain_text(rng, length);
        }
    }
}

fn path(rng: &mut Rng) -> Vec<u8> {
    let length = text_length(rng, 256).max(1);
    let mut path = rng.bytes(length);
    for byte in &mut path {
        *byte = (*byte).max(1);
    }
    path[0] = b'/';
    path
}

fn spoil_path(rng: &mut Rng, path: &mut Vec<u8>) {
    if path.is_empty() {
        path.push(b'/');
    }
    match rng.below(5) {
        0 => path.clear(),
        1 => path[0] = rng.pick(&[0, b'.', b'0', b'b', 0xAF, 127]),
        2 => {
            let at = 1 + rng.below(path.len());
            path.insert(at, 0);
        }
        3 => path.resize(256, b'k'),
        _ => {
            let length = 256 + rng.pick(&[1, 8, 100]);
            path.resize(if rng.chance(10) { 65_537 } else { length }, 0xFF);
        }
    }
}

/// An address and a size, multiples of `unit` and `size_unit`, with a sum of at most 2^64.
fn range(rng: &mut Rng, unit: u64, size_unit: u64) -> (u64, u64) {
    let address = match rng.below(6) {
        0 => 0,
        1 => u64::MAX / unit * unit,
        _ => rng.bits(64) / unit * unit,
    };
    // The largest size is 2^64 - address, which for address 0 has no 64 bits.
    let most = match address {
        0 => u64::MAX / size_unit * size_unit,
        _ => address.wrapping_neg() / size_unit * size_unit,
    };
    let size = match rng.below(4) {
        0 => most,
        1 => rng.pick(&[0, size_unit]),
        2 => most - (rng.bits(16) * size_unit).min(most),
        _ => rng.bits(64) / size_unit * size_unit,
    };
    (address, size.min(most))
}

/// The same with a sum above 2^64, mostly by a single unit.
fn range_past_top(rng: &mut Rng, unit: u64, size_unit: u64) -> (u64, u64) {
    let address = (rng.bits(64) / unit * unit).max(2 * unit.max(size_unit));
    let least = (address.wrapping_neg() / size_unit + 1) * size_unit;
    let size = match rng.below(4) {
        0 => u64::MAX / size_unit * size_unit,
        1 => least.max(rng.bits(64) / size_unit * size_unit),
        _ => least,
    };
    (address, size)
}

fn misaligned(rng: &mut Rng, value: u64) -> u64 {
    value ^ rng.pick(&[1, 8, 2048, 4095])
}

fn platform(rng: &mut Rng) -> Platform {
    let length = text_length(rng, 32);
    let name = plain_text(rng, length);
    Platform {
        kind: nonzero(rng, 32) as u32,
        loader_major: rng.word() as u16,
        loader_minor: rng.word() as u16,
        name: lend(rng, name),
        rsdp: rng.word(),
        higher_half_base: rng.word(),
        depth: rng.word() as u8,
        dtb: rng.word(),
        smbios: rng.word(),
    }
}

fn spoil_platform(rng: &mut Rng, record: &mut Platform) {
    match rng.below(3) {
        0 => record.kind = 0,
        _ => spoil_text(rng, &mut record.name.bytes, 32),
    }
}

fn kernel(rng: &mut Rng) -> Kernel {
    // One size, and two bases that suit it.
    let (physical_base, size) = range(rng, PAGE, PAGE);
    let top = size.wrapping_neg();
    let virtual_base = match rng.below(4) {
        0 => top,
        1 => 0,
        2 => physical_base,
        _ if size == 0 => rng.word() / PAGE * PAGE,
        _ => rng.bits(64).min(top) / PAGE * PAGE,
    };
    let path = path(rng);
    let (disk, partition) = (rng.bytes(16), rng.bytes(16));
    let (physical_base, virtual_base) = match rng.chance(50) {
        true => (physical_base, virtual_base),
        false => (virtual_base, physical_base),
    };
    Kernel {
        physical_base,
        virtual_base,
        size,
        partition_type: nonzero(rng, 64),
        disk_guid: lend(rng, disk),
        partition_guid: lend(rng, partition),
        disk_index: rng.word() as u32,
        partition_index: rng.word() as u32,
        path: lend(rng, path),
    }
}

fn spoil_kernel(rng: &mut Rng, record: &mut Kernel) {
    match rng.below(9) {
        0 | 1 => {
            let length = rng.pick(&[0, 8, 15, 17, 32, 256 + 16]);
            let guid = match rng.chance(50) {
                true => &mut record.disk_guid,
                false => &mut record.partition_guid,
            };
            guid.bytes.resize(length, 0x99);
        }
        2 => record.partition_type = 0,
        3 => record.physical_base = misaligned(rng, record.physical_base),
        4 => record.virtual_base = misaligned(rng, record.virtual_base),
        5 => record.size = misaligned(rng, record.size),
        6 => spoil_path(rng, &mut record.path.bytes),
        _ => {
            let (base, size) = range_past_top(rng, PAGE, PAGE);
            let other = rng.below(2) as u64 * PAGE;
            record.size = size;
            (record.physical_base, record.virtual_base) = match rng.chance(50) {
                true => (base, other),
                false => (other, base),
            };
        }
    }
}

type Entry = [u64; 3];

fn entries_bytes(entries: &[Entry]) -> Vec<u8> {
    entries
        .iter()
        .flatten()
        .flat_map(|number| number.to_le_bytes())
        .collect()
}

/// At most `most` entries in order: half of them without a gap, the last one sometimes
/// up to 2^64. Steps of up to `width` bits: with 14, any number of entries has its place.
fn entries(rng: &mut Rng, most: usize, width: usize) -> Vec<Entry> {
    let mut entries: Vec<Entry> = Vec::new();
    let mut next: u128 = 0;
    for i in 0..most {
        let any = rng.bits(width);
        let gap = rng.pick(&[0, 0, 1, PAGE, any]);
        let Ok(address) = u64::try_from(next + u128::from(gap)) else {
            break;
        };
        let left = match address {
            0 => u64::MAX,
            _ => address.wrapping_neg(),
        };
        let size = match rng.below(8) {
            0 if i + 1 == most => left,
            0 | 1 => 0,
            2 => 1,
            3 => PAGE,
            _ => rng.bits(width),
        };
        let size = size.min(left);
        entries.push([address, size, nonzero(rng, 64)]);
        next = u128::from(address) + u128::from(size);
    }
    entries
}

fn spoil_entries(rng: &mut Rng, entries: &mut Vec<Entry>) {
    if entries.is_empty() {
        entries.push([0, PAGE, 1]);
    }
    let at = rng.below(entries.len());
    match rng.below(6) {
        0 => entries[at][2] = 0,
        1 => {
            let (address, size) = range_past_top(rng, 1, 1);
            entries[at] = [address, size, 1];
        }
        2 => {
            // One byte or one page past 2^64, the address as it is.
            let address = entries[at][0].max(2 * PAGE);
            entries[at][0] = address;
            entries[at][1] = address.wrapping_neg() + rng.pick(&[1, PAGE]);
        }
        3 => {
            // After an end at 2^64 nothing may follow.
            let last = entries.len() - 1;
            let address = entries[last][0].max(1);
            entries[last] = [address, address.wrapping_neg(), 1];
            let after = rng.pick(&[0, 1, PAGE, u64::MAX]);
            entries.push([after, rng.pick(&[0, 1]), 1]);
        }
        _ => {
            // A range one byte or one page too long, seen from either side.
            let excess = rng.pick(&[1, PAGE]);
            let [address, size, _] = entries[at];
            let end = address.saturating_add(size);
            if rng.chance(50) && at + 1 < entries.len() {
                let gap = entries[at + 1][0].saturating_sub(address);
                entries[at][1] = gap.saturating_add(excess);
            } else {
                entries.insert(at + 1, [end.saturating_sub(excess), rng.pick(&[0, 1]), 1]);
            }
        }
    }
}

/// A few entries of which two or three rules are broken, each once: in one entry, in neighbouring
/// ones, in the last or anywhere.
fn several_broken(rng: &mut Rng) -> Vec<Entry> {
    let most = 3 + rng.below(6);
    let mut entries = entries(rng, most, 14);
    for [address, size, _] in &mut entries {
        // High enough for a size to pass 2^64.
        *address += 2 * PAGE;
        *size = (*size).min(address.wrapping_neg());
    }
    let last = entries.len() - 1;
    let mut near = rng.below(last);
    let mut place = |rng: &mut Rng| {
        let any = rng.below(last + 1);
        let at = rng.pick(&[near, near + 1, last, any]).min(last);
        near += rng.pick(&[0, 1, 1]);
        at
    };
    // None of them mends the one before; a range past 2^64 passes the next address too.
    let kept = rng.below(5);
    if kept != 0 {
        let at = place(rng).max(1);
        let gap = entries[at][0] - entries[at - 1][0];
        entries[at - 1][1] = gap + rng.pick(&[1, PAGE]);
    }
    if kept != 1 {
        let at = place(rng);
        entries[at][1] = entries[at][0].wrapping_neg() + rng.pick(&[1, PAGE]);
    }
    if kept != 2 {
        entries[place(rng)][2] = 0;
    }
    entries
}

fn map(rng: &mut Rng, spoilt: usize) -> Given {
    if spoilt > 0 && rng.chance(40) {
        let bytes = entries_bytes(&several_broken(rng));
        return lend(rng, bytes);
    }
    let most = match rng.below(16) {
        0 => 40,
        1 | 2 => 0,
        _ => 1 + rng.below(6),
    };
    let width = rng.pick(&[14, 50, 63, 64]);
    let mut entries = entries(rng, most, width);
    let mut uneven = false;
    // Faults in several entries show the order in which they are tried.
    let more = if spoilt > 0 { rng.below(3) } else { 0 };
    for _ in 0..spoilt + more {
        match rng.chance(15) {
            true => uneven = true,
            false => spoil_entries(rng, &mut entries),
        }
    }
    let mut bytes = entries_bytes(&entries);
    if uneven {
        let by = rng.pick(&[1, 4, 7, 8, 12, 16, 23]);
        bytes.resize(bytes.len() + by, 1);
    }
    lend(rng, bytes)
}

/// A good range, or a few pages at the start or the end of the address space, where modules
/// overlap and a size ends about the end of a page.
fn module_range(rng: &mut Rng) -> (u64, u64) {
    if rng.chance(60) {
        return range(rng, PAGE, 1);
    }
    let last = u64::MAX / PAGE * PAGE;
    let address = rng.pick(&[0, PAGE, 2 * PAGE, last - PAGE, last]);
    let most = if address == last { PAGE } else { 2 * PAGE };
    let size = rng.pick(&[0, 1, PAGE - 1, PAGE, PAGE + 1, most]);
    (address, size.min(most))
}

fn module(rng: &mut Rng) -> Module {
    let (address, size) = module_range(rng);
    let length = text_length(rng, 64);
    let name = plain_text(rng, length);
    Module {
        kind: 1 + rng.below(2) as u32,
        name: lend(rng, name),
        address,
        size,
    }
}

fn spoil_module(rng: &mut Rng, record: &mut Module) {
    match rng.below(5) {
        0 => {
            let kinds = [0, 3, 4, 255, 256, 0x101, 0x1_0001, 0x1_0002, u32::MAX];
            record.kind = rng.pick(&kinds);
        }
        1 => record.address = misaligned(rng, record.address),
        2 => (record.address, record.size) = range_past_top(rng, PAGE, 1),
        _ => spoil_text(rng, &mut record.name.bytes, 64),
    }
}

impl Module {
    /// A module with this many of its rules broken.
    pub fn new(rng: &mut Rng, spoilt: usize) -> Module {
        let mut record = module(rng);
        (0..spoilt).for_each(|_| spoil_module(rng, &mut record));
        record
    }
}

fn framebuffer(rng: &mut Rng) -> Framebuffer {
    let format = 1 + rng.below(4) as u16;
    let bytes = if format <= 2 { 3 } else { 4 };
    let widest = u32::MAX / bytes;
    let width = match rng.below(4) {
        0 => rng.pick(&[0, 1, 2, widest]),
        1 => rng.below(4000) as u32,
        _ => (rng.bits(32) as u32).min(widest),
    };
    let least = width * bytes;
    let pitch = match rng.below(4) {
        0 | 1 => least,
        2 => least.saturating_add(rng.bits(8) as u32),
        _ => least.max(rng.bits(32) as u32),
    };
    let height = match rng.below(4) {
        0 => rng.below(3) as u32,
        _ => rng.bits(32) as u32,
    };
    let size = u64::from(pitch) * u64::from(height);
    let any = rng.bits(64);
    let address = match (size, rng.below(3)) {
        (0, _) => rng.pick(&[0, u64::MAX, any]),
        (_, 0) => size.wrapping_neg(),
        _ => any.min(size.wrapping_neg()),
    };
    Framebuffer {
        width,
        height,
        pitch,
        bpp: 8 * bytes as u16,
        format,
        address,
    }
}

fn spoil_framebuffer(rng: &mut Rng, record: &mut Framebuffer) {
    match rng.below(6) {
        0 => record.format = rng.pick(&[0, 5, 0x101, 0x104, u16::MAX]),
        1 => record.bpp = rng.pick(&[0, 16, 23, 24, 25, 31, 32, 33, 0x118, 0x120, u16::MAX]),
        2 => {
            // A pitch of one byte less than a row.
            record.width = record.width.max(1);
            let least = u64::from(record.width) * u64::from(record.bpp) / 8;
            record.pitch = least.saturating_sub(1).min(u64::from(u32::MAX)) as u32;
        }
        3 => {
            // Rows whose bits are a multiple of 2^32.
            record.width = (1 + rng.below(7) as u32) << 29 >> rng.below(3);
            record.pitch = rng.pick(&[0, 1, 4, 4096]);
            record.height = rng.below(2) as u32;
        }
        _ => {
            record.height = record.height.max(2);
            record.pitch = record.pitch.max(1);
            let size = u64::from(record.pitch) * u64::from(record.height);
            let past = rng.pick(&[1, 1, PAGE.min(size - 1), size - 1]);
            record.address = size.wrapping_neg().wrapping_add(past);
        }
    }
}

/// The text of a command line; mostly short.
fn line(rng: &mut Rng) -> Vec<u8> {
    let length = match rng.below(8) {
        0 => 0,
        1 => 7,
        2 => 8,
        3 => rng.below(120),
        _ => rng.below(26),
    };
    plain_text(rng, length)
}

impl Record {
    /// A record of a type from 1 to 6, or of some type from 7 up, with this many of its
    /// rules broken (some twice, some not at all where one break hides another).
    pub fn new(rng: &mut Rng, kind: u32, spoilt: usize) -> Record {
        match kind {
            1 => {
                let mut record = platform(rng);
                (0..spoilt).for_each(|_| spoil_platform(rng, &mut record));
                Record::Platform(record)
            }
            2 => {
                let mut record = kernel(rng);
                (0..spoilt).for_each(|_| spoil_kernel(rng, &mut record));
                Record::Kernel(record)
            }
            3 => Record::Map(map(rng, spoilt)),
            4 => Record::Module(Module::new(rng, spoilt)),
            5 => {
                let mut text = line(rng);
                (0..spoilt).for_each(|_| spoil_text(rng, &mut text, 0));
                Record::Line(lend(rng, text))
            }
            6 => {
                let mut record = framebuffer(rng);
                (0..spoilt).for_each(|_| spoil_framebuffer(rng, &mut record));
                Record::Framebuffer(record)
            }
            _ => Record::Other(kind, 8 + 8 * rng.below(5)),
        }
    }

    pub fn good(rng: &mut Rng, kind: u32) -> Record {
        Record::new(rng, kind, 0)
    }

    pub fn map_of(rng: &mut Rng, count: usize) -> Record {
        let bytes = entries_bytes(&entries(rng, count, 14));
        Record::Map(lend(rng, bytes))
    }

    pub fn line_of(rng: &mut Rng, length: usize) -> Record {
        let text = plain_text(rng, length);
        Record::Line(lend(rng, text))
    }

    /// The attribute, by the paper's table, with all silent bytes zero. A text too long is
    /// cut at the end of its field, and so has no closing zero; a map of another length is filled up
    /// to a multiple of 8.
    pub fn attribute(&self) -> Vec<u8> {
        let mut at = Vec::new();
        let field = |at: &mut Vec<u8>, text: &[u8], width: usize| {
            let length = text.len().min(width);
            at.extend(&text[..length]);
            at.resize(at.len() + width - length, 0);
        };
        let kind = match self {
            Record::Platform(r) => {
                at.extend(r.kind.to_le_bytes());
                at.extend(r.loader_major.to_le_bytes());
                at.extend(r.loader_minor.to_le_bytes());
                field(&mut at, &r.name.bytes, 32);
                at.extend(r.rsdp.to_le_bytes());
                at.extend(r.higher_half_base.to_le_bytes());
                at.extend([r.depth, 0, 0, 0, 0, 0, 0, 0]);
                at.extend(r.dtb.to_le_bytes());
                at.extend(r.smbios.to_le_bytes());
                1
            }
            Record::Kernel(r) => {
                at.extend(r.physical_base.to_le_bytes());
                at.extend(r.virtual_base.to_le_bytes());
                at.extend(r.size.to_le_bytes());
                at.extend(r.partition_type.to_le_bytes());
                field(&mut at, &r.disk_guid.bytes, 16);
                field(&mut at, &r.partition_guid.bytes, 16);
                at.extend(r.disk_index.to_le_bytes());
                at.extend(r.partition_index.to_le_bytes());
                field(&mut at, &r.path.bytes, 256);
                2
            }
            Record::Map(entries) => {
                let size = entries.bytes.len().next_multiple_of(8);
                field(&mut at, &entries.bytes, size);
                3
            }
            Record::Module(r) => {
                at.extend([0; 4]);
                at.extend(r.kind.to_le_bytes());
                field(&mut at, &r.name.bytes, 64);
                at.extend(r.address.to_le_bytes());
                at.extend(r.size.to_le_bytes());
                4
            }
            Record::Line(text) => {
                let size = (text.bytes.len() + 1).next_multiple_of(8);
                field(&mut at, &text.bytes, size);
                5
            }
            Record::Framebuffer(r) => {
                at.extend(r.width.to_le_bytes());
                at.extend(r.height.to_le_bytes());
                at.extend(r.pitch.to_le_bytes());
                at.extend(r.bpp.to_le_bytes());
                at.extend(r.format.to_le_bytes());
                at.extend(r.address.to_le_bytes());
                6
            }
            Record::Other(kind, size) => {
                at.resize(size - 8, 0);
                *kind
            }
        };
        let mut attribute = Vec::with_capacity(8 + at.len());
        attribute.extend(u32::to_le_bytes(kind));
        attribute.extend((8 + at.len() as u32).to_le_bytes());
        attribute.extend(at);
        attribute
    }
}
