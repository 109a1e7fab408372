//! Contexts that fill the room and have the longest listings: every number as long as the
//! rules allow, every text of bytes that print as three.

use ultra_model::generator::contexts::{Layout, ROOM};
use ultra_model::generator::given::Given;
use ultra_model::generator::records::{Kernel, Module, Platform, Record};
use ultra_model::generator::rng::Rng;

/// The least number of 20 digits; a multiple of 4,096.
const TWENTY_DIGITS: u64 = 10_000_000_000_000_000_000;
/// A context has 2 to 1,024 attributes; two of them are platform and kernel.
const MOST_OTHERS: usize = 1_022;

pub fn context(rng: &mut Rng) -> Vec<u8> {
    let mut layout = opening(rng);
    match rng.below(6) {
        0 => push_others(&mut layout, MOST_OTHERS - 1),
        1 => {
            push_others(&mut layout, MOST_OTHERS - 1);
            push_line(rng, &mut layout);
        }
        2 => push_line(rng, &mut layout),
        3 => push_map(&mut layout, TWENTY_DIGITS),
        4 => push_map(&mut layout, 0),
        _ => push_modules(rng, &mut layout),
    }
    fill(&mut layout);
    layout.recount();
    let mut bytes = layout.bytes();
    let after = rng.pick(&[0, 0, 0, 1, 5_000, 100_000]);
    bytes.extend(rng.bytes(after));
    bytes
}

fn given(bytes: Vec<u8>) -> Given {
    Given {
        bytes,
        ..Given::default()
    }
}

/// Bytes 1 to 31 and 127, which print as three in every text.
fn escapes(rng: &mut Rng, length: usize) -> Vec<u8> {
    let byte = |_| match rng.below(32) {
        0 => 127,
        byte => byte as u8,
    };
    (0..length).map(byte).collect()
}

/// A head, a platform and a kernel; the platform with none of its late members, which leaves
/// more room, or with all of them.
fn opening(rng: &mut Rng) -> Layout {
    let mut layout = Layout::of(&[platform(rng), kernel(rng)]);
    layout.head[..2].fill(255);
    if rng.chance(75) {
        let platform = &mut layout.attributes[0];
        platform.truncate(56);
        platform[4] = 56;
    }
    layout
}

fn platform(rng: &mut Rng) -> Record {
    Record::Platform(Platform {
        kind: u32::MAX,
        loader_major: u16::MAX,
        loader_minor: u16::MAX,
        name: given(escapes(rng, 31)),
        rsdp: u64::MAX,
        higher_half_base: u64::MAX,
        depth: u8::MAX,
        dtb: u64::MAX,
        smbios: u64::MAX,
    })
}

/// Bases of 20 digits leave 19 to the size. Either the GUIDs are listed, which is longer, or
/// the partition type is long.
fn kernel(rng: &mut Rng) -> Record {
    let path = [vec![b'/'], escapes(rng, 254)].concat();
    Record::Kernel(Kernel {
        physical_base: TWENTY_DIGITS,
        virtual_base: TWENTY_DIGITS,
        size: TWENTY_DIGITS.wrapping_neg(),
        partition_type: rng.pick(&[3, 3, 3, u64::MAX]),
        disk_guid: given(rng.bytes(16)),
        partition_guid: given(rng.bytes(16)),
        disk_index: u32::MAX,
        partition_index: u32::MAX,
        path: given(path),
    })
}

/// Types of ten digits, all different, in attributes of 8 bytes.
fn push_others(layout: &mut Layout, count: usize) {
    let types = (0..count).map(|place| u32::MAX - place as u32);
    let others = types.map(|kind| Record::Other(kind, 8).attribute());
    layout.attributes.extend(others);
}

fn push_line(rng: &mut Rng, layout: &mut Layout) {
    // The header and the closing zero print nothing.
    let length = ROOM - layout.used() - 9;
    let text = escapes(rng, length);
    layout
        .attributes
        .push(Record::Line(given(text)).attribute());
}

/// Entries from `base` to 2^64 without a gap, all of one size.
fn push_map(layout: &mut Layout, base: u64) {
    let count = (ROOM - layout.used() - 8) / 24;
    let size = (u64::MAX - base) / count as u64;
    let numbers = (0..count as u64).flat_map(|place| [base + place * size, size, u64::MAX]);
    let entries = numbers.flat_map(u64::to_le_bytes).collect();
    layout
        .attributes
        .push(Record::Map(given(entries)).attribute());
}

/// An address and a size cannot both have 20 digits: one of them has 19.
fn push_modules(rng: &mut Rng, layout: &mut Layout) {
    let rest = TWENTY_DIGITS.wrapping_neg();
    while ROOM - layout.used() >= 96 {
        let (address, size) = rng.pick(&[(TWENTY_DIGITS, rest), (rest, TWENTY_DIGITS)]);
        let module = Module {
            kind: 2,
            name: given(escapes(rng, 63)),
            address,
            size,
        };
        layout.attributes.push(Record::Module(module).attribute());
    }
}

/// What is left of the room, in one attribute.
fn fill(layout: &mut Layout) {
    let left = ROOM - layout.used();
    if left >= 8 {
        let filler = Record::Other(1_000_000_000, left);
        layout.attributes.push(filler.attribute());
    }
}
