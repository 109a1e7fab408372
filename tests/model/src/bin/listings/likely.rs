//! Contexts whose numbers and texts show how a listing is printed: numbers about a power of
//! ten, texts of bytes on either side of what is escaped, partition types about 3.

use ultra_model::generator::contexts::{good_records, types, Layout};
use ultra_model::generator::records::{Kernel, Platform, Record};
use ultra_model::generator::rng::Rng;

/// Bytes about the bounds of what is escaped, and those that a line gives a meaning.
const EDGES: [u8; 16] = [
    1, 9, 10, 13, 31, 32, 33, 36, 37, 38, b',', b'-', b'0', b'=', 126, 127,
];
/// The same above 127, where only a path has bytes.
const HIGH_EDGES: [u8; 6] = [128, 159, 160, 191, 254, 255];

pub fn context(rng: &mut Rng) -> Vec<u8> {
    let types = types(rng, true);
    let mut records = good_records(rng, &types);
    records.iter_mut().for_each(|record| match record {
        Record::Platform(platform) => set_platform(rng, platform),
        Record::Kernel(kernel) => set_kernel(rng, kernel),
        Record::Module(module) => module.name.bytes = text(rng, 63, false),
        Record::Line(line) => line.bytes = text(rng, 300, false),
        _ => {}
    });
    let mut layout = Layout::of(&records);
    if rng.chance(50) {
        layout.make_foreign(rng);
    }
    let mut bytes = layout.bytes();
    let after = rng.below(2) * rng.below(200);
    bytes.extend(rng.bytes(after));
    bytes
}

/// A number of at most `width` bits about a power of ten, or another likely one.
fn decimal(rng: &mut Rng, width: usize) -> u64 {
    let most = u64::MAX >> (64 - width);
    let power = 10u64.pow(rng.below(width * 19 / 64 + 1) as u32);
    let any = rng.bits(width);
    let likely = [power - 1, power, power, power + 1, most, 1 << (width - 1)];
    rng.pick(&likely)
        .min(most)
        .min(rng.pick(&[most, most, any]))
}

/// A text of at most `most` bytes, those above 127 only where they are asked for.
fn text(rng: &mut Rng, most: usize, high: bool) -> Vec<u8> {
    let any = rng.below(most + 1);
    let length = rng.pick(&[0, 1, any, any, most]);
    let style = rng.below(4);
    let mut text = vec![0; length];
    for byte in &mut text {
        *byte = match style {
            0 => 1 + rng.below(31) as u8,
            1 => rng.pick(&EDGES),
            2 if high => rng.pick(&HIGH_EDGES),
            _ if high => 1 + rng.below(255) as u8,
            _ => 1 + rng.below(127) as u8,
        };
    }
    text
}

fn set_platform(rng: &mut Rng, platform: &mut Platform) {
    platform.kind = decimal(rng, 32).max(1) as u32;
    platform.loader_major = decimal(rng, 16) as u16;
    platform.loader_minor = decimal(rng, 16) as u16;
    platform.name.bytes = text(rng, 31, false);
    platform.rsdp = decimal(rng, 64);
    platform.higher_half_base = decimal(rng, 64);
    platform.depth = decimal(rng, 8) as u8;
    platform.dtb = decimal(rng, 64);
    platform.smbios = decimal(rng, 64);
}

fn set_kernel(rng: &mut Rng, kernel: &mut Kernel) {
    let high = 1 << rng.pick(&[8, 16, 31, 32, 33, 63]);
    let any = decimal(rng, 64).max(1);
    kernel.partition_type = rng.pick(&[1, 2, 3, 3, 3, 3 + high, 3 + high, any]);
    kernel.disk_index = decimal(rng, 32) as u32;
    kernel.partition_index = decimal(rng, 32) as u32;
    kernel.path.bytes = [vec![b'/'], text(rng, 254, true)].concat();
}
