//! For the call that exports a context to a Handover payload: contexts with ranges of every
//! type, modules, lines and RSDP addresses, also of about 1,024 records and of payloads of about
//! 65,536 bytes; buffers that are refused; load addresses and outputs.

use crate::generator::contexts::{self, good_records, types, Layout, ROOM};
use crate::generator::records::{Record, PAGE};
use crate::generator::rng::Rng;
use crate::requests::export::List;

const MODULE: u32 = 4;
/// 2^64 - 20: an RSDP there ends at 2^64.
const LAST_RSDP: u64 = u64::MAX - 19;
/// About as long as a small payload, where a buffer has none.
const SMALL: usize = 200;

// ---- Buffers ----

/// A buffer to be exported.
pub fn buffer(rng: &mut Rng) -> Vec<u8> {
    match rng.below(100) {
        0..=55 => context(rng),
        56..=60 => many_records(rng),
        61..=64 => long_payload(rng),
        65 => untyped(rng),
        _ => any(rng),
    }
}

/// One of the buffers that the other calls are made on, most of which are refused.
fn any(rng: &mut Rng) -> Vec<u8> {
    let start = match rng.below(48) {
        0..=2 => contexts::random(rng),
        3..=8 => contexts::head(rng),
        9 => contexts::valid(rng, false),
        10 => contexts::valid(rng, true),
        11 | 12 => contexts::begun(rng),
        13..=21 => contexts::spoilt(rng),
        22..=37 => contexts::boundary(rng),
        38..=41 => contexts::cut(rng),
        42..=44 => contexts::byte(rng),
        45 | 46 => contexts::many(rng),
        _ => contexts::large(rng),
    };
    start.buffer.bytes
}

/// A good context, foreign or not, and a few bytes after it or none.
fn context(rng: &mut Rng) -> Vec<u8> {
    let foreign = rng.chance(50);
    let mut types = types(rng, foreign);
    if rng.chance(4) {
        types.truncate(2);
    }
    let module = types.iter().position(|kind| *kind == MODULE);
    if let (true, Some(at)) = (rng.chance(10), module) {
        let more = rng.below(20);
        types.splice(at..at, vec![MODULE; more]);
    }
    let mut layout = Layout::of(&records(rng, &types));
    if foreign {
        layout.make_foreign(rng);
    }
    let mut bytes = layout.bytes();
    let after = rng.pick(&[0, 0, 1, 30]);
    bytes.extend(rng.bytes(after));
    bytes
}

/// A good context but for its last attribute, whose type is none.
fn untyped(rng: &mut Rng) -> Vec<u8> {
    let types = types(rng, false);
    let mut layout = Layout::of(&records(rng, &types));
    layout.attributes.push(Record::Other(0, 8).attribute());
    layout.recount();
    layout.bytes()
}

/// Good records, with RSDP addresses and types of ranges that matter here.
fn records(rng: &mut Rng, types: &[u32]) -> Vec<Record> {
    let mut records = good_records(rng, types);
    for record in &mut records {
        match record {
            Record::Platform(platform) => platform.rsdp = rsdp(rng),
            Record::Map(entries) => set_types(rng, &mut entries.bytes),
            _ => {}
        }
    }
    records
}

fn rsdp(rng: &mut Rng) -> u64 {
    match rng.below(20) {
        0..=5 => 0,
        6 | 7 => LAST_RSDP,
        8 => LAST_RSDP + 1,
        9 => LAST_RSDP - 1,
        10 => u64::MAX,
        11 => 1,
        _ => rng.bits(64),
    }
}

fn set_types(rng: &mut Rng, entries: &mut [u8]) {
    for entry in entries.chunks_exact_mut(24) {
        entry[16..].copy_from_slice(&range_type(rng).to_le_bytes());
    }
}

/// A type that the protocol has, one that is the same in its low 32 bits, one next to it, or any.
fn range_type(rng: &mut Rng) -> u64 {
    let known = [
        1,
        1,
        2,
        3,
        4,
        0xFFFF_0001,
        0xFFFF_0002,
        0xFFFF_0003,
        0xFFFF_0004,
    ];
    let known = rng.pick(&known);
    match rng.below(12) {
        0..=7 => known,
        8 => known | 1 << (32 + rng.below(32)),
        9 => known << 32,
        10 => rng.pick(&[5, 0xFFFF_0000, 0xFFFF_0005, 1 << 32, u64::MAX]),
        _ => rng.word().max(1),
    }
}

fn map(rng: &mut Rng, ranges: usize) -> Record {
    let mut map = Record::map_of(rng, ranges);
    if let Record::Map(entries) = &mut map {
        set_types(rng, &mut entries.bytes);
    }
    map
}

/// A context of about 1,024 records, which are mostly ranges.
fn many_records(rng: &mut Rng) -> Vec<u8> {
    let besides = rng.pick(&[1_021, 1_022, 1_022, 1_022, 1_023, 1_023, 1_023, 1_500]);
    let modules = rng.pick(&[0, 0, 1, 3, 100]);
    let mut records = records(rng, &[1, 2]);
    let has_rsdp = matches!(&records[0], Record::Platform(platform) if platform.rsdp != 0);
    let lines = rng.below(2);
    let ranges = besides - modules - lines - usize::from(has_rsdp);
    let mut groups = [
        vec![map(rng, ranges)],
        good_records(rng, &vec![MODULE; modules]),
        good_records(rng, &[5][..lines]),
    ];
    groups.rotate_left(rng.below(3));
    records.extend(groups.into_iter().flatten());
    Layout::of(&records).bytes()
}

/// A context whose payload has about 65,536 bytes, by a line as long as it takes.
fn long_payload(rng: &mut Rng) -> Vec<u8> {
    let size = rng.pick(&[
        ROOM - 1,
        ROOM,
        ROOM,
        ROOM,
        ROOM + 1,
        ROOM + 1,
        ROOM + 60,
        66_000,
    ]);
    let mut records = records(rng, &[1, 2]);
    // In a payload a range takes 8 bytes more than in a context, and so there is room for both.
    let ranges = 150 + rng.below(300);
    records.push(map(rng, ranges));
    let modules = rng.below(4);
    records.extend(good_records(rng, &vec![MODULE; modules]));
    let at = rng.pick(&[2, 3, records.len()]);
    records.insert(at, Record::line_of(rng, 0));
    let without_text = payload_size(&Layout::of(&records).bytes());
    records[at] = Record::line_of(rng, size - without_text);
    Layout::of(&records).bytes()
}

// ---- Load addresses and outputs ----

/// How long the payload is that a buffer is exported to; any length where it is refused.
pub fn payload_size(buf: &[u8]) -> usize {
    List::of(buf, 0).map_or(SMALL, |list| list.size())
}

/// An address where a payload of this size ends at 2^64, or about there; or any.
pub fn load(rng: &mut Rng, size: usize) -> u64 {
    let last = 0u64.wrapping_sub(size as u64);
    match rng.below(24) {
        0..=2 => last,
        3 | 4 => last + 1,
        5 => last - 1,
        6 => last + rng.below(size) as u64,
        7 => u64::MAX,
        // Where the size counts as far as there is room, one above that is passed over.
        8 => 0u64.wrapping_sub(ROOM as u64),
        9..=11 => 0,
        12..=16 => rng.bits(64),
        _ => rng.bits(52) / PAGE * PAGE,
    }
}

/// The length of an output for a payload of this size; about the room's mostly where the payload
/// is as long.
pub fn output(rng: &mut Rng, size: usize) -> usize {
    if rng.chance(if size > ROOM - 100 { 60 } else { 3 }) {
        return rng.pick(&[ROOM - 1, ROOM, ROOM + 1, 70_000, 70_000]);
    }
    match rng.below(29) {
        0..=12 => size,
        13..=17 => size + 1 + rng.below(60),
        18 | 19 => size + 1,
        20..=22 => size - 1,
        23 => 0,
        24 => rng.below(16),
        25 => 15,
        26 => 16,
        _ => rng.below(size),
    }
}
