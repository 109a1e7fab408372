//! Handover payloads, good and bad: records, tables of strings, and the many ways in which one
//! is not quite a payload.
//!
//! The bytes are laid out here from 002 once more, and not with the model.

use crate::generator::contexts::ROOM;
use crate::generator::rng::Rng;

const MAGIC: u32 = 0xC001_B001;
/// As many records as a payload can have.
pub const COUNT: usize = 1_024;

pub const FREE: u32 = 0x0000_0000;
pub const SELF: u32 = 0xA24F_988D;
pub const STACK: u32 = 0xF65B_391B;
pub const KERNEL: u32 = 0xBFC7_1B20;
pub const LOADER: u32 = 0xF1F8_0C26;
pub const FILE: u32 = 0xCBC3_6D3B;
pub const RSDP: u32 = 0x8EF2_9C18;
pub const FDT: u32 = 0xB628_BBC1;
pub const FB: u32 = 0xE2D5_5685;
pub const CMDLINE: u32 = 0x4351_40C4;
pub const RESERVED: u32 = 0xB884_1D2D;
pub const END: u32 = 0xFFFF_FFFF;

/// The tags of 002 but the end's.
const TAGS: [u32; 11] = [
    FREE, SELF, STACK, KERNEL, LOADER, FILE, RSDP, FDT, FB, CMDLINE, RESERVED,
];

// ---- Records ----

/// The words of a record.
#[derive(Clone, Copy, Debug)]
pub struct Record {
    pub tag: u32,
    pub flags: u32,
    pub start: u64,
    pub size: u64,
    pub name: u32,
    pub meta: u32,
}

impl Record {
    pub fn bytes(&self) -> Vec<u8> {
        let mut bytes = [self.tag, self.flags].map(u32::to_le_bytes).concat();
        bytes.extend([self.start, self.size].map(u64::to_le_bytes).concat());
        bytes.extend([self.name, self.meta].map(u32::to_le_bytes).concat());
        bytes
    }

    pub fn names_by_name(&self) -> bool {
        self.tag == FILE
    }

    pub fn names_by_meta(&self) -> bool {
        self.tag == FILE || self.tag == CMDLINE
    }
}

/// Tags that 002 does not have, also such as are close to one that it has.
fn unknown_tag(rng: &mut Rng) -> u32 {
    let any = rng.word() as u32 >> 1;
    rng.pick(&[
        1,
        FILE ^ 1,
        FILE + 1,
        FILE ^ 1 << 31,
        FILE.swap_bytes(),
        CMDLINE - 1,
        CMDLINE ^ 1 << 31,
        CMDLINE.swap_bytes(),
        END - 1,
        END >> 1,
        END << 8,
        any,
    ])
}

/// The tag of a record that is not the last.
fn tag(rng: &mut Rng) -> u32 {
    match rng.below(20) {
        0..=6 => FILE,
        7..=9 => CMDLINE,
        10..=16 => rng.pick(&TAGS),
        _ => unknown_tag(rng),
    }
}

/// A start and a size whose sum does not pass 2^64.
fn range(rng: &mut Rng) -> (u64, u64) {
    let any = rng.bits(64);
    match rng.below(10) {
        0 | 1 => (0, 0),
        2 => (any, 0),
        3 => (0, any),
        4 => range_to_the_top(rng),
        _ => (any, rng.bits(64).min(u64::MAX - any)),
    }
}

fn range_to_the_top(rng: &mut Rng) -> (u64, u64) {
    let size = match rng.below(4) {
        0 => 1,
        1 => u64::MAX,
        _ => rng.bits(64).max(1),
    };
    (0u64.wrapping_sub(size), size)
}

/// A word that the tag may leave unused.
fn wild_word(rng: &mut Rng) -> u32 {
    let any = rng.word() as u32;
    rng.pick(&[0, 0, 0, 1, 64, any, any, 1 << 31, u32::MAX])
}

/// Good records, the last being the end. The words at 24 and 28 are any, also where they name.
pub fn records(rng: &mut Rng, count: usize) -> Vec<Record> {
    let plain = rng.chance(30);
    let mut records: Vec<Record> = (0..count)
        .map(|_| {
            let (start, size) = range(rng);
            Record {
                tag: tag(rng),
                flags: if plain { 0 } else { wild_word(rng) },
                start,
                size,
                name: if plain { 0 } else { wild_word(rng) },
                meta: if plain { 0 } else { wild_word(rng) },
            }
        })
        .collect();
    if let Some(last) = records.last_mut() {
        last.tag = END;
        if plain {
            (last.start, last.size) = (0, 0);
        }
    }
    records
}

/// How many records a payload of the usual length has.
pub fn few(rng: &mut Rng) -> usize {
    match rng.below(10) {
        0 => 1,
        1 => 2,
        2..=6 => 2 + rng.below(8),
        _ => 1 + rng.below(40),
    }
}

/// An end too many or none, in records that are not empty.
pub fn misplace_end(rng: &mut Rng, records: &mut [Record]) {
    let before_last = records.len() - 1;
    match rng.below(4) {
        0 if before_last > 0 => records[0].tag = END,
        1 if before_last > 0 => records[before_last - 1].tag = END,
        2 if before_last > 0 => records[rng.below(before_last)].tag = END,
        _ => records[before_last].tag = rng.pick(&[FREE, RESERVED, END - 1, END >> 1]),
    }
}

/// The first record, the last or any.
fn any_record<'a>(rng: &mut Rng, records: &'a mut [Record]) -> &'a mut Record {
    let (count, any) = (records.len(), rng.below(records.len()));
    &mut records[rng.pick(&[0, count - 1, any])]
}

/// A range that passes 2^64, in records that are not empty.
pub fn pass_the_top(rng: &mut Rng, records: &mut [Record]) {
    let record = any_record(rng, records);
    (record.start, record.size) = match rng.below(4) {
        // By one.
        0 | 1 => {
            let size = 2 + rng.bits(63);
            (1u64.wrapping_sub(size), size)
        }
        2 => rng.pick(&[
            (u64::MAX, 2),
            (u64::MAX, u64::MAX),
            (1 << 63, 1 + (1 << 63)),
        ]),
        _ => {
            let start = rng.bits(64) | 1 << 63;
            (start, rng.bits(64).max(0u64.wrapping_sub(start) + 1))
        }
    };
}

// ---- Payloads ----

/// Head, records, table and what comes after the size: bytes that may or may not be a payload.
#[derive(Clone, Debug)]
struct Layout {
    magic: u32,
    agent: u32,
    /// What the head says, where that is not true.
    size: Option<u32>,
    count: Option<u32>,
    records: Vec<Record>,
    table: Vec<u8>,
    after: Vec<u8>,
}

impl Layout {
    fn table_start(&self) -> usize {
        16 + 32 * self.records.len()
    }

    /// How long the payload is.
    fn length(&self) -> usize {
        self.table_start() + self.table.len()
    }

    fn room(&self) -> usize {
        ROOM.min(self.length() + self.after.len())
    }

    fn bytes(&self) -> Vec<u8> {
        let size = self.size.unwrap_or(self.length() as u32);
        let count = self.count.unwrap_or(self.records.len() as u32);
        let head = [self.magic, self.agent, size, count];
        let mut bytes = head.map(u32::to_le_bytes).concat();
        for record in &self.records {
            bytes.extend(record.bytes());
        }
        bytes.extend(&self.table);
        bytes.extend(&self.after);
        bytes
    }
}

fn nonzero_bytes(rng: &mut Rng, length: usize) -> Vec<u8> {
    let mut bytes = rng.bytes(length);
    for byte in &mut bytes {
        *byte = (*byte).max(1);
    }
    bytes
}

/// A table of that length, which is not 0: strings, runs of zeros, and at times bytes after the
/// last zero.
fn table(rng: &mut Rng, length: usize) -> Vec<u8> {
    let longest = rng.pick(&[2, 10, 30, 30, 30, 1 + length / 4]);
    let mut table = Vec::new();
    while table.len() < length {
        let string = match rng.below(12) {
            0 => 0,
            _ => 1 + rng.below(longest),
        };
        table.extend(nonzero_bytes(rng, string));
        let zeros = rng.pick(&[1, 1, 1, 1, 1, 1, 1, 1, 1, 3]);
        table.resize(table.len() + zeros, 0);
    }
    table.truncate(length);
    if rng.chance(60) || !table.contains(&0) {
        table[length - 1] = 0;
    }
    table
}

/// Offsets of a table that have a zero at them or after them.
struct Offsets {
    zeros: Vec<usize>,
    /// Those that were given before.
    named: Vec<usize>,
}

impl Offsets {
    fn of(table: &[u8]) -> Offsets {
        let bytes = table.iter().enumerate();
        let zeros = bytes.filter(|(_, &byte)| byte == 0).map(|(at, _)| at);
        Offsets {
            zeros: zeros.collect(),
            named: vec![0],
        }
    }

    /// A string's start, any place, a zero, the last zero, or one that was named before or is
    /// close to it.
    fn any(&mut self, rng: &mut Rng) -> u32 {
        let last = self.zeros[self.zeros.len() - 1];
        let offset = match rng.below(16) {
            0..=6 => rng.pick(&self.zeros) + 1,
            7..=10 => rng.below(last + 1),
            11 => rng.pick(&self.zeros),
            12 => last,
            13 | 14 => rng.pick(&self.named),
            _ => rng.pick(&self.named) + 1,
        };
        let offset = offset.min(last);
        self.named.push(offset);
        offset as u32
    }
}

/// A payload of so many records, of which there is at least one, and a table of that length.
fn good(rng: &mut Rng, count: usize, length: usize) -> Layout {
    let table = table(rng, length);
    let mut offsets = Offsets::of(&table);
    let agent = offsets.any(rng);
    let mut records = records(rng, count);
    for record in &mut records {
        if record.names_by_name() {
            record.name = offsets.any(rng);
        }
        if record.names_by_meta() {
            record.meta = offsets.any(rng);
        }
    }
    let after = match rng.below(6) {
        0..=2 => 0,
        3 => 1,
        4 => 1 + rng.below(8),
        _ => 1 + rng.below(200),
    };
    Layout {
        magic: MAGIC,
        agent,
        size: None,
        count: None,
        records,
        table,
        after: rng.bytes(after),
    }
}

/// One of the usual length.
fn usual(rng: &mut Rng) -> Layout {
    let length = match rng.below(6) {
        0 => 1,
        1 => 1 + rng.below(8),
        _ => 1 + rng.below(400),
    };
    let count = few(rng);
    good(rng, count, length)
}

/// The rules that a payload can break.
#[derive(Clone, Copy)]
enum Rule {
    Magic,
    Count,
    Size,
    End,
    Range,
    Agent,
    String,
}

const RULES: [Rule; 7] = [
    Rule::Magic,
    Rule::Count,
    Rule::Size,
    Rule::End,
    Rule::Range,
    Rule::Agent,
    Rule::String,
];

fn spoil(rng: &mut Rng, layout: &mut Layout, rule: Rule) {
    match rule {
        Rule::Magic => {
            let bit = 1 << rng.below(32);
            let other = MAGIC.swap_bytes();
            layout.magic = rng.pick(&[MAGIC - 1, MAGIC + 1, MAGIC ^ bit, other, 0]);
        }
        Rule::Count => {
            let count = layout.records.len() as u32;
            let wide = rng.pick(&[count | 1 << 16, count | 1 << 31, u32::MAX]);
            layout.count = Some(rng.pick(&[0, 0, 0, 1_025, wide]));
        }
        Rule::Size => layout.size = Some(bad_size(rng, layout)),
        Rule::End => misplace_end(rng, &mut layout.records),
        Rule::Range => pass_the_top(rng, &mut layout.records),
        Rule::Agent => layout.agent = bad_offset(rng, layout),
        Rule::String => spoil_string(rng, layout),
    }
}

/// Below the records' end, or above the room.
fn bad_size(rng: &mut Rng, layout: &Layout) -> u32 {
    let least = layout.table_start() as u32;
    let (length, room) = (layout.length() as u32, layout.room() as u32);
    rng.pick(&[
        least - 1,
        least - 1,
        least - 32,
        0,
        15,
        16,
        room + 1,
        room + 1,
        room + 1,
        65_537,
        length | 1 << 16,
        length | 1 << 31,
        u32::MAX,
    ])
}

/// An offset at which no string is: at the table's end or past it, also by as much as makes a
/// sum of 32 bits wrap, or without a zero after it but past the size.
fn bad_offset(rng: &mut Rng, layout: &mut Layout) -> u32 {
    let length = layout.table.len();
    let start = layout.table_start() as u32;
    match rng.below(8) {
        0 | 1 => length as u32,
        2 => (length + 1 + rng.below(5)) as u32,
        3 => u32::MAX - rng.below(2) as u32,
        4 => (rng.below(length.max(1)) as u32).wrapping_sub(start),
        _ => {
            let open = 1 + rng.below(5);
            layout.table.extend(nonzero_bytes(rng, open));
            if rng.chance(60) {
                layout.after.insert(0, 0);
            }
            (length + rng.below(open)) as u32
        }
    }
}

/// A record that names a string, if only one can; or none.
fn naming(rng: &mut Rng, layout: &mut Layout) -> Option<usize> {
    let places = 0..layout.records.len();
    let names = |at: &usize| layout.records[*at].names_by_meta();
    let naming: Vec<usize> = places.filter(names).collect();
    match (naming.len(), layout.records.len()) {
        (0, 1) => None,
        (0, count) => {
            let at = rng.below(count - 1);
            let record = &mut layout.records[at];
            (record.tag, record.name, record.meta) = (rng.pick(&[FILE, CMDLINE]), 0, 0);
            Some(at)
        }
        (count, _) => Some(naming[rng.below(count)]),
    }
}

fn spoil_string(rng: &mut Rng, layout: &mut Layout) {
    let Some(at) = naming(rng, layout) else {
        layout.agent = bad_offset(rng, layout);
        return;
    };
    let offset = bad_offset(rng, layout);
    let record = &mut layout.records[at];
    match rng.below(6) {
        0..=1 if record.names_by_name() => record.name = offset,
        2 if record.names_by_name() => (record.name, record.meta) = (offset, offset),
        _ => record.meta = offset,
    }
}

/// Changes that bring a payload to a boundary, most of them on its good side.
fn to_a_boundary(rng: &mut Rng, layout: &mut Layout) {
    let last_offset = layout.table.len().saturating_sub(1) as u32;
    match rng.below(10) {
        0 => layout.after.clear(),
        1 | 2 => {
            let range = range_to_the_top(rng);
            let record = any_record(rng, &mut layout.records);
            (record.start, record.size) = range;
        }
        3 | 4 => {
            if let Some(last) = layout.table.last_mut() {
                *last = 0;
                layout.agent = last_offset;
            }
        }
        5 => {
            if let (Some(at), Some(last)) = (naming(rng, layout), layout.table.last_mut()) {
                *last = 0;
                let record = &mut layout.records[at];
                record.meta = last_offset;
                if record.names_by_name() && rng.chance(50) {
                    record.name = last_offset;
                }
            }
        }
        // No table: no string can start in it.
        6 => {
            layout.table.clear();
            layout.agent = 0;
        }
        // The size within the table: what closes past it is open.
        7 | 8 => {
            let size = layout.table_start() + rng.below(layout.table.len() + 1);
            layout.size = Some(size as u32);
        }
        // A record less, so that there is no end, or the table's bytes as one more.
        _ => {
            let count = layout.records.len() as u32;
            layout.count = Some(rng.pick(&[count - 1, count + 1]));
        }
    }
}

/// The least payload: the end, and an empty string.
fn least(rng: &mut Rng) -> Layout {
    let mut layout = good(rng, 1, 1);
    layout.records = records(rng, 1);
    layout
}

/// About as many records as there may be.
fn many(rng: &mut Rng) -> Layout {
    let count = rng.pick(&[COUNT - 1, COUNT, COUNT, COUNT + 1, COUNT + 1]);
    let length = 1 + rng.below(300);
    let mut layout = good(rng, count, length);
    if rng.chance(20) {
        let rule = rng.pick(&RULES);
        spoil(rng, &mut layout, rule);
    }
    layout
}

/// A payload of about the whole room, in a buffer that may be longer.
fn whole(rng: &mut Rng) -> Layout {
    let count = match rng.below(4) {
        0 => COUNT,
        _ => few(rng),
    };
    let length = ROOM - 16 - 32 * count;
    let mut layout = good(rng, count, length);
    let after = rng.pick(&[0, 0, 1, 2, 100, 4_000]);
    layout.after = rng.bytes(after);
    match rng.below(6) {
        0 | 1 => {}
        // One byte past the room, whether the buffer has it or not.
        2 => layout.size = Some(ROOM as u32 + 1),
        // A byte less of payload, or closed only by the byte past the room.
        3 => layout.size = Some(ROOM as u32 - 1),
        4 => {
            layout.table[length - 1] = 1;
            layout.agent = length as u32 - 1;
            layout.after.insert(0, 0);
        }
        _ => {
            let rule = rng.pick(&RULES);
            spoil(rng, &mut layout, rule);
        }
    }
    layout
}

/// A usual payload in a buffer that is longer than the room.
fn in_a_long_buffer(rng: &mut Rng) -> Layout {
    let mut layout = usual(rng);
    let after = ROOM - layout.length() + rng.pick(&[0, 1, 500]);
    layout.after = rng.bytes(after);
    match rng.below(3) {
        0 => {
            let rule = rng.pick(&RULES);
            spoil(rng, &mut layout, rule);
        }
        1 => layout.size = Some(ROOM as u32 + rng.below(2) as u32),
        _ => {}
    }
    layout
}

/// Up to three bytes changed, mostly in the head and the records.
fn flipped(rng: &mut Rng) -> Vec<u8> {
    let layout = usual(rng);
    let mut bytes = layout.bytes();
    for _ in 0..1 + rng.below(3) {
        let within = rng.pick(&[16, layout.table_start(), bytes.len()]);
        let at = rng.below(within);
        match rng.chance(60) {
            true => bytes[at] ^= 1 << rng.below(8),
            false => bytes[at] = rng.word() as u8,
        }
    }
    bytes
}

/// A payload lent in part.
fn cut(rng: &mut Rng) -> Vec<u8> {
    let mut layout = usual(rng);
    if rng.chance(20) {
        spoil(rng, &mut layout, Rule::Magic);
    }
    let (least, length) = (layout.table_start(), layout.length());
    let mut bytes = layout.bytes();
    let any = rng.below(bytes.len());
    let length = rng.pick(&[15, 15, 16, 16, 17, 48, least - 1, least, length - 1, any]);
    bytes.truncate(length);
    bytes
}

/// Random bytes, mostly with a head that goes on.
fn random(rng: &mut Rng) -> Vec<u8> {
    let length = rng.below(250);
    let mut bytes = rng.bytes(length);
    let count = 1 + rng.below(4) as u32;
    let words = [(0, MAGIC), (8, length as u32), (12, count)];
    for (at, word) in words {
        if rng.chance(80) && at + 4 <= length {
            bytes[at..at + 4].copy_from_slice(&word.to_le_bytes());
        }
    }
    bytes
}

/// A buffer for the calls that read a payload.
pub fn payload(rng: &mut Rng) -> Vec<u8> {
    let mut layout = match rng.below(200) {
        0 | 1 => many(rng),
        2 | 3 => whole(rng),
        4 | 5 => in_a_long_buffer(rng),
        6..=9 => least(rng),
        10..=27 => return flipped(rng),
        28..=39 => return cut(rng),
        40..=45 => return random(rng),
        _ => usual(rng),
    };
    if layout.length() > 8_192 {
        return layout.bytes();
    }
    match rng.below(10) {
        0..=3 => {}
        4 | 5 => to_a_boundary(rng, &mut layout),
        6..=7 => {
            let rule = rng.pick(&RULES);
            spoil(rng, &mut layout, rule);
        }
        _ => {
            for _ in 0..2 {
                match rng.below(8) {
                    0 => to_a_boundary(rng, &mut layout),
                    _ => {
                        let rule = rng.pick(&RULES);
                        spoil(rng, &mut layout, rule);
                    }
                }
            }
        }
    }
    layout.bytes()
}

/// An index to ask for, in a payload of so many records.
pub fn index(rng: &mut Rng, count: u64) -> u64 {
    let below = rng.below(count.clamp(1, COUNT as u64) as usize) as u64;
    let any = rng.bits(64);
    match rng.below(8) {
        0..=2 => below,
        3 => rng.pick(&[0, count.saturating_sub(1)]),
        4 => rng.pick(&[count, count, count + 1]),
        5 => below + (1 << 32),
        _ => rng.pick(&[u64::MAX, u64::MAX, 1 << 63 | below, 1_023, 1_024, any]),
    }
}
