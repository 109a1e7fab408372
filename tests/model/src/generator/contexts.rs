//! Buffers: contexts laid out from records, and the many ways in which one is not quite a
//! context.

use crate::generator::given::Start;
use crate::generator::records::{lend, other_type, Record};
use crate::generator::rng::Rng;

pub const ROOM: usize = 65_536;
/// As many attributes as a context can have.
const COUNT: usize = 1_024;

/// A head and attributes, each with its header: bytes that may or may not be a context.
#[derive(Clone)]
pub struct Layout {
    pub head: [u8; 8],
    pub attributes: Vec<Vec<u8>>,
}

impl Layout {
    /// Version 1.0, and a count that is true.
    pub fn of(records: &[Record]) -> Layout {
        let mut layout = Layout {
            head: [1, 0, 0, 0, 0, 0, 0, 0],
            attributes: records.iter().map(Record::attribute).collect(),
        };
        layout.recount();
        layout
    }

    pub fn recount(&mut self) {
        self.set_count(self.attributes.len() as u32);
    }

    fn set_count(&mut self, count: u32) {
        self.head[4..].copy_from_slice(&count.to_le_bytes());
    }

    pub fn bytes(&self) -> Vec<u8> {
        let mut bytes = self.head.to_vec();
        self.attributes.iter().for_each(|a| bytes.extend(a));
        bytes
    }

    pub fn used(&self) -> usize {
        8 + self.attributes.iter().map(Vec::len).sum::<usize>()
    }

    fn start_of(&self, index: usize) -> usize {
        8 + self.attributes[..index].iter().map(Vec::len).sum::<usize>()
    }

    /// A version, a reserved u16, sizes and silent bytes that the adds would never write.
    pub fn make_foreign(&mut self, rng: &mut Rng) {
        self.head[0] = rng.pick(&[1, 1, 2, 7, 128, 255]);
        self.head[1] = rng.word() as u8;
        rng.fill(&mut self.head[2..4]);
        for attribute in &mut self.attributes {
            if rng.chance(80) {
                make_foreign(rng, attribute);
            }
        }
    }
}

fn kind_of(attribute: &[u8]) -> u32 {
    u32::from_le_bytes(attribute[..4].try_into().unwrap())
}

fn set_kind(attribute: &mut [u8], kind: u32) {
    attribute[..4].copy_from_slice(&kind.to_le_bytes());
}

fn set_size(attribute: &mut [u8], size: u32) {
    attribute[4..8].copy_from_slice(&size.to_le_bytes());
}

/// Cuts the attribute or prolongs it with random bytes, and says so in its size.
fn resize(rng: &mut Rng, attribute: &mut Vec<u8>, size: usize) {
    let before = attribute.len();
    attribute.resize(size, 0);
    if size > before {
        rng.fill(&mut attribute[before..]);
    }
    set_size(attribute, size as u32);
}

fn fill_after_zero(rng: &mut Rng, field: &mut [u8]) {
    if let Some(zero) = field.iter().position(|&byte| byte == 0) {
        rng.fill(&mut field[zero + 1..]);
    }
}

/// Random silent bytes, and a size that need not be the written one.
fn make_foreign(rng: &mut Rng, attribute: &mut Vec<u8>) {
    let longer = attribute.len() + 8 * rng.below(4);
    match kind_of(attribute) {
        1 => {
            fill_after_zero(rng, &mut attribute[16..48]);
            rng.fill(&mut attribute[65..72]);
            let size = rng.pick(&[56, 64, 72, 80, 88, 96, 104, 160]);
            resize(rng, attribute, size);
        }
        2 => {
            fill_after_zero(rng, &mut attribute[80..336]);
            resize(rng, attribute, longer);
        }
        3 => {}
        4 => {
            rng.fill(&mut attribute[8..12]);
            fill_after_zero(rng, &mut attribute[16..80]);
            resize(rng, attribute, longer);
        }
        5 => {
            fill_after_zero(rng, &mut attribute[8..]);
            resize(rng, attribute, longer);
        }
        6 => resize(rng, attribute, longer),
        _ => rng.fill(&mut attribute[8..]),
    }
}

fn shuffle<T>(rng: &mut Rng, list: &mut [T]) {
    for i in (1..list.len()).rev() {
        list.swap(i, rng.below(i + 1));
    }
}

/// The types of a context: 1, 2, and groups of the others in any order.
pub fn types(rng: &mut Rng, with_others: bool) -> Vec<u32> {
    let mut groups = Vec::new();
    for (kind, percent) in [(3, 60), (4, 55), (5, 55), (6, 45)] {
        if rng.chance(percent) {
            let count = if kind == 4 { 1 + rng.below(3) } else { 1 };
            groups.push(vec![kind; count]);
        }
    }
    if with_others && rng.chance(50) {
        let kind = other_type(rng);
        groups.push(vec![kind; 1 + rng.below(3)]);
        let another = other_type(rng);
        if another != kind {
            groups.push(vec![another]);
        }
    }
    shuffle(rng, &mut groups);
    [vec![1, 2], groups.concat()].concat()
}

pub fn good_records(rng: &mut Rng, types: &[u32]) -> Vec<Record> {
    types.iter().map(|kind| Record::good(rng, *kind)).collect()
}

/// A context, with types from 7 up and foreign sizes, versions and silent bytes or without.
fn good_layout(rng: &mut Rng, foreign: bool) -> Layout {
    let types = types(rng, foreign);
    let mut layout = Layout::of(&good_records(rng, &types));
    if foreign {
        layout.make_foreign(rng);
    }
    layout
}

/// How much room is left after a list of this many attributes: often just enough for one
/// more, or one byte less.
fn spare(rng: &mut Rng, count: usize) -> usize {
    let wanted = match count {
        0 => 88,
        1 => 336,
        _ => rng.pick(&[96, 96, 32, 32, 8, 32, 56, 80, 16, 24]),
    };
    match rng.below(10) {
        0 | 1 => 0,
        2..=4 => wanted,
        5 => wanted - rng.pick(&[1, 4, 7, 8]),
        6 => wanted + rng.pick(&[1, 4, 7, 8]),
        7 => rng.below(16),
        _ => rng.below(500),
    }
}

/// After the context there may be anything.
fn junk(rng: &mut Rng, length: usize) -> Vec<u8> {
    match rng.below(4) {
        0 => vec![0; length],
        1 => vec![rng.word() as u8; length],
        2 => {
            let kind = 1 + rng.below(7) as u32;
            let mut bytes = Record::good(rng, kind).attribute();
            bytes.resize(length, 0xEE);
            bytes
        }
        _ => rng.bytes(length),
    }
}

/// Lends the first `length` bytes.
fn cut_at(rng: &mut Rng, mut bytes: Vec<u8>, length: usize) -> Start {
    let beyond = bytes.split_off(length.min(bytes.len()));
    Start {
        buffer: lend(rng, bytes),
        beyond,
        expected: None,
    }
}

/// Lends all of a layout with some room after it.
fn with_spare(rng: &mut Rng, layout: &Layout) -> Start {
    let mut bytes = layout.bytes();
    let spare = spare(rng, layout.attributes.len());
    bytes.extend(junk(rng, spare));
    let length = bytes.len();
    cut_at(rng, bytes, length)
}

pub fn random(rng: &mut Rng) -> Start {
    let length = match rng.below(8) {
        0 => rng.below(10),
        1 => rng.below(1500),
        _ => rng.below(200),
    };
    let mut bytes = rng.bytes(length);
    if rng.chance(50) {
        // Small numbers come nearer to something.
        bytes.iter_mut().for_each(|byte| *byte &= 7);
    }
    let after = rng.bytes(16);
    bytes.extend(after);
    cut_at(rng, bytes, length)
}

/// A head, then headers of likely types and sizes with random bodies.
pub fn head(rng: &mut Rng) -> Start {
    let mut layout = Layout {
        head: [1, 0, 0, 0, 0, 0, 0, 0],
        attributes: Vec::new(),
    };
    for place in 0..rng.below(6) {
        let kind = match place {
            0 | 1 if rng.chance(90) => place as u32 + 1,
            _ if rng.chance(10) => other_type(rng),
            _ => rng.below(9) as u32,
        };
        let size = match (kind, rng.below(5)) {
            (_, 0) => 8 + 8 * rng.below(12),
            (1, _) => 88,
            (2, _) => 336,
            (3, _) => 8 + 24 * rng.below(4),
            (4, _) => 96,
            (5, _) => 16 + 8 * rng.below(4),
            (6, _) => 32,
            _ => 8 + 8 * rng.below(4),
        };
        let mut attribute = rng.bytes(size);
        if rng.chance(60) && size > 8 {
            // A few bytes of zero make texts and values pass.
            for _ in 0..size / 3 {
                let at = rng.below(size);
                attribute[at] = 0;
            }
        }
        set_kind(&mut attribute, kind);
        let noise = if rng.chance(5) { rng.below(8) } else { 0 };
        set_size(&mut attribute, (size + noise) as u32);
        layout.attributes.push(attribute);
    }
    layout.recount();
    if rng.chance(20) {
        layout.head[4] = rng.below(8) as u8;
    }
    with_spare(rng, &layout)
}

/// A context in a buffer that has room for it.
pub fn valid(rng: &mut Rng, foreign: bool) -> Start {
    let layout = good_layout(rng, foreign);
    let mut start = with_spare(rng, &layout);
    start.expected = Some(layout.used());
    start
}

/// A list of no or one attribute, which only adding takes.
pub fn begun(rng: &mut Rng) -> Start {
    let types: &[u32] = rng.pick(&[&[][..], &[1][..]]);
    let mut layout = Layout::of(&good_records(rng, types));
    if rng.chance(50) {
        layout.make_foreign(rng);
    }
    if rng.chance(8) {
        spoil_layout(rng, &mut layout);
    }
    with_spare(rng, &layout)
}

/// One or two records of a context are bad, or its structure is.
pub fn spoilt(rng: &mut Rng) -> Start {
    let types = types(rng, true);
    let mut records = good_records(rng, &types);
    let breaks = 1 + rng.below(4) / 3;
    let mut structure = 0;
    for _ in 0..breaks {
        if rng.chance(25) {
            structure += 1;
            continue;
        }
        let at = rng.below(records.len());
        let spoilt = 1 + rng.below(4) / 3;
        records[at] = Record::new(rng, types[at], spoilt);
    }
    let mut layout = Layout::of(&records);
    if rng.chance(40) {
        layout.make_foreign(rng);
    }
    (0..structure).for_each(|_| spoil_layout(rng, &mut layout));
    with_spare(rng, &layout)
}

/// Breaks a rule of the head, of a header, of the order of types or of sizes.
fn spoil_layout(rng: &mut Rng, layout: &mut Layout) {
    let count = layout.attributes.len();
    if count == 0 || rng.chance(15) {
        match rng.chance(20) {
            true => layout.head[0] = 0,
            false => set_near_count(rng, layout),
        }
        return;
    }
    let at = rng.below(count);
    match rng.below(7) {
        0 => set_near_size(rng, layout, at),
        1 => {
            let kind = match rng.chance(80) {
                true => rng.below(9) as u32,
                false => other_type(rng),
            };
            set_kind(&mut layout.attributes[at], kind);
        }
        2 => {
            let with = rng.below(count);
            layout.attributes.swap(at, with);
        }
        3 => {
            let again = layout.attributes[at].clone();
            let to = rng.below(count + 1);
            layout.attributes.insert(to, again);
            layout.recount();
        }
        4 => {
            layout.attributes.remove(at);
            layout.recount();
        }
        _ => reform(rng, &mut layout.attributes[at]),
    }
}

/// A count that is not the list's length, or just the limit.
fn set_near_count(rng: &mut Rng, layout: &mut Layout) {
    let count = layout.attributes.len() as u32;
    let near = [
        0,
        1,
        2,
        count.saturating_sub(1),
        count + 1,
        1_024,
        1_025,
        count + 0x100,
        count + 0x1_0000,
        count + 0x100_0000,
        u32::MAX,
    ];
    layout.set_count(rng.pick(&near));
}

/// A size word that is not the attribute's size.
fn set_near_size(rng: &mut Rng, layout: &mut Layout, at: usize) {
    let size = layout.attributes[at].len() as u32;
    let rest = (layout.used() - layout.start_of(at)) as u32;
    let near = [
        0,
        1,
        4,
        7,
        8,
        9,
        12,
        15,
        16,
        24,
        size - 8,
        size - 4,
        size - 1,
        size + 1,
        size + 4,
        size + 8,
        rest,
        rest + 8,
        rest + 96,
        0x8000_0000,
        // Sums with the start that would wrap in 32 bits.
        (layout.start_of(at) as u32).wrapping_neg(),
        (layout.start_of(at) as u32).wrapping_neg() + size,
        u32::MAX - 7,
        u32::MAX,
    ];
    set_size(&mut layout.attributes[at], rng.pick(&near));
}

/// The attribute in a size on either side of what the table asks.
fn reform(rng: &mut Rng, attribute: &mut Vec<u8>) {
    let size = match kind_of(attribute) {
        1 => 48 + 8 * rng.below(7),
        2 => rng.pick(&[80, 328, 336, 344]),
        3 => 8 + 8 * rng.below(8),
        4 => rng.pick(&[80, 88, 96, 104]),
        5 => 8 + 8 * rng.below(3),
        6 => rng.pick(&[24, 32, 40]),
        _ => 8 + 8 * rng.below(3),
    };
    resize(rng, attribute, size);
}

/// Each boundary of the paper, on either side, in a context that is good otherwise.
pub fn boundary(rng: &mut Rng) -> Start {
    let foreign = rng.chance(40);
    match rng.below(13) {
        0 => {
            // A head in a room of about 8 bytes.
            let mut layout = good_layout(rng, foreign);
            if rng.chance(60) {
                layout.set_count(rng.pick(&[0, 1, 2]));
            }
            let length = rng.below(18);
            cut_at(rng, layout.bytes(), length)
        }
        1 => {
            let mut layout = good_layout(rng, foreign);
            set_near_count(rng, &mut layout);
            layout.head[0] = rng.pick(&[0, 1, 1, 1, 255]);
            with_spare(rng, &layout)
        }
        2 => {
            let mut layout = good_layout(rng, foreign);
            let at = rng.below(layout.attributes.len());
            set_near_size(rng, &mut layout, at);
            with_spare(rng, &layout)
        }
        3 => {
            let mut layout = good_layout(rng, foreign);
            let at = rng.below(layout.attributes.len());
            reform(rng, &mut layout.attributes[at]);
            with_spare(rng, &layout)
        }
        4 | 5 => {
            // Good attributes in any order of types.
            let mut types = vec![1, 2];
            if rng.chance(15) {
                types = vec![rng.pick(&[1, 2, 3, 7]), rng.pick(&[1, 2, 4, 7])];
            }
            let alphabet: &[u32] = rng.pick(&[
                &[3, 4, 5, 6, 7, 8][..],
                &[4, 7][..],
                &[4, 6, 7][..],
                &[7, 8][..],
                &[7, 8, 0x1_0007][..],
                &[1, 2, 4, 8][..],
            ]);
            for _ in 0..rng.below(8) {
                types.push(rng.pick(alphabet));
            }
            let mut layout = Layout::of(&good_records(rng, &types));
            if foreign {
                layout.make_foreign(rng);
            }
            with_spare(rng, &layout)
        }
        6 => text_boundary(rng, foreign),
        7 => {
            // The last attribute ends just within the room, or just past it.
            let layout = good_layout(rng, foreign);
            let length = layout.used() + 1 - rng.pick(&[0, 1, 1, 2, 5, 8, 9, 10, 17]);
            let mut bytes = layout.bytes();
            bytes.extend([0; 8]);
            cut_at(rng, bytes, length)
        }
        8 => {
            // One attribute more than there is; the room ends at its start, or not quite.
            let mut layout = good_layout(rng, foreign);
            let used = layout.used();
            layout.set_count(layout.attributes.len() as u32 + 1);
            let mut bytes = layout.bytes();
            let kind = rng.pick(&[4, 7, 9]);
            bytes.extend(Record::good(rng, kind).attribute());
            let length = used + rng.pick(&[0, 1, 4, 7, 8, 9, 15, 16, 96]);
            cut_at(rng, bytes, length)
        }
        9 => {
            // A member near a boundary: a little more or less, or a likely number.
            let mut layout = good_layout(rng, foreign);
            let at = rng.below(layout.attributes.len());
            nudge(rng, &mut layout.attributes[at]);
            with_spare(rng, &layout)
        }
        10 => {
            // "we ask it of the last one too": a last size that is no multiple of 8, with
            // the room ending there or further on.
            let mut layout = good_layout(rng, foreign);
            if let Some(last) = layout.attributes.last_mut() {
                let size = last.len() + rng.below(16) - 8;
                resize(rng, last, size.max(8));
            }
            match rng.chance(60) {
                true => {
                    let used = layout.used();
                    cut_at(rng, layout.bytes(), used)
                }
                false => with_spare(rng, &layout),
            }
        }
        _ => {
            // A single bad record, the rest of the context being good.
            let types = types(rng, foreign);
            let mut records = good_records(rng, &types);
            let at = rng.below(records.len());
            records[at] = Record::new(rng, types[at], 1);
            with_spare(rng, &Layout::of(&records))
        }
    }
}

/// Texts about their closing zero: at the end of the field or nowhere in it, and bytes
/// about 0, 127 and 128 before and after it.
fn text_boundary(rng: &mut Rng, foreign: bool) -> Start {
    let mut types = types(rng, foreign);
    let kind = rng.pick(&[1, 2, 4, 5]);
    if !types.contains(&kind) {
        let to = 2 + rng.below(types.len() - 1);
        types.insert(to, kind);
    }
    let mut layout = Layout::of(&good_records(rng, &types));
    if foreign {
        layout.make_foreign(rng);
    }
    let Some(at) = types.iter().position(|found| *found == kind) else {
        return with_spare(rng, &layout);
    };
    let attribute = &mut layout.attributes[at];
    let field = match kind {
        1 => &mut attribute[16..48],
        2 => &mut attribute[80..336],
        4 => &mut attribute[16..80],
        _ => &mut attribute[8..],
    };
    let last = field.len() - 1;
    match rng.below(4) {
        0 => {
            field.fill(b'/');
            field[last] = rng.pick(&[0, 1, 127]);
        }
        1 => field.fill(b'/'),
        2 => {
            field.fill(b'/');
            let zero = rng.below(field.len());
            field[zero] = 0;
            let odd = rng.below(field.len());
            field[odd] = rng.pick(&[0, 1, 127, 128, 255]);
        }
        _ => {
            let odd = rng.below(field.len());
            field[odd] = rng.pick(&[0, 1, 127, 128, 255]);
        }
    }
    with_spare(rng, &layout)
}

/// Changes one number after the header.
fn nudge(rng: &mut Rng, attribute: &mut [u8]) {
    if attribute.len() < 16 {
        return;
    }
    let width = rng.pick(&[2, 4, 8, 8]);
    let at = 8 + rng.below((attribute.len() - 8) / width) * width;
    let member = &mut attribute[at..at + width];
    let mut number = [0; 8];
    number[..width].copy_from_slice(member);
    let old = u64::from_le_bytes(number);
    let step = rng.pick(&[1, 2, 8, 256, 4095, 4096, 1 << 16, 1 << 32]);
    let new = match rng.below(4) {
        0 => old.wrapping_add(step),
        1 => old.wrapping_sub(step),
        2 => old ^ step,
        _ => rng.pick(&[0, 1, 4096, 1 << 32, 1 << 63, u64::MAX - 4095, u64::MAX]),
    };
    member.copy_from_slice(&new.to_le_bytes()[..width]);
}

/// A context of which only a part is lent.
pub fn cut(rng: &mut Rng) -> Start {
    let foreign = rng.chance(50);
    let layout = good_layout(rng, foreign);
    let used = layout.used();
    let length = match rng.below(3) {
        0 => rng.below(used + 1),
        1 => {
            // About the start of an attribute.
            let at = rng.below(layout.attributes.len());
            layout.start_of(at) + rng.below(10)
        }
        _ => used - rng.below(10),
    };
    cut_at(rng, layout.bytes(), length)
}

/// A context with a single byte changed.
pub fn byte(rng: &mut Rng) -> Start {
    let foreign = rng.chance(50);
    let layout = good_layout(rng, foreign);
    let mut start = with_spare(rng, &layout);
    let bytes = &mut start.buffer.bytes;
    let at = match rng.below(3) {
        0 => rng.below(8),
        1 => layout.start_of(rng.below(layout.attributes.len())) + rng.below(32),
        _ => rng.below(layout.used()),
    };
    if let Some(byte) = bytes.get_mut(at) {
        *byte = match rng.below(3) {
            0 => *byte ^ (1 << rng.below(8)),
            1 => rng.pick(&[0, 1, 127, 128, 255]),
            _ => rng.word() as u8,
        };
    }
    start
}

/// Lists about a count of 256, where the count takes its second byte, and of 1,024.
pub fn many(rng: &mut Rng) -> Start {
    let count = rng.pick(&[
        254, 255, 256, 257, 511, 512, 1022, 1023, 1023, 1024, 1024, 1024,
    ]);
    let count = if rng.chance(15) { 1025 } else { count };
    let mut types = types(rng, false);
    let free = count - types.len();
    let first = types.len();
    match rng.below(8) {
        0 => {
            // All types different; perhaps the last one occurred before.
            types.extend((0..free).map(|i| 7 + i as u32));
            if rng.chance(50) {
                types[count - 1] = 7 + rng.below(free - 1) as u32;
            }
        }
        1 | 2 => {
            // A few runs, perhaps with one type in two of them.
            let runs = 2 + rng.below(5);
            types.extend((0..free).map(|i| 7 + (i * runs / free) as u32));
            if rng.chance(30) {
                types[count - 1] = 7;
            }
        }
        _ => types.extend(vec![7; free]),
    }
    if rng.chance(50) {
        // What is not of a type from 7 up comes last.
        types[2..].rotate_left(first - 2);
    }
    let mut layout = Layout::of(
        &types
            .iter()
            .map(|kind| match kind {
                1..=6 => Record::good(rng, *kind),
                _ => Record::Other(*kind, 8),
            })
            .collect::<Vec<_>>(),
    );
    if rng.chance(20) {
        layout.make_foreign(rng);
    }
    if rng.chance(10) {
        let at = rng.below(count);
        match rng.chance(50) {
            true => nudge(rng, &mut layout.attributes[at]),
            false => set_near_size(rng, &mut layout, at),
        }
    }
    with_spare(rng, &layout)
}

/// Types of attributes that only fill.
const FILLER: u32 = 1 << 20;
const AFTER: u32 = FILLER + 1;

/// Buffers about 65,536 bytes and longer: contexts that end there, or pass it, or leave
/// just enough room for one more attribute.
pub fn large(rng: &mut Rng) -> Start {
    let foreign = rng.chance(50);
    let mut layout = good_layout(rng, foreign);
    let one_more = rng.pick(&[96, 96, 32, 32, 8, 56, 16, 24]);
    let end = match rng.below(8) {
        0..=2 => ROOM,
        3 => ROOM + rng.pick(&[8, 16, 400]),
        4 => ROOM - 8,
        5 => ROOM - one_more,
        6 => ROOM - one_more + 8,
        _ => ROOM - one_more - 8,
    };
    prolong(rng, &mut layout, end);
    if rng.chance(15) {
        // One more attribute, which lies past the end.
        layout.set_count(layout.attributes.len() as u32 + 1);
    }
    // After the end there are good attributes, for a reader that goes too far.
    let lengths = [
        65_528, 65_535, ROOM, ROOM, 65_537, 65_544, 66_000, 70_000, 70_000,
    ];
    let length = rng.pick(&lengths);
    let mut bytes = layout.bytes();
    while bytes.len() < length + 64 {
        bytes.extend(Record::Other(AFTER, 8).attribute());
    }
    cut_at(rng, bytes, length)
}

/// A context that has room for so many modules after it, or not quite. Those that it has
/// mostly come last, so that more may follow. Now and then it has about 1,024 attributes, or
/// its room ends at 65,536.
pub fn for_modules(rng: &mut Rng, count: usize) -> Vec<u8> {
    let foreign = rng.chance(40);
    let mut types = types(rng, foreign);
    if rng.chance(85) {
        types.sort_by_key(|kind| *kind == 4);
    }
    let mut layout = Layout::of(&good_records(rng, &types));
    if foreign {
        layout.make_foreign(rng);
    }
    let mut spare = room_for_modules(rng, count);
    match rng.below(150) {
        0..=4 => {
            // The list is full before the modules end, or just then.
            let attributes = COUNT - rng.below(count + 1) - layout.attributes.len();
            fill_after_kernel(&mut layout, vec![8; attributes]);
        }
        5..=7 => {
            // The room ends there, and the buffer goes on or not.
            let filler = ROOM - layout.used() - spare;
            fill_after_kernel(&mut layout, vec![filler.next_multiple_of(8)]);
            spare = ROOM - layout.used() + rng.pick(&[0, 0, 1, 8, 96, 3_000]);
        }
        _ => {}
    }
    let mut bytes = layout.bytes();
    bytes.extend(junk(rng, spare));
    bytes
}

/// Room for that many modules or fewer, to the byte, or a little more or less.
fn room_for_modules(rng: &mut Rng, count: usize) -> usize {
    let fewer = rng.below(count + 1);
    match rng.below(10) {
        0..=3 => 96 * count,
        4 | 5 => 96 * count + rng.below(200),
        6 => (96 * count).saturating_sub(1),
        7 => 96 * fewer,
        8 => 96 * fewer + 95,
        _ => 96 * fewer + rng.below(96),
    }
}

/// Puts attributes of these sizes, and of a type of their own, where no run is broken by them.
fn fill_after_kernel(layout: &mut Layout, sizes: Vec<usize>) {
    let fillers = sizes.into_iter().map(|size| Record::Other(FILLER, size));
    let fillers = fillers.map(|filler| filler.attribute());
    layout.attributes.splice(2..2, fillers);
    layout.recount();
}

/// Makes a context `end` bytes long: by a long map, a long line or many modules where one
/// may stand, and for what is left by an attribute of a type of its own.
fn prolong(rng: &mut Rng, layout: &mut Layout, end: usize) {
    let has = |kind| layout.attributes.iter().any(|a| kind_of(a) == kind);
    let (map, line, module) = (has(3), has(5), has(4));
    let last = layout.attributes.last().map(|a| kind_of(a));
    let left = end - layout.used() - rng.pick(&[0, 8, 16]);
    let more = match rng.below(6) {
        0 if !map => vec![Record::map_of(rng, (left - 8) / 24)],
        1 if !line => vec![Record::line_of(rng, left - 9)],
        2 if !module || last == Some(4) => (0..left / 96).map(|_| Record::good(rng, 4)).collect(),
        _ => Vec::new(),
    };
    layout.attributes.extend(more.iter().map(Record::attribute));
    let rest = end - layout.used();
    if rest > 0 {
        let filler = Record::Other(FILLER, rest);
        layout.attributes.push(filler.attribute());
    }
    layout.recount();
}
