//! Arguments that suit a buffer: about its offsets, counts, ranges and room.

use crate::generator::contexts::ROOM;
use crate::generator::records::{lend, Record, PAGE};
use crate::generator::rng::Rng;

use crate::generator::call::Call;

struct Header {
    start: usize,
    kind: u32,
    size: usize,
}

/// What the headers of a buffer say, as far as one follows another; nothing is judged.
pub struct View<'a> {
    bytes: &'a [u8],
    room: usize,
    pub count: u64,
    headers: Vec<Header>,
    end: usize,
}

fn u32_at(bytes: &[u8], at: usize) -> Option<u32> {
    let word = bytes.get(at..at + 4)?;
    Some(u32::from_le_bytes(word.try_into().unwrap()))
}

fn u64_at(bytes: &[u8], at: usize) -> u64 {
    match bytes.get(at..at + 8) {
        Some(number) => u64::from_le_bytes(number.try_into().unwrap()),
        None => 0,
    }
}

impl<'a> View<'a> {
    pub fn new(bytes: &'a [u8]) -> View<'a> {
        let count = u64::from(u32_at(bytes, 4).unwrap_or(0));
        let mut headers = Vec::new();
        let mut start = 8;
        while (headers.len() as u64) < count.min(1_100) {
            let (Some(kind), Some(size)) = (u32_at(bytes, start), u32_at(bytes, start + 4)) else {
                break;
            };
            let size = size as usize;
            if size < 8 || start + size > bytes.len() {
                break;
            }
            headers.push(Header { start, kind, size });
            start += size;
        }
        View {
            bytes,
            room: bytes.len().min(ROOM),
            count,
            headers,
            end: start,
        }
    }

    fn any_header(&self, rng: &mut Rng) -> Option<(usize, &Header)> {
        match self.headers.len() {
            0 => None,
            count => {
                let at = rng.below(count);
                Some((at, &self.headers[at]))
            }
        }
    }

    /// The bytes of the first command line, up to a zero or to the attribute's end.
    pub fn line(&self) -> Option<&'a [u8]> {
        let line = self.headers.iter().find(|header| header.kind == 5)?;
        let field = &self.bytes[line.start..][8..line.size];
        field.split(|&byte| byte == 0).next()
    }

    pub fn step(&self, rng: &mut Rng) -> Call {
        let header = self.any_header(rng);
        let (at, start, size) = match header {
            Some((at, header)) => (at as u32, header.start as u32, header.size as u32),
            None => (0, 8, 8),
        };
        if rng.chance(40) {
            return Call::Step {
                index: at,
                offset: start,
            };
        }
        let count = self.count as u32;
        let (room, end) = (self.room as u32, self.end as u32);
        let any = rng.word() as u32;
        let index = rng.pick(&[
            0,
            1,
            at,
            count.saturating_sub(1),
            count,
            count.wrapping_add(1),
            u32::MAX,
            any,
        ]);
        // A number in the room, aligned or not.
        let inside = rng.below(self.room + 16) as u32;
        let offset = rng.pick(&[
            0,
            4,
            7,
            8,
            9,
            12,
            16,
            start,
            start.wrapping_sub(8),
            start + 4,
            start + 8,
            start + size,
            end,
            end + 8,
            room.wrapping_sub(8),
            room.wrapping_sub(8) & !7,
            room.wrapping_sub(7),
            room & !7,
            room,
            room.next_multiple_of(8),
            room + 8,
            65_528,
            65_536,
            65_544,
            inside,
            inside & !7,
            inside & !7,
            1 << 31,
            u32::MAX - 7,
            u32::MAX,
            any,
        ]);
        Call::Step { index, offset }
    }

    pub fn attribute(&self, rng: &mut Rng) -> Call {
        let below = rng.below(self.count.clamp(1, 1_024) as usize) as u64;
        let any = rng.bits(64);
        let index = match rng.below(4) {
            0 | 1 => below,
            2 => rng.pick(&[
                self.count.saturating_sub(1),
                self.count,
                self.count,
                self.count + 1,
                1_023,
                1_024,
            ]),
            _ => rng.pick(&[
                below + (1 << 32),
                1 << 32,
                u64::from(u32::MAX),
                1 << 63 | below,
                u64::MAX,
                any,
            ]),
        };
        Call::Attribute { index }
    }

    pub fn copy_map(&self, rng: &mut Rng) -> Call {
        let need = match self.headers.iter().find(|header| header.kind == 3) {
            Some(map) => map.size - 8,
            None => 24 * rng.below(3),
        };
        let length = match rng.below(3) {
            0 => need,
            1 => {
                let less = rng.pick(&[1, 7, 8, 9, 16, 24]);
                need.saturating_sub(less)
            }
            _ => need + rng.pick(&[1, 7, 8, 24, 40]),
        };
        let length = match rng.below(1_000) {
            0..=99 => 0,
            // An output is not capped as the room is.
            100 => 65_536 + need,
            _ => length,
        };
        let bytes = rng.bytes(length);
        Call::CopyMap {
            out: lend(rng, bytes),
        }
    }

    pub fn module_holding(&self, rng: &mut Rng) -> Call {
        let modules: Vec<_> = self.headers.iter().filter(|h| h.kind == 4).collect();
        let any = rng.bits(64);
        if modules.is_empty() {
            return Call::ModuleHolding { address: any };
        }
        let module = modules[rng.below(modules.len())];
        let address = u64_at(self.bytes, module.start + 80);
        let size = u64_at(self.bytes, module.start + 88);
        let inside = address.wrapping_add(any.min(size));
        // Where the size ends and where its last page does; 2^64 is 0 here.
        let end = address.wrapping_add(size);
        let page_end = end.div_ceil(PAGE).wrapping_mul(PAGE);
        let in_tail = end.wrapping_add(any % page_end.wrapping_sub(end).max(1));
        // At an edge, one before it or one after it.
        let edge = rng.pick(&[address, end, page_end, 0]);
        let beside = edge.wrapping_sub(1).wrapping_add(rng.below(3) as u64);
        let address = rng.pick(&[beside, beside, beside, inside, in_tail, any]);
        Call::ModuleHolding { address }
    }

    /// A record for an add of a type from 1 to 6, good or with one or two faults. A map or a
    /// line is sometimes made for just the room that is left.
    pub fn add(&self, rng: &mut Rng, kind: u32) -> Call {
        let left = self.room.saturating_sub(self.end);
        let record = match kind {
            5 if self.fitted(rng, left) => {
                let about = left.saturating_sub(9) + 9;
                let length = about - rng.pick(&[0, 1, 8, 9, 9, 9, 10, 16, 17]).min(about);
                Record::line_of(rng, length)
            }
            3 if self.fitted(rng, left) => {
                let count = left.saturating_sub(8) / 24 + rng.below(2);
                Record::map_of(rng, count)
            }
            _ => {
                let spoilt = rng.pick(&[0, 0, 0, 0, 0, 0, 1, 1, 1, 2]);
                Record::new(rng, kind, spoilt)
            }
        };
        Call::adding(record).expect("types 1 to 6 are added")
    }

    fn fitted(&self, rng: &mut Rng, left: usize) -> bool {
        rng.chance(if left < 1_000 { 30 } else { 3 })
    }

    /// A line or a map of about as much as the room or more, good or with a fault at its
    /// end: 18, but the record's own numbers first.
    pub fn add_long(&self, rng: &mut Rng) -> Call {
        let odd = rng.chance(40);
        let mut record = match rng.chance(60) {
            true => {
                let length = rng.pick(&[65_000, 65_519, 65_520, 65_528, 65_536, 66_000]);
                Record::line_of(rng, length)
            }
            false => {
                let count = rng.pick(&[2_700, 2_712, 2_713, 2_730, 2_731, 2_800]);
                Record::map_of(rng, count)
            }
        };
        if let (true, Record::Line(given) | Record::Map(given)) = (odd, &mut record) {
            match rng.below(3) {
                // A byte no text has, or a type of 0.
                0 => {
                    let length = given.bytes.len();
                    given.bytes[length - 8..].fill(0);
                }
                1 => given.bytes.push(rng.pick(&[0, 127, 128, 255])),
                // An entry out of order.
                _ => given.bytes.extend([1; 24]),
            }
        }
        Call::adding(record).expect("lines and maps are added")
    }
}
