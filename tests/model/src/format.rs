//! The numbers of the format, access to little-endian members, and answers.

/// "Room is the smaller of the buffer's length and 65,536."
pub const ROOM_LIMIT: usize = 65_536;
/// Major u8, minor u8, reserved u16, attribute count u32.
pub const HEAD_SIZE: usize = 8;
/// Type u32 and size u32, which every attribute begins with.
pub const HEADER_SIZE: usize = 8;
/// A context has 2 to 1,024 attributes.
pub const COUNT_LEAST: u32 = 2;
pub const COUNT_LIMIT: u32 = 1_024;

pub const PLATFORM: u32 = 1;
pub const KERNEL: u32 = 2;
pub const MAP: u32 = 3;
pub const MODULE: u32 = 4;
pub const COMMAND_LINE: u32 = 5;
pub const FRAMEBUFFER: u32 = 6;

pub const PLATFORM_LEAST: usize = 56;
pub const PLATFORM_WRITTEN: usize = 88;
pub const KERNEL_SIZE: usize = 336;
pub const MODULE_SIZE: usize = 96;
pub const COMMAND_LINE_LEAST: usize = 16;
pub const FRAMEBUFFER_SIZE: usize = 32;
pub const ENTRY_SIZE: usize = 24;

pub const NAME_WIDTH: usize = 32;
pub const PATH_WIDTH: usize = 256;
pub const MODULE_NAME_WIDTH: usize = 64;
pub const GUID_SIZE: usize = 16;
pub const PAGE: u64 = 4_096;

/// The numbers a call can give back, besides 0 for success.
#[derive(Clone, Copy, Debug, PartialEq, Eq)]
#[repr(u8)]
pub enum Number {
    Short = 1,
    Version,
    Count,
    Missing,
    Header,
    Size,
    Overrun,
    Type,
    Place,
    Repeat,
    Split,
    Form,
    Value,
    Text,
    Range,
    Order,
    Full,
    Room,
    Absent,
    // "New numbers .. join document 01's table": those of request R-2.
    Magic,
    Payload,
    String,
    End,
}

/// "Otherwise a number and an offset; the buffer and all lent memory are unchanged."
#[derive(Clone, Copy, Debug, PartialEq, Eq)]
pub struct Refusal {
    pub number: Number,
    pub offset: u32,
}

impl Number {
    /// This number with the offset it is given at. Every offset is that of a byte in
    /// the room, or a cursor's of 32 bits.
    pub fn at(self, offset: usize) -> Refusal {
        Refusal {
            number: self,
            offset: offset as u32,
        }
    }
}

/// The value of a success (used length, entry count, start), or a refusal.
pub type Answer = Result<usize, Refusal>;

/// "Toward C an answer is the single number (refusal number × 2^32) + value".
pub fn pack(answer: Answer) -> u64 {
    match answer {
        Ok(value) => value as u64,
        Err(refusal) => (refusal.number as u64) << 32 | u64::from(refusal.offset),
    }
}

/// The refusal `number` unless `condition` holds.
pub fn ensure(condition: bool, number: Number) -> Result<(), Number> {
    if condition {
        Ok(())
    } else {
        Err(number)
    }
}

/// The bytes that count: nothing past the room is ever looked at or written.
pub fn room(buf: &[u8]) -> &[u8] {
    &buf[..buf.len().min(ROOM_LIMIT)]
}

pub fn u16_at(bytes: &[u8], at: usize) -> u16 {
    u16::from_le_bytes(bytes[at..at + 2].try_into().unwrap())
}

pub fn u32_at(bytes: &[u8], at: usize) -> u32 {
    u32::from_le_bytes(bytes[at..at + 4].try_into().unwrap())
}

pub fn u64_at(bytes: &[u8], at: usize) -> u64 {
    u64::from_le_bytes(bytes[at..at + 8].try_into().unwrap())
}

/// Copies `value` over the bytes from `at` on.
pub fn put(bytes: &mut [u8], at: usize, value: &[u8]) {
    bytes[at..at + value.len()].copy_from_slice(value);
}
