//! R-2, Handover payloads, read and written: "A buyer's kernel takes the Handover payload of
//! source document 002: a 16-byte head (magic 0xc001b001, agent, size, count), records of 32
//! bytes, then the string table."
//!
//! What the request leaves open is settled in docs/DECISIONS.md, R2.1 to R2.21.

use std::ops::Range;

use crate::format::{put, room, u32_at, u64_at, Answer, Number, Refusal, COUNT_LIMIT};
use crate::records::end;

/// 002: "Magic value (0xc001b001)".
pub const MAGIC: u32 = 0xC001_B001;
/// Magic, agent, size and count, 4 bytes each.
pub const HEAD_SIZE: usize = 16;
pub const RECORD_SIZE: usize = 32;

/// The tags that a rule names. "Unknown tags and flags pass", and so do 002's other tags.
pub const FILE: u32 = 0xCBC3_6D3B;
pub const CMDLINE: u32 = 0x4351_40C4;
pub const END: u32 = 0xFFFF_FFFF;

/// Where the record at an index starts.
pub fn record_start(index: usize) -> usize {
    HEAD_SIZE + RECORD_SIZE * index
}

/// "records of 32 bytes": all of them, as six numbers. The last two are the words at 24 and 28,
/// whatever the tag makes of them.
#[derive(Clone, Copy, Debug, PartialEq, Eq)]
pub struct Record {
    pub tag: u32,
    pub flags: u32,
    pub start: u64,
    pub size: u64,
    pub name: u32,
    pub meta: u32,
}

impl Record {
    /// The record that these 32 bytes are.
    pub fn of(bytes: &[u8]) -> Record {
        Record {
            tag: u32_at(bytes, 0),
            flags: u32_at(bytes, 4),
            start: u64_at(bytes, 8),
            size: u64_at(bytes, 16),
            name: u32_at(bytes, 24),
            meta: u32_at(bytes, 28),
        }
    }

    /// "Strings named .. by a file's name and meta and by a command line's meta"
    pub fn names_by_name(&self) -> bool {
        self.tag == FILE
    }

    pub fn names_by_meta(&self) -> bool {
        self.tag == FILE || self.tag == CMDLINE
    }

    /// "The last record, and no other, has the end tag 0xffffffff."
    pub fn end_is_wrong(&self, index: usize, count: usize) -> bool {
        let is_last = index == count - 1;
        (self.tag == END) != is_last
    }

    /// "no record's range passes 2^64"
    pub fn range_is_wrong(&self) -> bool {
        end(self.start, self.size) > 1 << 64
    }
}

/// "3 for a count of 0 or above 1,024"
pub fn count_is_wrong(count: usize) -> bool {
    count == 0 || count > COUNT_LIMIT as usize
}

// ---- Reading ----

/// A payload that reading accepted, as a list of records. A string is told by where it lies in
/// the buffer, without its closing zero.
#[derive(Clone, Debug, PartialEq, Eq)]
pub struct Payload {
    /// "with the payload's size as used length"
    pub size: usize,
    /// The agent's offset in the table, and its string.
    pub agent: u32,
    pub agent_name: Range<usize>,
    pub records: Vec<Listed>,
}

/// A record of a payload with its strings. One that the record does not name is empty, at the
/// start of the buffer.
#[derive(Clone, Debug, PartialEq, Eq)]
pub struct Listed {
    pub record: Record,
    pub name: Range<usize>,
    pub meta: Range<usize>,
}

/// Reads a payload: "Refusals, in order". "Offsets are the record's start, else 0."
pub fn read(buf: &[u8]) -> Result<Payload, Refusal> {
    let room = room(buf);
    // "1 for room below 16"
    if room.len() < HEAD_SIZE {
        return Err(Number::Short.at(0));
    }
    // "20 for the magic"
    if u32_at(room, 0) != MAGIC {
        return Err(Number::Magic.at(0));
    }
    let agent = u32_at(room, 4);
    let size = u32_at(room, 8) as usize;
    let count = u32_at(room, 12) as usize;
    if count_is_wrong(count) {
        return Err(Number::Count.at(0));
    }
    // "21 if size is below 16 + 32 × count or above the room"
    let table = record_start(count);
    if size < table || size > room.len() {
        return Err(Number::Payload.at(0));
    }
    let payload = &room[..size];
    let records = payload[HEAD_SIZE..table].chunks_exact(RECORD_SIZE);
    let records: Vec<Record> = records.map(Record::of).collect();
    // "then per record 23 for a misplaced or missing end, 15"
    for (index, record) in records.iter().enumerate() {
        let start = record_start(index);
        if record.end_is_wrong(index, count) {
            return Err(Number::End.at(start));
        }
        if record.range_is_wrong() {
            return Err(Number::Range.at(start));
        }
    }
    // "last 22 for a string, agent first, then in record order"
    let string =
        |offset: u32, at: usize| string_at(payload, table, offset).ok_or(Number::String.at(at));
    let agent_name = string(agent, 0)?;
    let mut listed = Vec::new();
    for (index, record) in records.into_iter().enumerate() {
        let start = record_start(index);
        let mut strings = Listed {
            record,
            name: 0..0,
            meta: 0..0,
        };
        if record.names_by_name() {
            strings.name = string(record.name, start)?;
        }
        if record.names_by_meta() {
            strings.meta = string(record.meta, start)?;
        }
        listed.push(strings);
    }
    Ok(Payload {
        size,
        agent,
        agent_name,
        records: listed,
    })
}

/// Where the string at an offset of the table lies, which "must start inside the table and
/// close there". 002: the offset is "within the string table".
pub fn string_at(payload: &[u8], table: usize, offset: u32) -> Option<Range<usize>> {
    let start = table + offset as usize;
    let rest = payload.get(start..)?;
    let length = rest.iter().position(|&byte| byte == 0)?;
    Some(start..start + length)
}

/// The record at an index, with the payload's size; "3 with the used length from the count on".
pub fn record_at(buf: &[u8], index: u64) -> Result<(usize, Listed), Refusal> {
    let Payload {
        size, mut records, ..
    } = read(buf)?;
    if index >= records.len() as u64 {
        return Err(Number::Count.at(size));
    }
    Ok((size, records.swap_remove(index as usize)))
}

// ---- Writing ----

/// Which two of the numbers lent are a string's start and length: "first the agent's, then for
/// each record its name's and its meta's".
pub const AGENT_PART: usize = 0;

pub fn name_part(index: usize) -> usize {
    2 + 4 * index
}

pub fn meta_part(index: usize) -> usize {
    4 + 4 * index
}

/// Writes a payload of the whole records that are lent. "Writing tries 3, 23, 15, then 22 ..,
/// then 18, each over all records before the next, all at offset 0."
pub fn write(buf: &mut [u8], records: &[u8], parts: &[u64], run: &[u8]) -> Answer {
    let given: Vec<&[u8]> = records.chunks_exact(RECORD_SIZE).collect();
    let count = given.len();
    let records: Vec<Record> = given.iter().map(|bytes| Record::of(bytes)).collect();
    if count_is_wrong(count) {
        return Err(Number::Count.at(0));
    }
    let mut each = records.iter().enumerate();
    if each.any(|(index, record)| record.end_is_wrong(index, count)) {
        return Err(Number::End.at(0));
    }
    if records.iter().any(Record::range_is_wrong) {
        return Err(Number::Range.at(0));
    }
    // "agent string first, then each record's strings in order"
    let lent = |at: usize| lent_string(run, parts, at).ok_or(Number::String.at(0));
    let mut strings = vec![lent(AGENT_PART)?];
    for (index, record) in records.iter().enumerate() {
        if record.names_by_name() {
            strings.push(lent(name_part(index))?);
        }
        if record.names_by_meta() {
            strings.push(lent(meta_part(index))?);
        }
    }
    // "none shared, no padding": each has its bytes and its closing zero.
    let lengths = strings.iter().map(|string| string.len() + 1);
    let size = record_start(count) + lengths.sum::<usize>();
    if size > room(buf).len() {
        return Err(Number::Room.at(0));
    }
    // "bytes past the size stay"
    put(buf, 0, &written(size, &given, &strings));
    Ok(size)
}

/// The string by its start and length; none where these are not both lent, or it is one that
/// "holds a zero byte or passes the run".
fn lent_string<'a>(run: &'a [u8], parts: &[u64], at: usize) -> Option<&'a [u8]> {
    let start = *parts.get(at)?;
    let length = *parts.get(at + 1)?;
    if end(start, length) > run.len() as u128 {
        return None;
    }
    let string = &run[start as usize..][..length as usize];
    (!string.contains(&0)).then_some(string)
}

/// The bytes of the payload: "each record as given, its strings' offsets set". The strings are
/// all that are named, in order.
fn written(size: usize, records: &[&[u8]], strings: &[&[u8]]) -> Vec<u8> {
    let mut table = Vec::new();
    let mut offsets = Vec::new();
    for string in strings {
        offsets.push(table.len() as u32);
        table.extend(*string);
        table.push(0);
    }
    let mut offsets = offsets.into_iter();
    let mut next = || offsets.next().expect("one for each that is named");

    let head = [MAGIC, next(), size as u32, records.len() as u32];
    let mut bytes = head.map(u32::to_le_bytes).concat();
    for given in records {
        let record = Record::of(given);
        let mut given = given.to_vec();
        if record.names_by_name() {
            put(&mut given, 24, &next().to_le_bytes());
        }
        if record.names_by_meta() {
            put(&mut given, 28, &next().to_le_bytes());
        }
        bytes.extend(given);
    }
    bytes.extend(table);
    bytes
}
