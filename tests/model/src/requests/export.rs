//! R-6, From Ultra to Handover: "The same buyer keeps our loader. Export an accepted context to a
//! payload whose load address the caller gives".
//!
//! What the request leaves open is settled in docs/DECISIONS.md, R6.1 to R6.14.

use crate::format::Number::{self, Count, Range, Room};
use crate::format::{
    ensure, put, room, u64_at, Answer, Refusal, COUNT_LEAST, COUNT_LIMIT, ENTRY_SIZE, MODULE,
};
use crate::reading::{attributes, read, Outline};
use crate::records::{end, Module, Platform};
use crate::requests::handover::{record_start, CMDLINE, END, FILE, MAGIC};

/// The tags of 002 that are exported, besides those that a rule of reading names.
pub const FREE: u32 = 0x0000_0000;
pub const SELF: u32 = 0xA24F_988D;
pub const STACK: u32 = 0xF65B_391B;
pub const KERNEL: u32 = 0xBFC7_1B20;
pub const LOADER: u32 = 0xF1F8_0C26;
pub const RSDP: u32 = 0x8EF2_9C18;
pub const RESERVED: u32 = 0xB884_1D2D;

/// "RSDP with size 20"
pub const RSDP_SIZE: u64 = 20;

/// "1 as FREE, 0xFFFF0001 as LOADER, 0xFFFF0003 as STACK, 0xFFFF0004 as KERNEL, all else
/// RESERVED". A type has 64 bits.
pub fn tag_of(kind: u64) -> u32 {
    match kind {
        1 => FREE,
        0xFFFF_0001 => LOADER,
        0xFFFF_0003 => STACK,
        0xFFFF_0004 => KERNEL,
        _ => RESERVED,
    }
}

/// A record of the list, with the strings that it names. "Fields not named are 0."
#[derive(Clone, Copy, Debug, PartialEq, Eq)]
pub struct Item<'a> {
    pub tag: u32,
    pub start: u64,
    pub size: u64,
    pub name: Option<&'a [u8]>,
    pub meta: Option<&'a [u8]>,
}

impl<'a> Item<'a> {
    fn of(tag: u32, start: u64, size: u64) -> Item<'a> {
        Item {
            tag,
            start,
            size,
            name: None,
            meta: None,
        }
    }

    fn passes_the_top(&self) -> bool {
        end(self.start, self.size) > 1 << 64
    }
}

/// The list that a context is exported as.
#[derive(Clone, Debug, PartialEq, Eq)]
pub struct List<'a> {
    /// "The agent is the loader's name."
    pub agent: &'a [u8],
    pub items: Vec<Item<'a>>,
}

impl<'a> List<'a> {
    /// The list of a context that reading accepts, in the request's order whatever the context's
    /// is; otherwise the reader's refusal. How long it may be is not asked here.
    pub fn of(buf: &'a [u8], load: u64) -> Result<List<'a>, Refusal> {
        let outline = read(buf, COUNT_LEAST)?;
        let platform = platform(buf, &outline);
        let mut items = vec![Item::of(SELF, load, 0)];
        items.extend(ranges(buf, &outline));
        items.extend(files(buf, &outline));
        items.extend(outline.command_line.map(|line| Item {
            meta: Some(&buf[line]),
            ..Item::of(CMDLINE, 0, 0)
        }));
        // "if that address isn't 0"
        let rsdp = Some(platform.rsdp).filter(|&address| address != 0);
        items.extend(rsdp.map(|address| Item::of(RSDP, address, RSDP_SIZE)));
        items.push(Item::of(END, 0, 0));
        let agent = platform.name.unwrap_or_default();
        let mut list = List { agent, items };
        // "a SELF record of that address and the payload's size"
        list.items[0].size = list.size() as u64;
        Ok(list)
    }

    /// The strings as R-2 writes them: "agent string first, then each record's strings in order".
    pub fn strings(&self) -> impl Iterator<Item = &'a [u8]> + '_ {
        let named = self.items.iter().flat_map(|item| [item.name, item.meta]);
        [self.agent].into_iter().chain(named.flatten())
    }

    /// The payload's size: "none shared, no padding", each string with its closing zero.
    pub fn size(&self) -> usize {
        let table = self.strings().map(|string| string.len() + 1).sum::<usize>();
        record_start(self.items.len()) + table
    }

    /// "in order: .. 3 for more than 1,024 records; 15 if load address plus payload size, or a
    /// nonzero RSDP address plus 20, passes 2^64; 18". The size is the true one, whatever the room.
    fn check(&self, room: usize) -> Result<(), Number> {
        ensure(self.items.len() <= COUNT_LIMIT as usize, Count)?;
        let mut asked = self.items.iter().filter(|i| matches!(i.tag, SELF | RSDP));
        ensure(!asked.any(Item::passes_the_top), Range)?;
        ensure(self.size() <= room, Room)
    }

    /// The payload's bytes, in R-2's written form.
    fn bytes(&self) -> Vec<u8> {
        let mut table = Vec::new();
        let mut offset = |string: Option<&[u8]>| {
            let at = table.len() as u32;
            string.map_or(0, |string| {
                table.extend(string);
                table.push(0);
                at
            })
        };
        let agent = offset(Some(self.agent));
        let mut records = Vec::new();
        for item in &self.items {
            let words = [offset(item.name), offset(item.meta)];
            records.extend([item.tag, 0].map(u32::to_le_bytes).concat());
            records.extend([item.start, item.size].map(u64::to_le_bytes).concat());
            records.extend(words.map(u32::to_le_bytes).concat());
        }
        let (size, count) = (self.size() as u32, self.items.len() as u32);
        let head = [MAGIC, agent, size, count].map(u32::to_le_bytes).concat();
        [head, records, table].concat()
    }
}

/// The first attribute, which reading accepted as a platform.
fn platform<'a>(buf: &'a [u8], outline: &Outline) -> Platform<'a> {
    let first = attributes(buf, outline).next();
    let platform = first.and_then(|attribute| Platform::parse(attribute.bytes).ok());
    platform.expect("reading accepted the context")
}

/// "the map's ranges in order": every one, also of size 0; none without a map.
fn ranges<'a>(buf: &'a [u8], outline: &Outline) -> impl Iterator<Item = Item<'a>> {
    let entries = outline.map.clone().map_or(&[][..], |entries| &buf[entries]);
    entries.chunks_exact(ENTRY_SIZE).map(|entry| {
        let tag = tag_of(u64_at(entry, 16));
        Item::of(tag, u64_at(entry, 0), u64_at(entry, 8))
    })
}

/// "a FILE for each module with its address, size and name and an empty meta"
fn files<'a>(buf: &'a [u8], outline: &Outline) -> impl Iterator<Item = Item<'a>> {
    let modules = attributes(buf, outline).filter(|attribute| attribute.kind == MODULE);
    let modules = modules.filter_map(|attribute| Module::parse(attribute.bytes).ok());
    modules.map(|module| Item {
        name: module.name,
        meta: Some(b""),
        ..Item::of(FILE, module.address, module.size)
    })
}

/// Exports the context to the output, of which the bytes past the payload's size stay, and all
/// bytes in a refusal. "success answers its size"; after the reader's, refusals have offset 0.
pub fn export(buf: &[u8], load: u64, out: &mut [u8]) -> Answer {
    let list = List::of(buf, load)?;
    let checked = list.check(room(out).len());
    checked.map_err(|number| number.at(0))?;
    put(out, 0, &list.bytes());
    Ok(list.size())
}
