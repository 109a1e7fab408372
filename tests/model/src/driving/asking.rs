//! Reading, stepping, the questions, the listing and exporting: the calls that leave the buffer.

use std::ops::Range;

use crate::driving::table::*;
use crate::driving::Answer;
use crate::format::Number::Room;
use crate::format::{
    self, put, COUNT_LEAST, FRAMEBUFFER, GUID_SIZE, HEADER_SIZE, KERNEL, MAP, MODULE,
    MODULE_NAME_WIDTH, NAME_WIDTH, PATH_WIDTH, PLATFORM,
};
use crate::listing::listing;
use crate::questions;
use crate::reading::{self, Attribute};
use crate::records::{CommandLine, Framebuffer, Kernel, Module, Platform};
use crate::requests::default_line;
use crate::requests::export::export;
use crate::stepping::Cursor;

/// Makes the call of this number.
pub fn answer(buf: &[u8], call: u32, numbers: &[u64], strings: &[&[u8]]) -> Answer {
    match call {
        READ => read(buf),
        FIRST => first(),
        STEP => step(buf, numbers[0] as u32, numbers[1] as u32),
        ATTRIBUTE => attribute(buf, numbers[0]),
        ATTRIBUTE_START => {
            let found = questions::attribute(buf, numbers[0]);
            Answer::new(found.map(|attribute| attribute.start), &[])
        }
        ATTRIBUTE_PART => {
            let found = questions::attribute(buf, numbers[0]);
            handed_back(buf, found.map_or(0..0, |attribute| part(&attribute)))
        }
        COPY_MAP => copied(buf, &strings[0][..strings[0].len() / 8 * 8]),
        COPY_MAP_BYTES => copied(buf, strings[0]),
        COMMAND_LINE => {
            let text = default_line::command_line(buf, strings[0]);
            Answer::new(Ok(0), &line(buf)).with(vec![text.to_vec()])
        }
        COMMAND_LINE_PART => Answer::new(Ok(0), &line(buf)),
        MODULE_HOLDING => Answer::new(questions::module_holding(buf, numbers[0]), &[]),
        LIST => list(buf, strings[0]),
        EXPORT => exported(buf, numbers[0], strings[0]),
        _ => Answer::new(Ok(listing(buf).len()), &[]),
    }
}

/// The version is told of an accepted buffer alone.
fn read(buf: &[u8]) -> Answer {
    let used = reading::read(buf, COUNT_LEAST).map(|outline| outline.used);
    let version = match used {
        Ok(_) => [buf[0].into(), buf[1].into()],
        Err(_) => [0, 0],
    };
    Answer::new(used, &version)
}

fn first() -> Answer {
    let Cursor { index, offset } = Cursor::FIRST;
    Answer {
        lent: false,
        ..Answer::new(Ok(0), &[index.into(), offset.into()])
    }
}

fn step(buf: &[u8], index: u32, offset: u32) -> Answer {
    match (Cursor { index, offset }).step(buf) {
        Err(refusal) => Answer::new(Err(refusal), &[0; 6]),
        Ok(None) => Answer::new(Ok(0), &[0; 6]),
        Ok(Some((attribute, next))) => {
            let [kind, start, size] = place(&attribute);
            let next = [next.index.into(), next.offset.into()];
            let numbers = [1, kind, start, size, next[0], next[1]];
            Answer::new(Ok(next[1] as usize), &numbers)
        }
    }
}

/// Type, start and size.
fn place(attribute: &Attribute) -> [u64; 3] {
    let size = attribute.bytes.len() as u64;
    [attribute.kind.into(), attribute.start as u64, size]
}

/// Where the entries of a map or the text of a command line lie; nowhere for other types.
fn part(attribute: &Attribute) -> Range<usize> {
    let body = attribute.start + HEADER_SIZE;
    match attribute.kind {
        MAP => body..attribute.end(),
        format::COMMAND_LINE => {
            let line = CommandLine::parse(attribute.bytes).ok();
            let text = line.and_then(|line| line.text).unwrap_or_default();
            body..body + text.len()
        }
        _ => 0..0,
    }
}

/// Where a part starts, and how long it is.
fn extent(part: &Range<usize>) -> [u64; 2] {
    [part.start as u64, part.len() as u64]
}

/// Where the context's own line lies; "start and length are 0" if there is none, also where the
/// board's text is handed back.
fn line(buf: &[u8]) -> [u64; 2] {
    extent(&questions::command_line(buf).unwrap_or(0..0))
}

/// A part: where it is, how long, and its bytes.
fn handed_back(buf: &[u8], part: Range<usize>) -> Answer {
    Answer::new(Ok(0), &extent(&part)).with(vec![buf[part].to_vec()])
}

fn copied(buf: &[u8], out: &[u8]) -> Answer {
    let mut out = out.to_vec();
    let answer = questions::copy_map(buf, &mut out);
    Answer::new(answer, &[]).with(vec![out])
}

fn exported(buf: &[u8], load: u64, out: &[u8]) -> Answer {
    let mut out = out.to_vec();
    let answer = export(buf, load, &mut out);
    Answer::new(answer, &[]).with(vec![out])
}

/// An output that is too short is 18 with offset 0, and stays.
fn list(buf: &[u8], out: &[u8]) -> Answer {
    let lines = listing(buf);
    let mut out = out.to_vec();
    if out.len() < lines.len() {
        return Answer::new(Err(Room.at(0)), &[]).with(vec![out]);
    }
    put(&mut out, 0, &lines);
    Answer::new(Ok(lines.len()), &[]).with(vec![out])
}

/// The 29 numbers of an attribute and its five strings; those of other types are 0.
fn attribute(buf: &[u8], index: u64) -> Answer {
    let found = questions::attribute(buf, index);
    let mut members = Members::default();
    if let Ok(attribute) = &found {
        members.fill(attribute);
    }
    Answer::new(found.map(|attribute| attribute.start), &members.numbers()).with(members.strings())
}

#[derive(Default)]
struct Members {
    place: [u64; 3],
    part: [u64; 2],
    platform: [u64; 9],
    kernel: [u64; 6],
    module: [u64; 3],
    framebuffer: [u64; 6],
    name: Vec<u8>,
    disk_guid: Vec<u8>,
    partition_guid: Vec<u8>,
    path: Vec<u8>,
    module_name: Vec<u8>,
}

impl Members {
    /// Takes the members of an attribute that reading accepted.
    fn fill(&mut self, attribute: &Attribute) {
        let bytes = attribute.bytes;
        let part = part(attribute);
        self.place = place(attribute);
        self.part = extent(&part);
        match attribute.kind {
            PLATFORM => Platform::parse(bytes).map(|record| self.fill_platform(&record)),
            KERNEL => Kernel::parse(bytes).map(|record| self.fill_kernel(&record)),
            MODULE => Module::parse(bytes).map(|record| self.fill_module(&record)),
            FRAMEBUFFER => Framebuffer::parse(bytes).map(|record| self.fill_framebuffer(&record)),
            _ => Ok(()),
        }
        .expect("reading accepted the attribute");
    }

    fn fill_platform(&mut self, record: &Platform) {
        let late = [
            record.higher_half_base,
            record.depth.map(u64::from),
            record.dtb,
            record.smbios,
        ];
        let bits = late.iter().enumerate();
        let present = bits.map(|(bit, member)| u64::from(member.is_some()) << bit);
        self.platform = [
            record.kind.into(),
            record.loader_major.into(),
            record.loader_minor.into(),
            record.rsdp,
            present.sum(),
            late[0].unwrap_or(0),
            late[1].unwrap_or(0),
            late[2].unwrap_or(0),
            late[3].unwrap_or(0),
        ];
        self.name = record.name.unwrap_or_default().to_vec();
    }

    fn fill_kernel(&mut self, record: &Kernel) {
        self.kernel = [
            record.physical_base,
            record.virtual_base,
            record.size,
            record.partition_type,
            record.disk_index.into(),
            record.partition_index.into(),
        ];
        self.disk_guid = record.disk_guid.to_vec();
        self.partition_guid = record.partition_guid.to_vec();
        self.path = record.path.unwrap_or_default().to_vec();
    }

    fn fill_module(&mut self, record: &Module) {
        self.module = [record.kind.into(), record.address, record.size];
        self.module_name = record.name.unwrap_or_default().to_vec();
    }

    fn fill_framebuffer(&mut self, record: &Framebuffer) {
        self.framebuffer = [
            record.width.into(),
            record.height.into(),
            record.pitch.into(),
            record.bpp.into(),
            record.format.into(),
            record.address,
        ];
    }

    fn numbers(&self) -> Vec<u64> {
        [
            &self.place[..],
            &self.part,
            &self.platform,
            &self.kernel,
            &self.module,
            &self.framebuffer,
        ]
        .concat()
    }

    /// Arrays of their widths, with zeros after a text.
    fn strings(self) -> Vec<Vec<u8>> {
        [
            (self.name, NAME_WIDTH),
            (self.disk_guid, GUID_SIZE),
            (self.partition_guid, GUID_SIZE),
            (self.path, PATH_WIDTH),
            (self.module_name, MODULE_NAME_WIDTH),
        ]
        .map(|(mut string, width)| {
            string.resize(width, 0);
            string
        })
        .to_vec()
    }
}
