//! Reading: the head, then attribute by attribute, up to an outline of the whole.

use std::ops::Range;

use crate::format::Number::{
    Count, Header, Missing, Overrun, Place, Repeat, Short, Size, Split, Type, Version,
};
use crate::format::*;
use crate::records::{CommandLine, Framebuffer, Kernel, Map, Module, Platform};

/// Numbers 1 to 4, all with offset 0. Gives the room and the count; the count is at
/// least `least`.
pub fn head(buf: &[u8], least: u32) -> Result<(&[u8], u32), Refusal> {
    let room = room(buf);
    if room.len() < HEAD_SIZE {
        return Err(Short.at(0));
    }
    if room[0] == 0 {
        return Err(Version.at(0));
    }
    let count = u32_at(room, 4);
    if count > COUNT_LIMIT {
        return Err(Count.at(0));
    }
    if count < least {
        return Err(Missing.at(0));
    }
    Ok((room, count))
}

/// An attribute where it lies: `bytes` is all of it, header included.
#[derive(Clone, Copy, Debug, PartialEq, Eq)]
pub struct Attribute<'a> {
    pub kind: u32,
    pub start: usize,
    pub bytes: &'a [u8],
}

impl<'a> Attribute<'a> {
    /// Numbers 5 to 8.
    pub fn at(room: &'a [u8], start: usize) -> Result<Self, Number> {
        let rest = room.get(start..).unwrap_or_default();
        ensure(rest.len() >= HEADER_SIZE, Header)?;
        let kind = u32_at(rest, 0);
        let size = u32_at(rest, 4) as usize;
        ensure(size >= HEADER_SIZE && size.is_multiple_of(8), Size)?;
        let bytes = rest.get(..size).ok_or(Overrun)?;
        ensure(kind != 0, Type)?;
        Ok(Attribute { kind, start, bytes })
    }

    pub fn end(&self) -> usize {
        self.start + self.bytes.len()
    }
}

/// What is known of a list of attributes: enough to answer, and to judge one more.
#[derive(Clone, Debug, Default)]
pub struct Outline {
    pub count: u32,
    pub used: usize,
    /// Where the map's entries and the command line's text lie, if there is one.
    pub map: Option<Range<usize>>,
    pub command_line: Option<Range<usize>>,
    framebuffer: bool,
    modules: bool,
    /// The types from 7 up that occurred, one for each run.
    others: Vec<u32>,
    /// The last attribute's type; 0, which is no type, in an empty list.
    last: u32,
}

impl Outline {
    fn empty() -> Self {
        Outline {
            used: HEAD_SIZE,
            ..Outline::default()
        }
    }

    /// Numbers 9 to 11: whether one more attribute of this type may stand at the end.
    pub fn admits(&self, kind: u32) -> Result<(), Number> {
        match (self.count, kind) {
            (0, _) => ensure(kind == PLATFORM, Place),
            (1, _) => ensure(kind == KERNEL, Place),
            (_, PLATFORM | KERNEL) => Err(Place),
            (_, MAP) => ensure(self.map.is_none(), Repeat),
            (_, COMMAND_LINE) => ensure(self.command_line.is_none(), Repeat),
            (_, FRAMEBUFFER) => ensure(!self.framebuffer, Repeat),
            (_, MODULE) => ensure(self.last == MODULE || !self.modules, Split),
            _ => ensure(self.last == kind || !self.others.contains(&kind), Split),
        }
    }

    /// Numbers 9 to 16 on one more attribute; takes it into the list.
    fn take(&mut self, attribute: &Attribute) -> Result<(), Number> {
        let Attribute { kind, start, bytes } = *attribute;
        self.admits(kind)?;
        let body = start + HEADER_SIZE;
        match kind {
            PLATFORM => Platform::parse(bytes)?.check()?,
            KERNEL => Kernel::parse(bytes)?.check()?,
            MAP => {
                let map = Map::parse(bytes)?;
                map.check()?;
                self.map = Some(body..body + map.entries.len());
            }
            MODULE => {
                Module::parse(bytes)?.check()?;
                self.modules = true;
            }
            COMMAND_LINE => {
                let line = CommandLine::parse(bytes)?;
                line.check()?;
                self.command_line = line.text.map(|text| body..body + text.len());
            }
            FRAMEBUFFER => {
                Framebuffer::parse(bytes)?.check()?;
                self.framebuffer = true;
            }
            // The body of a type from 7 up is silent; only its runs are kept.
            _ => {
                if self.last != kind {
                    self.others.push(kind);
                }
            }
        }
        self.last = kind;
        self.count += 1;
        self.used += bytes.len();
        Ok(())
    }
}

/// Reads a context by all rules, the lower limit of the count being `least`:
/// [`COUNT_LEAST`] for a context, 0 where adding reads.
pub fn read(buf: &[u8], least: u32) -> Result<Outline, Refusal> {
    let (room, count) = head(buf, least)?;
    let mut outline = Outline::empty();
    for _ in 0..count {
        let start = outline.used;
        Attribute::at(room, start)
            .and_then(|attribute| outline.take(&attribute))
            .map_err(|number| number.at(start))?;
    }
    Ok(outline)
}

/// The attributes of a buffer that reading accepted with this outline.
pub fn attributes<'a>(
    buf: &'a [u8],
    outline: &Outline,
) -> impl Iterator<Item = Attribute<'a>> + 'a {
    let used = &buf[..outline.used];
    let first = Attribute::at(used, HEAD_SIZE).ok();
    std::iter::successors(first, |attribute| Attribute::at(used, attribute.end()).ok())
}
