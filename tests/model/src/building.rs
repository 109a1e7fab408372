//! Beginning a context, and adding the six defined attributes at its end.

use crate::format::Number::{Form, Full, Room, Short};
use crate::format::*;
use crate::reading::read;
use crate::records::{CommandLine, Framebuffer, Kernel, Map, Module, Platform};

/// "Beginning writes the 8 bytes 01 00 00 00 00 00 00 00 and nothing more".
pub fn begin(buf: &mut [u8]) -> Answer {
    let head = buf.get_mut(..HEAD_SIZE).ok_or(Short.at(0))?;
    head.copy_from_slice(&[1, 0, 0, 0, 0, 0, 0, 0]);
    Ok(HEAD_SIZE)
}

/// Reads the list, then tries 17, 9 to 11, the record's own `rules` (12 to 16) and 18;
/// `write` fills the zeroed attribute after its header.
fn add(
    buf: &mut [u8],
    kind: u32,
    size: usize,
    rules: impl FnOnce() -> Result<(), Number>,
    write: impl FnOnce(&mut [u8]),
) -> Answer {
    // "all rules but the lower limit of the count"
    let outline = read(buf, 0)?;
    let used = outline.used;
    ensure(outline.count < COUNT_LIMIT, Full)
        .and_then(|()| outline.admits(kind))
        .and_then(|()| rules())
        .and_then(|()| ensure(size <= room(buf).len() - used, Room))
        .map_err(|number| number.at(used))?;

    let attribute = &mut buf[used..used + size];
    attribute.fill(0);
    put(attribute, 0, &kind.to_le_bytes());
    put(attribute, 4, &(size as u32).to_le_bytes());
    write(attribute);
    put(buf, 4, &(outline.count + 1).to_le_bytes());
    Ok(used + size)
}

/// "A platform record with an absent member is refused as 12."
pub fn add_platform(buf: &mut [u8], record: &Platform) -> Answer {
    add(
        buf,
        PLATFORM,
        PLATFORM_WRITTEN,
        || ensure(record.has_all_members(), Form).and_then(|()| record.check()),
        |attribute| record.write(attribute),
    )
}

/// "12 for .. a GUID not of 16"
pub fn add_kernel(buf: &mut [u8], record: &Kernel) -> Answer {
    let guids_fit = record.disk_guid.len() == GUID_SIZE && record.partition_guid.len() == GUID_SIZE;
    add(
        buf,
        KERNEL,
        KERNEL_SIZE,
        || ensure(guids_fit, Form).and_then(|()| record.check()),
        |attribute| record.write(attribute),
    )
}

/// "12 for a map not of 24n bytes"
pub fn add_map(buf: &mut [u8], entries: &[u8]) -> Answer {
    let map = Map { entries };
    add(
        buf,
        MAP,
        map.written_size(),
        || Map::of_entries(entries)?.check(),
        |attribute| map.write(attribute),
    )
}

pub fn add_module(buf: &mut [u8], record: &Module) -> Answer {
    add(
        buf,
        MODULE,
        MODULE_SIZE,
        || record.check(),
        |attribute| record.write(attribute),
    )
}

pub fn add_command_line(buf: &mut [u8], text: &[u8]) -> Answer {
    let line = CommandLine::of_text(text);
    add(
        buf,
        COMMAND_LINE,
        line.written_size(),
        || line.check(),
        |attribute| line.write(attribute),
    )
}

pub fn add_framebuffer(buf: &mut [u8], record: &Framebuffer) -> Answer {
    add(
        buf,
        FRAMEBUFFER,
        FRAMEBUFFER_SIZE,
        || record.check(),
        |attribute| record.write(attribute),
    )
}
