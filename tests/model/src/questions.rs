//! The four questions. "Each reads first and passes its refusal on, except the command
//! line, which has none."

use std::ops::Range;

use crate::format::Number::{Absent, Count, Room};
use crate::format::*;
use crate::reading::{attributes, read, Attribute};
use crate::records::Module;

/// The attribute at an index; "3 with the used length" at or past the count.
pub fn attribute(buf: &[u8], index: u64) -> Result<Attribute<'_>, Refusal> {
    let outline = read(buf, COUNT_LEAST)?;
    let past = Count.at(outline.used);
    // The count is at most 1,024, so an index too wide for usize is past it.
    let index = usize::try_from(index).map_err(|_| past)?;
    attributes(buf, &outline).nth(index).ok_or(past)
}

/// Copies the map out, eight bytes to a number; answers the number of entries.
pub fn copy_map(buf: &[u8], out: &mut [u8]) -> Answer {
    let outline = read(buf, COUNT_LEAST)?;
    let entries = outline.map.ok_or(Absent.at(outline.used))?;
    let entries = &buf[entries];
    // "an output counts whole eights", and so do the entries.
    if out.len() < entries.len() {
        return Err(Room.at(outline.used));
    }
    put(out, 0, entries);
    Ok(entries.len() / ENTRY_SIZE)
}

/// Where the command line's text lies, up to its zero; none if there is no command line
/// or the buffer is refused.
pub fn command_line(buf: &[u8]) -> Option<Range<usize>> {
    read(buf, COUNT_LEAST).ok()?.command_line
}

/// "the attribute start of the first module with address ≤ a < address + size, or 0"; by R-4
/// "the question about an address uses the size rounded up to 4,096; a size of 0 still holds
/// nothing". Sizes are rounded in whole numbers: 2^64 − 1 becomes 2^64.
pub fn module_holding(buf: &[u8], address: u64) -> Answer {
    let outline = read(buf, COUNT_LEAST)?;
    let holds = |attribute: &Attribute| {
        attribute.kind == MODULE
            && Module::parse(attribute.bytes).is_ok_and(|module| {
                let size = u128::from(module.size).next_multiple_of(PAGE.into());
                let end = u128::from(module.address) + size;
                module.address <= address && u128::from(address) < end
            })
    };
    Ok(attributes(buf, &outline)
        .find(holds)
        .map_or(0, |attribute| attribute.start))
}
