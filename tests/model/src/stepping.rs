//! Stepping through a buffer with a cursor. A step judges the head and the attribute's
//! header, and nothing else: not the place, the members, nor whether the cursor's
//! offset belongs to its index.

use crate::format::Number::Header;
use crate::format::*;
use crate::reading::{head, Attribute};

/// "A cursor holds an index and an offset, of 32 bits each; the first is 0 and 8."
#[derive(Clone, Copy, Debug, PartialEq, Eq)]
pub struct Cursor {
    pub index: u32,
    pub offset: u32,
}

impl Cursor {
    pub const FIRST: Cursor = Cursor {
        index: 0,
        offset: HEAD_SIZE as u32,
    };

    /// The attribute at the cursor and the next cursor, or none at the end.
    pub fn step(self, buf: &[u8]) -> Result<Option<(Attribute<'_>, Cursor)>, Refusal> {
        let (room, count) = head(buf, COUNT_LEAST)?;
        // The end goes before 5: there the offset is not looked at.
        if self.index >= count {
            return Ok(None);
        }
        let start = self.offset as usize;
        // "gives 5 also if the offset is below 8 or no multiple of 8"
        if start < HEAD_SIZE || !start.is_multiple_of(8) {
            return Err(Header.at(start));
        }
        let attribute = Attribute::at(room, start).map_err(|number| number.at(start))?;
        let next = Cursor {
            index: self.index + 1,
            offset: attribute.end() as u32,
        };
        Ok(Some((attribute, next)))
    }
}
