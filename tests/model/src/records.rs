//! The members of the six defined attributes: taken from an attribute's bytes,
//! judged, and written. Reading and adding judge the same records.
//!
//! `parse` gives FORM where the size is outside the table; `check` gives VALUE, TEXT,
//! RANGE and ORDER, in that order; `write` fills an attribute of zeros after its header.

use crate::format::Number::{Form, Order, Range, Text, Value};
use crate::format::*;

/// The end of a range, as a whole number: a sum may be 2^64, and must not wrap.
pub fn end(address: u64, size: u64) -> u128 {
    u128::from(address) + u128::from(size)
}

/// "none above 2^64"
fn ends_in_memory(address: u64, size: u64) -> bool {
    end(address, size) <= 1 << 64
}

fn page_aligned(value: u64) -> bool {
    value.is_multiple_of(PAGE)
}

/// The text in a field, up to its first zero; none if no zero closes it.
fn text_in(field: &[u8]) -> Option<&[u8]> {
    let length = field.iter().position(|&byte| byte == 0)?;
    Some(&field[..length])
}

/// "A text given is refused as 14 if it holds a zero byte or leaves no place for its
/// closing zero in a fixed field."
pub fn text_for(width: usize, given: &[u8]) -> Option<&[u8]> {
    (given.len() < width && !given.contains(&0)).then_some(given)
}

/// "bytes 1 to 127 only"; a text holds no zero.
fn is_plain_text(text: Option<&[u8]>) -> bool {
    text.is_some_and(<[u8]>::is_ascii)
}

/// "the path, which begins with `/` and is otherwise free"
fn is_path(text: Option<&[u8]>) -> bool {
    text.is_some_and(|text| text.first() == Some(&b'/'))
}

#[derive(Clone, Copy, Debug, PartialEq, Eq)]
pub struct Platform<'a> {
    pub kind: u32,
    pub loader_major: u16,
    pub loader_minor: u16,
    /// None where the field has no closing zero, or the text given does not suit it.
    pub name: Option<&'a [u8]>,
    pub rsdp: u64,
    pub higher_half_base: Option<u64>,
    pub depth: Option<u8>,
    pub dtb: Option<u64>,
    pub smbios: Option<u64>,
}

impl<'a> Platform<'a> {
    pub fn parse(bytes: &'a [u8]) -> Result<Self, Number> {
        ensure(bytes.len() >= PLATFORM_LEAST, Form)?;
        // "present exactly if they end within the size"
        let late = |at: usize| (at + 8 <= bytes.len()).then(|| u64_at(bytes, at));
        Ok(Platform {
            kind: u32_at(bytes, 8),
            loader_major: u16_at(bytes, 12),
            loader_minor: u16_at(bytes, 14),
            name: text_in(&bytes[16..16 + NAME_WIDTH]),
            rsdp: u64_at(bytes, 48),
            higher_half_base: late(56),
            depth: bytes.get(64).copied(),
            dtb: late(72),
            smbios: late(80),
        })
    }

    pub fn check(&self) -> Result<(), Number> {
        ensure(self.kind != 0, Value)?;
        ensure(is_plain_text(self.name), Text)
    }

    pub fn has_all_members(&self) -> bool {
        self.higher_half_base.is_some()
            && self.depth.is_some()
            && self.dtb.is_some()
            && self.smbios.is_some()
    }

    pub fn write(&self, bytes: &mut [u8]) {
        put(bytes, 8, &self.kind.to_le_bytes());
        put(bytes, 12, &self.loader_major.to_le_bytes());
        put(bytes, 14, &self.loader_minor.to_le_bytes());
        put(bytes, 16, self.name.unwrap_or_default());
        put(bytes, 48, &self.rsdp.to_le_bytes());
        put(
            bytes,
            56,
            &self.higher_half_base.unwrap_or_default().to_le_bytes(),
        );
        bytes[64] = self.depth.unwrap_or_default();
        put(bytes, 72, &self.dtb.unwrap_or_default().to_le_bytes());
        put(bytes, 80, &self.smbios.unwrap_or_default().to_le_bytes());
    }
}

#[derive(Clone, Copy, Debug, PartialEq, Eq)]
pub struct Kernel<'a> {
    pub physical_base: u64,
    pub virtual_base: u64,
    pub size: u64,
    pub partition_type: u64,
    /// Raw bytes, carried in every partition type.
    pub disk_guid: &'a [u8],
    pub partition_guid: &'a [u8],
    pub disk_index: u32,
    pub partition_index: u32,
    pub path: Option<&'a [u8]>,
}

impl<'a> Kernel<'a> {
    pub fn parse(bytes: &'a [u8]) -> Result<Self, Number> {
        ensure(bytes.len() >= KERNEL_SIZE, Form)?;
        Ok(Kernel {
            physical_base: u64_at(bytes, 8),
            virtual_base: u64_at(bytes, 16),
            size: u64_at(bytes, 24),
            partition_type: u64_at(bytes, 32),
            disk_guid: &bytes[40..40 + GUID_SIZE],
            partition_guid: &bytes[56..56 + GUID_SIZE],
            disk_index: u32_at(bytes, 72),
            partition_index: u32_at(bytes, 76),
            path: text_in(&bytes[80..80 + PATH_WIDTH]),
        })
    }

    pub fn check(&self) -> Result<(), Number> {
        ensure(
            self.partition_type != 0
                && page_aligned(self.physical_base)
                && page_aligned(self.virtual_base)
                && page_aligned(self.size),
            Value,
        )?;
        ensure(is_path(self.path), Text)?;
        ensure(
            ends_in_memory(self.physical_base, self.size)
                && ends_in_memory(self.virtual_base, self.size),
            Range,
        )
    }

    pub fn write(&self, bytes: &mut [u8]) {
        put(bytes, 8, &self.physical_base.to_le_bytes());
        put(bytes, 16, &self.virtual_base.to_le_bytes());
        put(bytes, 24, &self.size.to_le_bytes());
        put(bytes, 32, &self.partition_type.to_le_bytes());
        put(bytes, 40, self.disk_guid);
        put(bytes, 56, self.partition_guid);
        put(bytes, 72, &self.disk_index.to_le_bytes());
        put(bytes, 76, &self.partition_index.to_le_bytes());
        put(bytes, 80, self.path.unwrap_or_default());
    }
}

/// A memory map, as the bytes of its entries.
#[derive(Clone, Copy, Debug, PartialEq, Eq)]
pub struct Map<'a> {
    pub entries: &'a [u8],
}

impl<'a> Map<'a> {
    pub fn parse(bytes: &'a [u8]) -> Result<Self, Number> {
        Self::of_entries(&bytes[HEADER_SIZE..])
    }

    /// "8 + 24n, n from 0": bytes left over are not rounded away.
    pub fn of_entries(entries: &'a [u8]) -> Result<Self, Number> {
        ensure(entries.len().is_multiple_of(ENTRY_SIZE), Form)?;
        Ok(Map { entries })
    }

    /// "within a map, all entries are tried for 13, then 15, then 16"
    pub fn check(&self) -> Result<(), Number> {
        let mut in_memory = true;
        let mut in_order = true;
        let mut previous_end = 0;
        for entry in self.entries.chunks_exact(ENTRY_SIZE) {
            let (address, size, kind) = (u64_at(entry, 0), u64_at(entry, 8), u64_at(entry, 16));
            ensure(kind != 0, Value)?;
            in_memory &= ends_in_memory(address, size);
            in_order &= u128::from(address) >= previous_end;
            previous_end = end(address, size);
        }
        ensure(in_memory, Range)?;
        ensure(in_order, Order)
    }

    pub fn written_size(&self) -> usize {
        HEADER_SIZE + self.entries.len()
    }

    pub fn write(&self, bytes: &mut [u8]) {
        put(bytes, HEADER_SIZE, self.entries);
    }
}

#[derive(Clone, Copy, Debug, PartialEq, Eq)]
pub struct Module<'a> {
    pub kind: u32,
    pub name: Option<&'a [u8]>,
    pub address: u64,
    pub size: u64,
}

impl<'a> Module<'a> {
    pub fn parse(bytes: &'a [u8]) -> Result<Self, Number> {
        ensure(bytes.len() >= MODULE_SIZE, Form)?;
        Ok(Module {
            kind: u32_at(bytes, 12),
            name: text_in(&bytes[16..16 + MODULE_NAME_WIDTH]),
            address: u64_at(bytes, 80),
            size: u64_at(bytes, 88),
        })
    }

    pub fn check(&self) -> Result<(), Number> {
        ensure(
            matches!(self.kind, 1 | 2) && page_aligned(self.address),
            Value,
        )?;
        ensure(is_plain_text(self.name), Text)?;
        ensure(ends_in_memory(self.address, self.size), Range)
    }

    pub fn write(&self, bytes: &mut [u8]) {
        put(bytes, 12, &self.kind.to_le_bytes());
        put(bytes, 16, self.name.unwrap_or_default());
        put(bytes, 80, &self.address.to_le_bytes());
        put(bytes, 88, &self.size.to_le_bytes());
    }
}

#[derive(Clone, Copy, Debug, PartialEq, Eq)]
pub struct CommandLine<'a> {
    pub text: Option<&'a [u8]>,
}

impl<'a> CommandLine<'a> {
    /// The field is the whole rest of the attribute; a zero after it closes nothing.
    pub fn parse(bytes: &'a [u8]) -> Result<Self, Number> {
        ensure(bytes.len() >= COMMAND_LINE_LEAST, Form)?;
        Ok(CommandLine {
            text: text_in(&bytes[HEADER_SIZE..]),
        })
    }

    /// The line has no fixed field: one too long for the room is 18, in its place.
    pub fn of_text(text: &'a [u8]) -> Self {
        CommandLine {
            text: text_for(usize::MAX, text),
        }
    }

    pub fn check(&self) -> Result<(), Number> {
        ensure(is_plain_text(self.text), Text)
    }

    /// "8 + (k + 1 rounded up to a multiple of 8) bytes"
    pub fn written_size(&self) -> usize {
        HEADER_SIZE + (self.text.unwrap_or_default().len() + 1).next_multiple_of(8)
    }

    pub fn write(&self, bytes: &mut [u8]) {
        put(bytes, HEADER_SIZE, self.text.unwrap_or_default());
    }
}

#[derive(Clone, Copy, Debug, PartialEq, Eq)]
pub struct Framebuffer {
    pub width: u32,
    pub height: u32,
    pub pitch: u32,
    pub bpp: u16,
    pub format: u16,
    pub address: u64,
}

impl Framebuffer {
    pub fn parse(bytes: &[u8]) -> Result<Self, Number> {
        ensure(bytes.len() >= FRAMEBUFFER_SIZE, Form)?;
        Ok(Framebuffer {
            width: u32_at(bytes, 8),
            height: u32_at(bytes, 12),
            pitch: u32_at(bytes, 16),
            bpp: u16_at(bytes, 20),
            format: u16_at(bytes, 22),
            address: u64_at(bytes, 24),
        })
    }

    /// All products are of whole numbers: two of 32 bits fit 64.
    pub fn check(&self) -> Result<(), Number> {
        let depth_suits = match self.format {
            1 | 2 => self.bpp == 24,
            3 | 4 => self.bpp == 32,
            _ => false,
        };
        let row_bits = u64::from(self.width) * u64::from(self.bpp);
        ensure(depth_suits && u64::from(self.pitch) * 8 >= row_bits, Value)?;
        let size = u64::from(self.pitch) * u64::from(self.height);
        ensure(ends_in_memory(self.address, size), Range)
    }

    pub fn write(&self, bytes: &mut [u8]) {
        put(bytes, 8, &self.width.to_le_bytes());
        put(bytes, 12, &self.height.to_le_bytes());
        put(bytes, 16, &self.pitch.to_le_bytes());
        put(bytes, 20, &self.bpp.to_le_bytes());
        put(bytes, 22, &self.format.to_le_bytes());
        put(bytes, 24, &self.address.to_le_bytes());
    }
}
