//! The thirteen calls as they are toward C: the same order of parameters, members in
//! their exact widths, slices for pointer and length, and a single `u64` back.
//!
//! A text is its bytes as they are given, without a closing zero. A late platform member
//! cannot be left absent here.

use crate::format::{pack, COUNT_LEAST, MODULE_NAME_WIDTH, NAME_WIDTH, PATH_WIDTH};
use crate::records::{text_for, Framebuffer, Kernel, Module, Platform};
use crate::stepping::Cursor;
use crate::{building, questions, reading};

pub fn read(buf: &[u8]) -> u64 {
    pack(reading::read(buf, COUNT_LEAST).map(|outline| outline.used))
}

/// "A step's value is the next cursor's offset, or 0 at the end."
pub fn step(buf: &[u8], index: u32, offset: u32) -> u64 {
    let stepped = Cursor { index, offset }.step(buf);
    pack(stepped.map(|found| found.map_or(0, |(_, next)| next.offset as usize)))
}

pub fn begin(buf: &mut [u8]) -> u64 {
    pack(building::begin(buf))
}

#[allow(clippy::too_many_arguments)] // As many as the record has members.
pub fn add_platform(
    buf: &mut [u8],
    kind: u32,
    loader_major: u16,
    loader_minor: u16,
    name: &[u8],
    rsdp: u64,
    higher_half_base: u64,
    depth: u8,
    dtb: u64,
    smbios: u64,
) -> u64 {
    let record = Platform {
        kind,
        loader_major,
        loader_minor,
        name: text_for(NAME_WIDTH, name),
        rsdp,
        higher_half_base: Some(higher_half_base),
        depth: Some(depth),
        dtb: Some(dtb),
        smbios: Some(smbios),
    };
    pack(building::add_platform(buf, &record))
}

#[allow(clippy::too_many_arguments)] // As many as the record has members.
pub fn add_kernel(
    buf: &mut [u8],
    physical_base: u64,
    virtual_base: u64,
    size: u64,
    partition_type: u64,
    disk_guid: &[u8],
    partition_guid: &[u8],
    disk_index: u32,
    partition_index: u32,
    path: &[u8],
) -> u64 {
    let record = Kernel {
        physical_base,
        virtual_base,
        size,
        partition_type,
        disk_guid,
        partition_guid,
        disk_index,
        partition_index,
        path: text_for(PATH_WIDTH, path),
    };
    pack(building::add_kernel(buf, &record))
}

pub fn add_map(buf: &mut [u8], entries: &[u8]) -> u64 {
    pack(building::add_map(buf, entries))
}

pub fn add_module(buf: &mut [u8], kind: u32, name: &[u8], address: u64, size: u64) -> u64 {
    let record = Module {
        kind,
        name: text_for(MODULE_NAME_WIDTH, name),
        address,
        size,
    };
    pack(building::add_module(buf, &record))
}

pub fn add_command_line(buf: &mut [u8], text: &[u8]) -> u64 {
    pack(building::add_command_line(buf, text))
}

pub fn add_framebuffer(
    buf: &mut [u8],
    width: u32,
    height: u32,
    pitch: u32,
    bpp: u16,
    format: u16,
    address: u64,
) -> u64 {
    let record = Framebuffer {
        width,
        height,
        pitch,
        bpp,
        format,
        address,
    };
    pack(building::add_framebuffer(buf, &record))
}

/// "An attribute answers its start alone."
pub fn attribute(buf: &[u8], index: u64) -> u64 {
    pack(questions::attribute(buf, index).map(|attribute| attribute.start))
}

pub fn copy_map(buf: &[u8], out: &mut [u8]) -> u64 {
    pack(questions::copy_map(buf, out))
}

/// "its text's start × 2^32 + length, or 0 if there is none"
pub fn command_line(buf: &[u8]) -> u64 {
    questions::command_line(buf).map_or(0, |text| (text.start as u64) << 32 | text.len() as u64)
}

pub fn module_holding(buf: &[u8], address: u64) -> u64 {
    pack(questions::module_holding(buf, address))
}
