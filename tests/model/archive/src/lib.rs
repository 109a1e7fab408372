//! The thirteen C calls of `libultra.a`, as include/ultra.h declares them, and what makes them
//! safe to call: nothing else in the programs that use them has to be unsafe for it.
//!
//! SAFETY, for every call here: [`Bytes`] and [`BytesMut`] stand for as many bytes as they say,
//! which nobody else writes, or looks at where they are mutable, as long as they are borrowed;
//! or they are null with length 0. So no two that a call gets overlap where one is written.

#![allow(clippy::too_many_arguments)] // As many as the calls have.

use std::marker::PhantomData;
use std::ops::Range;
use std::ptr;

extern "C" {
    fn ultra_read(buf: *const u8, buf_len: usize) -> u64;
    fn ultra_step(buf: *const u8, buf_len: usize, index: u32, offset: u32) -> u64;
    fn ultra_begin(buf: *mut u8, buf_len: usize) -> u64;
    fn ultra_add_platform(
        buf: *mut u8,
        buf_len: usize,
        kind: u32,
        loader_major: u16,
        loader_minor: u16,
        name: *const u8,
        name_len: usize,
        rsdp: u64,
        higher_half_base: u64,
        depth: u8,
        dtb: u64,
        smbios: u64,
    ) -> u64;
    fn ultra_add_kernel(
        buf: *mut u8,
        buf_len: usize,
        physical_base: u64,
        virtual_base: u64,
        size: u64,
        partition_type: u64,
        disk_guid: *const u8,
        disk_guid_len: usize,
        partition_guid: *const u8,
        partition_guid_len: usize,
        disk_index: u32,
        partition_index: u32,
        path: *const u8,
        path_len: usize,
    ) -> u64;
    fn ultra_add_map(buf: *mut u8, buf_len: usize, entries: *const u8, entries_len: usize) -> u64;
    fn ultra_add_module(
        buf: *mut u8,
        buf_len: usize,
        kind: u32,
        name: *const u8,
        name_len: usize,
        address: u64,
        size: u64,
    ) -> u64;
    fn ultra_add_command_line(
        buf: *mut u8,
        buf_len: usize,
        text: *const u8,
        text_len: usize,
    ) -> u64;
    fn ultra_add_framebuffer(
        buf: *mut u8,
        buf_len: usize,
        width: u32,
        height: u32,
        pitch: u32,
        bpp: u16,
        format: u16,
        address: u64,
    ) -> u64;
    fn ultra_attribute(buf: *const u8, buf_len: usize, index: u64) -> u64;
    fn ultra_copy_map(buf: *const u8, buf_len: usize, out: *mut u8, out_len: usize) -> u64;
    fn ultra_command_line(buf: *const u8, buf_len: usize) -> u64;
    fn ultra_module_holding(buf: *const u8, buf_len: usize, address: u64) -> u64;
}

/// Bytes lent to be read.
pub struct Bytes<'a> {
    start: *const u8,
    length: usize,
    lent: PhantomData<&'a [u8]>,
}

impl<'a> From<&'a [u8]> for Bytes<'a> {
    fn from(bytes: &'a [u8]) -> Self {
        Bytes {
            start: bytes.as_ptr(),
            length: bytes.len(),
            lent: PhantomData,
        }
    }
}

impl<'a> From<BytesMut<'a>> for Bytes<'a> {
    fn from(bytes: BytesMut<'a>) -> Self {
        Bytes {
            start: bytes.start,
            length: bytes.length,
            lent: PhantomData,
        }
    }
}

/// Bytes lent to be written.
pub struct BytesMut<'a> {
    start: *mut u8,
    length: usize,
    lent: PhantomData<&'a mut [u8]>,
}

impl<'a> From<&'a mut [u8]> for BytesMut<'a> {
    fn from(bytes: &'a mut [u8]) -> Self {
        let all = 0..bytes.len();
        BytesMut::part(bytes, all)
    }
}

impl<'a> BytesMut<'a> {
    /// A part of a memory. The whole memory is borrowed, so that a call that writes too far is
    /// seen to do so.
    pub fn part(memory: &'a mut [u8], part: Range<usize>) -> Self {
        let length = memory[part.clone()].len();
        BytesMut {
            start: memory.as_mut_ptr().wrapping_add(part.start),
            length,
            lent: PhantomData,
        }
    }

    /// No bytes, by a null pointer.
    pub fn null() -> Self {
        BytesMut {
            start: ptr::null_mut(),
            length: 0,
            lent: PhantomData,
        }
    }
}

pub fn read(buf: Bytes) -> u64 {
    unsafe { ultra_read(buf.start, buf.length) }
}

pub fn step(buf: Bytes, index: u32, offset: u32) -> u64 {
    unsafe { ultra_step(buf.start, buf.length, index, offset) }
}

pub fn begin(buf: BytesMut) -> u64 {
    unsafe { ultra_begin(buf.start, buf.length) }
}

pub fn add_platform(
    buf: BytesMut,
    kind: u32,
    loader_major: u16,
    loader_minor: u16,
    name: Bytes,
    rsdp: u64,
    higher_half_base: u64,
    depth: u8,
    dtb: u64,
    smbios: u64,
) -> u64 {
    unsafe {
        ultra_add_platform(
            buf.start,
            buf.length,
            kind,
            loader_major,
            loader_minor,
            name.start,
            name.length,
            rsdp,
            higher_half_base,
            depth,
            dtb,
            smbios,
        )
    }
}

pub fn add_kernel(
    buf: BytesMut,
    physical_base: u64,
    virtual_base: u64,
    size: u64,
    partition_type: u64,
    disk_guid: Bytes,
    partition_guid: Bytes,
    disk_index: u32,
    partition_index: u32,
    path: Bytes,
) -> u64 {
    unsafe {
        ultra_add_kernel(
            buf.start,
            buf.length,
            physical_base,
            virtual_base,
            size,
            partition_type,
            disk_guid.start,
            disk_guid.length,
            partition_guid.start,
            partition_guid.length,
            disk_index,
            partition_index,
            path.start,
            path.length,
        )
    }
}

pub fn add_map(buf: BytesMut, entries: Bytes) -> u64 {
    unsafe { ultra_add_map(buf.start, buf.length, entries.start, entries.length) }
}

pub fn add_module(buf: BytesMut, kind: u32, name: Bytes, address: u64, size: u64) -> u64 {
    unsafe {
        ultra_add_module(
            buf.start,
            buf.length,
            kind,
            name.start,
            name.length,
            address,
            size,
        )
    }
}

pub fn add_command_line(buf: BytesMut, text: Bytes) -> u64 {
    unsafe { ultra_add_command_line(buf.start, buf.length, text.start, text.length) }
}

pub fn add_framebuffer(
    buf: BytesMut,
    width: u32,
    height: u32,
    pitch: u32,
    bpp: u16,
    format: u16,
    address: u64,
) -> u64 {
    unsafe {
        ultra_add_framebuffer(
            buf.start, buf.length, width, height, pitch, bpp, format, address,
        )
    }
}

pub fn attribute(buf: Bytes, index: u64) -> u64 {
    unsafe { ultra_attribute(buf.start, buf.length, index) }
}

pub fn copy_map(buf: Bytes, out: BytesMut) -> u64 {
    unsafe { ultra_copy_map(buf.start, buf.length, out.start, out.length) }
}

pub fn command_line(buf: Bytes) -> u64 {
    unsafe { ultra_command_line(buf.start, buf.length) }
}

pub fn module_holding(buf: Bytes, address: u64) -> u64 {
    unsafe { ultra_module_holding(buf.start, buf.length, address) }
}
