//! Who is measured: the library, the Rust model, and the unchecked walk in C. The same code
//! calls all of them.
//!
//! SAFETY, for every call of the walk: a slice stands for that many valid bytes, writable where
//! it is mutable, and two slices of a call do not overlap. The walk trusts the bytes besides: it
//! is given contexts that the model accepted, whole and aligned to 8 bytes, and room for what is
//! written.

use ultra_model::calls;

use crate::records::{Add, Framebuffer, Kernel, Module, Platform};
use crate::walks;

pub trait Subject {
    fn read(buf: &[u8]) -> u64;
    fn attribute(buf: &[u8], index: u64) -> u64;
    fn copy_map(buf: &[u8], out: &mut [u8]) -> u64;
    fn begin(buf: &mut [u8]) -> u64;
    fn add_platform(buf: &mut [u8], record: &Platform) -> u64;
    fn add_kernel(buf: &mut [u8], record: &Kernel) -> u64;
    fn add_map(buf: &mut [u8], entries: &[u8]) -> u64;
    fn add_module(buf: &mut [u8], record: &Module) -> u64;
    fn add_command_line(buf: &mut [u8], text: &[u8]) -> u64;
    fn add_framebuffer(buf: &mut [u8], record: &Framebuffer) -> u64;
}

pub fn add<S: Subject>(buf: &mut [u8], add: &Add) -> u64 {
    match add {
        Add::Platform(record) => S::add_platform(buf, record),
        Add::Kernel(record) => S::add_kernel(buf, record),
        Add::Map(entries) => S::add_map(buf, entries),
        Add::Module(record) => S::add_module(buf, record),
        Add::CommandLine(text) => S::add_command_line(buf, text),
        Add::Framebuffer(record) => S::add_framebuffer(buf, record),
    }
}

/// `libultra.a`.
pub struct Library;

/// The independent implementation in Rust.
pub struct Model;

/// The protocol's macros, with no checks; only for contexts that the library reads.
pub struct Walk;

impl Subject for Library {
    fn read(buf: &[u8]) -> u64 {
        ultra_archive::read(buf.into())
    }

    fn attribute(buf: &[u8], index: u64) -> u64 {
        ultra_archive::attribute(buf.into(), index)
    }

    fn copy_map(buf: &[u8], out: &mut [u8]) -> u64 {
        ultra_archive::copy_map(buf.into(), out.into())
    }

    fn begin(buf: &mut [u8]) -> u64 {
        ultra_archive::begin(buf.into())
    }

    fn add_platform(buf: &mut [u8], r: &Platform) -> u64 {
        ultra_archive::add_platform(
            buf.into(),
            r.kind,
            r.loader.0,
            r.loader.1,
            r.name.into(),
            r.rsdp,
            r.higher_half_base,
            r.depth,
            r.dtb,
            r.smbios,
        )
    }

    fn add_kernel(buf: &mut [u8], r: &Kernel) -> u64 {
        ultra_archive::add_kernel(
            buf.into(),
            r.physical_base,
            r.virtual_base,
            r.size,
            r.partition_type,
            r.disk_guid[..].into(),
            r.partition_guid[..].into(),
            r.disk_index,
            r.partition_index,
            r.path.into(),
        )
    }

    fn add_map(buf: &mut [u8], entries: &[u8]) -> u64 {
        ultra_archive::add_map(buf.into(), entries.into())
    }

    fn add_module(buf: &mut [u8], r: &Module) -> u64 {
        ultra_archive::add_module(buf.into(), r.kind, r.name.into(), r.address, r.size)
    }

    fn add_command_line(buf: &mut [u8], text: &[u8]) -> u64 {
        ultra_archive::add_command_line(buf.into(), text.into())
    }

    fn add_framebuffer(buf: &mut [u8], r: &Framebuffer) -> u64 {
        let Framebuffer {
            width,
            height,
            pitch,
            bpp,
            format,
            address,
        } = *r;
        ultra_archive::add_framebuffer(buf.into(), width, height, pitch, bpp, format, address)
    }
}

impl Subject for Model {
    fn read(buf: &[u8]) -> u64 {
        calls::read(buf)
    }

    fn attribute(buf: &[u8], index: u64) -> u64 {
        calls::attribute(buf, index)
    }

    fn copy_map(buf: &[u8], out: &mut [u8]) -> u64 {
        calls::copy_map(buf, out)
    }

    fn begin(buf: &mut [u8]) -> u64 {
        calls::begin(buf)
    }

    fn add_platform(buf: &mut [u8], r: &Platform) -> u64 {
        calls::add_platform(
            buf,
            r.kind,
            r.loader.0,
            r.loader.1,
            r.name,
            r.rsdp,
            r.higher_half_base,
            r.depth,
            r.dtb,
            r.smbios,
        )
    }

    fn add_kernel(buf: &mut [u8], r: &Kernel) -> u64 {
        calls::add_kernel(
            buf,
            r.physical_base,
            r.virtual_base,
            r.size,
            r.partition_type,
            &r.disk_guid,
            &r.partition_guid,
            r.disk_index,
            r.partition_index,
            r.path,
        )
    }

    fn add_map(buf: &mut [u8], entries: &[u8]) -> u64 {
        calls::add_map(buf, entries)
    }

    fn add_module(buf: &mut [u8], r: &Module) -> u64 {
        calls::add_module(buf, r.kind, r.name, r.address, r.size)
    }

    fn add_command_line(buf: &mut [u8], text: &[u8]) -> u64 {
        calls::add_command_line(buf, text)
    }

    fn add_framebuffer(buf: &mut [u8], r: &Framebuffer) -> u64 {
        calls::add_framebuffer(buf, r.width, r.height, r.pitch, r.bpp, r.format, r.address)
    }
}

impl Walk {
    /// Reading as a kernel does that uses everything: the sum of all it saw.
    pub fn use_all(buf: &[u8]) -> u64 {
        unsafe { walks::walk_use(buf.as_ptr()) }
    }
}

impl Subject for Walk {
    /// The bare walk: the sum of the types.
    fn read(buf: &[u8]) -> u64 {
        unsafe { walks::walk_read(buf.as_ptr()) }
    }

    fn attribute(buf: &[u8], index: u64) -> u64 {
        unsafe { walks::walk_attribute(buf.as_ptr(), index) }
    }

    fn copy_map(buf: &[u8], out: &mut [u8]) -> u64 {
        unsafe { walks::walk_copy_map(buf.as_ptr(), out.as_mut_ptr()) }
    }

    fn begin(buf: &mut [u8]) -> u64 {
        unsafe { walks::walk_begin(buf.as_mut_ptr()) }
    }

    fn add_platform(buf: &mut [u8], r: &Platform) -> u64 {
        unsafe {
            walks::walk_add_platform(
                buf.as_mut_ptr(),
                r.kind,
                r.loader.0,
                r.loader.1,
                r.name.as_ptr(),
                r.name.len(),
                r.rsdp,
                r.higher_half_base,
                r.depth,
                r.dtb,
                r.smbios,
            )
        }
    }

    fn add_kernel(buf: &mut [u8], r: &Kernel) -> u64 {
        unsafe {
            walks::walk_add_kernel(
                buf.as_mut_ptr(),
                r.physical_base,
                r.virtual_base,
                r.size,
                r.partition_type,
                r.disk_guid.as_ptr(),
                r.partition_guid.as_ptr(),
                r.disk_index,
                r.partition_index,
                r.path.as_ptr(),
                r.path.len(),
            )
        }
    }

    fn add_map(buf: &mut [u8], entries: &[u8]) -> u64 {
        unsafe { walks::walk_add_map(buf.as_mut_ptr(), entries.as_ptr(), entries.len()) }
    }

    fn add_module(buf: &mut [u8], r: &Module) -> u64 {
        unsafe {
            walks::walk_add_module(
                buf.as_mut_ptr(),
                r.kind,
                r.name.as_ptr(),
                r.name.len(),
                r.address,
                r.size,
            )
        }
    }

    fn add_command_line(buf: &mut [u8], text: &[u8]) -> u64 {
        unsafe { walks::walk_add_command_line(buf.as_mut_ptr(), text.as_ptr(), text.len()) }
    }

    fn add_framebuffer(buf: &mut [u8], r: &Framebuffer) -> u64 {
        unsafe {
            walks::walk_add_framebuffer(
                buf.as_mut_ptr(),
                r.width,
                r.height,
                r.pitch,
                r.bpp,
                r.format,
                r.address,
            )
        }
    }
}
