//! Beginning and adding: the calls that change the buffer.

use crate::building;
use crate::driving::table::*;
use crate::driving::Answer;
use crate::format::{self, u64_at, GUID_SIZE, MODULE_NAME_WIDTH, NAME_WIDTH, PATH_WIDTH};
use crate::records::{text_for, Framebuffer, Kernel, Module, Platform};
use crate::requests::several_modules::{add_modules, Several};

/// The bits of *present* where no member is absent.
const ALL_PRESENT: u64 = 0b1111;

/// Makes the call of this number.
pub fn answer(buf: &mut [u8], call: u32, numbers: &[u64], strings: &[&[u8]]) -> Answer {
    match call {
        ADD_MODULES => {
            let Several { answer, added } = add_modules(buf, &modules(strings[0]));
            Answer::new(answer, &[added as u64])
        }
        _ => Answer::new(single(buf, call, numbers, strings), &[]),
    }
}

/// Beginning, or the add of one record. Numbers are taken by their low bits.
fn single(buf: &mut [u8], call: u32, n: &[u64], strings: &[&[u8]]) -> format::Answer {
    match call {
        BEGIN => building::begin(buf),
        ADD_PLATFORM => {
            let name = array(strings[0], NAME_WIDTH);
            let record = platform(n, n[4], text_of(&name));
            building::add_platform(buf, &record)
        }
        MEMBERS_ADD_PLATFORM => {
            let present = if n[4] != 0 { ALL_PRESENT } else { 0 };
            let record = platform(n, present, text_for(NAME_WIDTH, strings[0]));
            building::add_platform(buf, &record)
        }
        ADD_KERNEL => {
            let guids = [array(strings[0], GUID_SIZE), array(strings[1], GUID_SIZE)];
            let path = array(strings[2], PATH_WIDTH);
            let record = kernel(n, [&guids[0], &guids[1]], text_of(&path));
            building::add_kernel(buf, &record)
        }
        MEMBERS_ADD_KERNEL => {
            let path = text_for(PATH_WIDTH, strings[2]);
            building::add_kernel(buf, &kernel(n, [strings[0], strings[1]], path))
        }
        ADD_MAP => building::add_map(buf, &strings[0][..strings[0].len() / 8 * 8]),
        MEMBERS_ADD_MAP => building::add_map(buf, strings[0]),
        ADD_MODULE => {
            let name = array(strings[0], MODULE_NAME_WIDTH);
            building::add_module(buf, &module(n, text_of(&name)))
        }
        MEMBERS_ADD_MODULE => {
            let name = text_for(MODULE_NAME_WIDTH, strings[0]);
            building::add_module(buf, &module(n, name))
        }
        ADD_COMMAND_LINE => building::add_command_line(buf, strings[0]),
        _ => building::add_framebuffer(buf, &framebuffer(n)),
    }
}

/// "a shorter string has zeros after it, and of a longer one the rest is left out"
fn array(string: &[u8], width: usize) -> Vec<u8> {
    let mut array = string.to_vec();
    array.resize(width, 0);
    array
}

/// The text of a record's array, which is the array without its trailing zeros.
fn text_of(array: &[u8]) -> Option<&[u8]> {
    let length = array
        .iter()
        .rposition(|&byte| byte != 0)
        .map_or(0, |last| last + 1);
    text_for(array.len(), &array[..length])
}

fn platform<'a>(n: &[u64], present: u64, name: Option<&'a [u8]>) -> Platform<'a> {
    let member = |bit: usize| (present >> bit & 1 == 1).then_some(n[5 + bit]);
    Platform {
        kind: n[0] as u32,
        loader_major: n[1] as u16,
        loader_minor: n[2] as u16,
        name,
        rsdp: n[3],
        higher_half_base: member(0),
        depth: member(1).map(|depth| depth as u8),
        dtb: member(2),
        smbios: member(3),
    }
}

fn kernel<'a>(n: &[u64], guids: [&'a [u8]; 2], path: Option<&'a [u8]>) -> Kernel<'a> {
    Kernel {
        physical_base: n[0],
        virtual_base: n[1],
        size: n[2],
        partition_type: n[3],
        disk_guid: guids[0],
        partition_guid: guids[1],
        disk_index: n[4] as u32,
        partition_index: n[5] as u32,
        path,
    }
}

fn module<'a>(n: &[u64], name: Option<&'a [u8]>) -> Module<'a> {
    Module {
        kind: n[0] as u32,
        name,
        address: n[1],
        size: n[2],
    }
}

/// "of each the type, the address and the size, numbers of 8 bytes each, then the 64 bytes of its
/// name"; "a rest of fewer than 88 bytes after them counts for nothing".
fn modules(given: &[u8]) -> Vec<Module<'_>> {
    given
        .chunks_exact(LISTED_MODULE_SIZE)
        .map(|bytes| {
            let (numbers, name) = bytes.split_at(24);
            let numbers = [0, 8, 16].map(|at| u64_at(numbers, at));
            module(&numbers, text_of(name))
        })
        .collect()
}

fn framebuffer(n: &[u64]) -> Framebuffer {
    Framebuffer {
        width: n[0] as u32,
        height: n[1] as u32,
        pitch: n[2] as u32,
        bpp: n[3] as u16,
        format: n[4] as u16,
        address: n[5],
    }
}
