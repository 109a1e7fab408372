//! Contexts exported to Handover payloads, on the model alone. Contexts and payloads are
//! written byte by byte, from the paper's table and from 002, never with the model.

#[allow(dead_code)] // A part of it is for the other tests.
mod common;

use common::*;
use ultra_model::format::Number::{self, *};
use ultra_model::requests::export::{export, List};
use ultra_model::requests::handover::{read, write};
use ultra_model::Refusal;

const FREE: u32 = 0x0000_0000;
const SELF: u32 = 0xa24f_988d;
const STACK: u32 = 0xf65b_391b;
const KERNEL: u32 = 0xbfc7_1b20;
const LOADER: u32 = 0xf1f8_0c26;
const FILE: u32 = 0xcbc3_6d3b;
const RSDP: u32 = 0x8ef2_9c18;
const CMDLINE: u32 = 0x4351_40c4;
const RESERVED: u32 = 0xb884_1d2d;
const END: u32 = 0xffff_ffff;

/// What an output has before an export.
const JUNK: u8 = 0xAB;
const LOAD: u64 = 2_097_152;
/// Where an RSDP ends at 2^64.
const LAST_RSDP: u64 = u64::MAX - 19;

/// The paper's listing exported to 2,097,152, 188 bytes.
#[rustfmt::skip]
const LISTED: [u8; 188] = [
    0x01, 0xb0, 0x01, 0xc0, 0, 0, 0, 0, 188, 0, 0, 0, 5, 0, 0, 0, // Magic, agent, size, count.
    // 16: SELF from 0x200000, 188 bytes.
    0x8d, 0x98, 0x4f, 0xa2, 0, 0, 0, 0, 0, 0, 0x20, 0, 0, 0, 0, 0,
    188, 0, 0, 0, 0, 0, 0, 0, 0, 0, 0, 0, 0, 0, 0, 0,
    // 48: FREE from 0x100000, 0x100000 bytes.
    0, 0, 0, 0, 0, 0, 0, 0, 0, 0, 0x10, 0, 0, 0, 0, 0,
    0, 0, 0x10, 0, 0, 0, 0, 0, 0, 0, 0, 0, 0, 0, 0, 0,
    // 80: CMDLINE, its meta at 6.
    0xc4, 0x40, 0x51, 0x43, 0, 0, 0, 0, 0, 0, 0, 0, 0, 0, 0, 0,
    0, 0, 0, 0, 0, 0, 0, 0, 0, 0, 0, 0, 6, 0, 0, 0,
    // 112: RSDP at 0xE0000, 20 bytes.
    0x18, 0x9c, 0xf2, 0x8e, 0, 0, 0, 0, 0, 0, 0x0e, 0, 0, 0, 0, 0,
    20, 0, 0, 0, 0, 0, 0, 0, 0, 0, 0, 0, 0, 0, 0, 0,
    // 144: the end.
    0xff, 0xff, 0xff, 0xff, 0, 0, 0, 0, 0, 0, 0, 0, 0, 0, 0, 0,
    0, 0, 0, 0, 0, 0, 0, 0, 0, 0, 0, 0, 0, 0, 0, 0,
    // 176: the table.
    b'f', b'r', b'o', b's', b't', 0,
    b'q', b'u', b'i', b'e', b't', 0,
];

// ---- Contexts ----

/// A platform of this type and size, with a name and an RSDP address.
fn loader(kind: u32, size: u32, name: &[u8], rsdp: u64) -> Vec<u8> {
    let (kind, rsdp) = (kind.to_le_bytes(), rsdp.to_le_bytes());
    attribute(1, size, &[(8, &kind), (16, name), (48, &rsdp)])
}

fn module(name: &[u8], address: u64, size: u64) -> Vec<u8> {
    let (address, size) = (address.to_le_bytes(), size.to_le_bytes());
    attribute(
        4,
        96,
        &[(12, &[1]), (16, name), (80, &address), (88, &size)],
    )
}

fn line(text: &[u8]) -> Vec<u8> {
    let size = 8 + (text.len() + 1).next_multiple_of(8);
    attribute(5, size as u32, &[(8, text)])
}

fn framebuffer() -> Vec<u8> {
    attribute(
        6,
        32,
        &[(8, &[4]), (12, &[4]), (16, &[16]), (20, &[32]), (22, &[3])],
    )
}

/// A map of this many ranges of type 1, a page each.
fn pages(count: u64) -> Vec<u8> {
    let entries = (0..count).flat_map(|i| [4_096 * i, 4_096, 1]);
    map(&entries.collect::<Vec<u64>>())
}

/// A context of a platform, a kernel and these attributes.
fn after(platform: Vec<u8>, more: &[Vec<u8>]) -> Vec<u8> {
    context(&[&[platform, kernel()], more].concat())
}

/// A context whose payload has so many bytes: 150 ranges and a line. Nothing has a name.
fn long(size: usize) -> Vec<u8> {
    let text = vec![b'x'; size - (16 + 32 * 153 + 1 + 1)];
    with(&[pages(150), line(&text)])
}

// ---- Payloads ----

fn record(tag: u32, start: u64, size: u64, name: u32, meta: u32) -> Vec<u8> {
    let mut bytes = [tag, 0].map(u32::to_le_bytes).concat();
    bytes.extend([start, size].map(u64::to_le_bytes).concat());
    bytes.extend([name, meta].map(u32::to_le_bytes).concat());
    bytes
}

/// The payload at `load` of these records between SELF and the end, and of this table.
fn payload(load: u64, records: &[Vec<u8>], table: &[u8]) -> Vec<u8> {
    let count = records.len() as u32 + 2;
    let size = 16 + 32 * count + table.len() as u32;
    let head = [0xc001_b001, 0, size, count];
    let mut bytes = head.map(u32::to_le_bytes).concat();
    bytes.extend(record(SELF, load, size.into(), 0, 0));
    bytes.extend(records.concat());
    bytes.extend(record(END, 0, 0, 0, 0));
    bytes.extend(table);
    bytes
}

// ---- Exporting ----

/// What is answered, and the output afterwards, which was `length` bytes of junk.
fn exported(context: &[u8], load: u64, length: usize) -> (Result<usize, Refusal>, Vec<u8>) {
    let mut out = vec![JUNK; length];
    let answer = export(context, load, &mut out);
    (answer, out)
}

/// The context is exported to these bytes, in every output that has room for them, and refused as
/// 18 in a shorter one. The payload is read, and what is past it stays.
#[track_caller]
fn exports_to(context: &[u8], load: u64, payload: &[u8]) {
    let size = payload.len();
    for length in [size, size + 1, size + 40, 65_536, 70_000] {
        let (answer, out) = exported(context, load, length);
        assert_eq!(answer, Ok(size), "{length} bytes");
        assert!(out[..size] == *payload, "{:?}", &out[..size]);
        assert!(out[size..].iter().all(|&byte| byte == JUNK));
        assert_eq!(read(&out).map(|payload| payload.size), Ok(size));
    }
    for length in [0, 1, 15, 16, 17, size / 2, size - 1] {
        refuses(context, load, length, Room);
    }
}

/// The export is refused by this number at 0, and the output stays.
#[track_caller]
fn refuses(context: &[u8], load: u64, length: usize, number: Number) {
    let (answer, out) = exported(context, load, length);
    assert_eq!(answer, Err(Refusal { number, offset: 0 }));
    assert!(out == vec![JUNK; length]);
}

/// The payload, where there is room for it.
#[track_caller]
fn export_of(context: &[u8]) -> Vec<u8> {
    let (answer, mut out) = exported(context, LOAD, 65_536);
    out.truncate(answer.unwrap());
    out
}

/// How many records, where there is room for them.
fn records_of(context: &[u8]) -> Result<usize, Refusal> {
    let (answer, out) = exported(context, 0, 65_536);
    answer.map(|_| read(&out).unwrap().records.len())
}

#[test]
fn the_listed_context_is_exported() {
    let sample = include_bytes!("../../../samples/listing.bin");
    assert_eq!(sample[..], listed());
    exports_to(sample, LOAD, &LISTED);
    // What comes after the context counts for nothing.
    for more in [vec![0; 7], line(b"after"), vec![0xFF; 66_000]] {
        let longer = [&sample[..], &more].concat();
        exports_to(&longer, LOAD, &LISTED);
    }
}

#[test]
fn the_least_context_has_81_bytes() {
    let least = payload(LOAD, &[], b"\0");
    assert_eq!(least.len(), 81);
    exports_to(&with(&[]), LOAD, &least);
    exports_to(&context(&[platform(56), kernel()]), LOAD, &least);
}

#[test]
fn records_come_in_the_requests_order() {
    let entries = [0, 5, 1, 4_096, 0, 2, 8_192, 1, 0xFFFF_0003];
    let groups = [
        vec![map(&entries)],
        vec![module(b"one", 4_096, 9), module(b"two", 0, u64::MAX)],
        vec![line(b"quiet x")],
        vec![framebuffer(), other(7), other(7), other(u32::MAX)],
    ];
    let expected = payload(
        LOAD,
        &[
            record(FREE, 0, 5, 0, 0),
            record(RESERVED, 4_096, 0, 0, 0),
            record(STACK, 8_192, 1, 0, 0),
            record(FILE, 4_096, 9, 5, 9),
            record(FILE, 0, u64::MAX, 10, 14),
            record(CMDLINE, 0, 0, 0, 15),
            record(RSDP, 77, 20, 0, 0),
        ],
        b"boot\0one\0\0two\0\0quiet x\0",
    );
    let orders = [
        [0, 1, 2, 3],
        [1, 0, 2, 3],
        [2, 1, 0, 3],
        [3, 2, 1, 0],
        [3, 0, 2, 1],
    ];
    for order in orders {
        let more = order.map(|group| groups[group].clone()).concat();
        exports_to(&after(loader(2, 88, b"boot", 77), &more), LOAD, &expected);
    }
}

#[test]
fn files_come_in_the_contexts_order() {
    let modules = [("b", 8_192), ("a", 4_096), ("b", 8_192), ("c", 0)];
    let attributes = modules.map(|(name, address)| module(name.as_bytes(), address, 1));
    let mut records = Vec::new();
    for (index, (_, address)) in modules.iter().enumerate() {
        let name = 1 + 3 * index as u32;
        records.push(record(FILE, *address, 1, name, name + 2));
    }
    let table = b"\0b\0\0a\0\0b\0\0c\0\0";
    exports_to(&with(&attributes), LOAD, &payload(LOAD, &records, table));
}

#[test]
fn without_ranges_there_is_none() {
    let none = payload(LOAD, &[record(CMDLINE, 0, 0, 0, 1)], b"\0x\0");
    exports_to(&with(&[line(b"x")]), LOAD, &none);
    exports_to(&with(&[map(&[]), line(b"x")]), LOAD, &none);
    let file = payload(LOAD, &[record(FILE, 0, 3, 1, 3)], b"\0m\0\0");
    exports_to(&with(&[module(b"m", 0, 3)]), LOAD, &file);
    exports_to(&with(&[module(b"m", 0, 3), map(&[])]), LOAD, &file);
}

#[test]
fn types_are_compared_in_64_bits() {
    let wide = 1 << 32;
    for (kind, tag) in [
        (1, FREE),
        (2, RESERVED),
        (3, RESERVED),
        (4, RESERVED),
        (5, RESERVED),
        (0xFFFF_0000, RESERVED),
        (0xFFFF_0001, LOADER),
        (0xFFFF_0002, RESERVED),
        (0xFFFF_0003, STACK),
        (0xFFFF_0004, KERNEL),
        (0xFFFF_0005, RESERVED),
        (0xFFFF_FFFF, RESERVED),
        (wide, RESERVED),
        (wide + 1, RESERVED),
        (wide + 0xFFFF_0001, RESERVED),
        (wide + 0xFFFF_0003, RESERVED),
        (wide + 0xFFFF_0004, RESERVED),
        (1 << 63 | 1, RESERVED),
        (0xFFFF_FFFF_0000_0001, RESERVED),
        (0xFFFF_FFFF_FFFF_0001, RESERVED),
        (u64::MAX, RESERVED),
    ] {
        let range = payload(LOAD, &[record(tag, 7, 8, 0, 0)], b"\0");
        exports_to(&with(&[map(&[7, 8, kind])]), LOAD, &range);
    }
}

#[test]
fn every_range_is_exported() {
    // Of size 0, without a gap, and up to 2^64.
    let top = 0u64.wrapping_sub(4_096);
    let entries = [0, 0, 1, 0, 0, 1, 0, 4_096, 1, 4_096, 0, 2, top, 4_096, 1];
    let records = [
        record(FREE, 0, 0, 0, 0),
        record(FREE, 0, 0, 0, 0),
        record(FREE, 0, 4_096, 0, 0),
        record(RESERVED, 4_096, 0, 0, 0),
        record(FREE, top, 4_096, 0, 0),
    ];
    exports_to(
        &with(&[map(&entries)]),
        LOAD,
        &payload(LOAD, &records, b"\0"),
    );
    let most = payload(LOAD, &[record(FREE, 0, u64::MAX, 0, 0)], b"\0");
    exports_to(&with(&[map(&[0, u64::MAX, 1])]), LOAD, &most);
}

#[test]
fn a_line_is_there_or_not() {
    let empty = payload(LOAD, &[record(CMDLINE, 0, 0, 0, 1)], b"\0\0");
    exports_to(&with(&[line(b"")]), LOAD, &empty);
    // Up to its zero.
    let followed = attribute(5, 24, &[(8, b"\0after")]);
    exports_to(&with(&[followed]), LOAD, &empty);
    let followed = attribute(5, 32, &[(8, b"ab\0cd\0"), (31, b"x")]);
    let text = payload(LOAD, &[record(CMDLINE, 0, 0, 0, 1)], b"\0ab\0");
    exports_to(&with(&[followed]), LOAD, &text);
    exports_to(&with(&[]), LOAD, &payload(LOAD, &[], b"\0"));
}

#[test]
fn names_end_at_their_zero() {
    let long = [b'n'; 63];
    let modules = [
        module(&long, 0, 1),
        module(b"", 0, 1),
        module(b"m\0xyz", 0, 1),
    ];
    let records = [
        record(FILE, 0, 1, 32, 96),
        record(FILE, 0, 1, 97, 98),
        record(FILE, 0, 1, 99, 101),
    ];
    let agent = [b'a'; 31];
    let table = [&agent[..], b"\0", &long, b"\0\0", b"\0\0", b"m\0\0"].concat();
    let context = after(loader(2, 88, &agent, 0), &modules);
    exports_to(&context, LOAD, &payload(LOAD, &records, &table));
    let followed = after(loader(2, 88, b"ab\0cd", 0), &[]);
    exports_to(&followed, LOAD, &payload(LOAD, &[], b"ab\0"));
}

#[test]
fn a_file_has_the_modules_size() {
    for size in [0, 1, 4_095, 4_096, 4_097, 1 << 40] {
        let mut kind_2 = module(b"m", 8_192, size);
        kind_2[12] = 2;
        let file = payload(LOAD, &[record(FILE, 8_192, size, 1, 3)], b"\0m\0\0");
        exports_to(&with(&[module(b"m", 8_192, size)]), LOAD, &file);
        exports_to(&with(&[kind_2]), LOAD, &file);
    }
}

#[test]
fn an_rsdp_ends_at_the_top_at_most() {
    let context = |rsdp| after(loader(2, 88, b"", rsdp), &[]);
    exports_to(&context(0), LOAD, &payload(LOAD, &[], b"\0"));
    for rsdp in [1, 917_504, 1 << 63, LAST_RSDP - 1, LAST_RSDP] {
        let record = payload(LOAD, &[record(RSDP, rsdp, 20, 0, 0)], b"\0");
        exports_to(&context(rsdp), LOAD, &record);
    }
    for rsdp in [LAST_RSDP + 1, LAST_RSDP + 2, u64::MAX] {
        for length in [0, 112, 113, 70_000] {
            refuses(&context(rsdp), LOAD, length, Range);
            refuses(&context(rsdp), u64::MAX, length, Range);
        }
    }
}

#[test]
fn a_payload_ends_at_the_top_at_most() {
    let context = listed();
    let last = 0u64.wrapping_sub(188);
    for load in [0, 1, 4_095, 1 << 32, 1 << 63, last - 1, last] {
        let mut expected = LISTED;
        expected[24..32].copy_from_slice(&load.to_le_bytes());
        exports_to(&context, load, &expected);
    }
    for load in [last + 1, last + 2, u64::MAX] {
        for length in [0, 16, 187, 188, 70_000] {
            refuses(&context, load, length, Range);
        }
    }
}

#[test]
fn all_records_count() {
    let [rsdp_0, rsdp_1] = [0, 1].map(|rsdp| loader(2, 88, b"", rsdp));
    let (file, line) = (module(b"m", 0, 1), line(b"x"));
    // Besides SELF and the end there may be 1,022.
    for (platform, ranges, more) in [
        (&rsdp_0, 1_022, vec![]),
        (&rsdp_0, 1_021, vec![file.clone()]),
        (&rsdp_0, 1_021, vec![line.clone()]),
        (&rsdp_1, 1_021, vec![]),
        (
            &rsdp_1,
            1_018,
            vec![file.clone(), file.clone(), line.clone()],
        ),
        // What is left behind does not count.
        (&rsdp_0, 1_022, vec![framebuffer(), other(7), other(8)]),
    ] {
        let context = |ranges| {
            let more = [&[pages(ranges)], &more[..]].concat();
            after(platform.clone(), &more)
        };
        assert_eq!(records_of(&context(ranges - 1)), Ok(1_023));
        assert_eq!(records_of(&context(ranges)), Ok(1_024));
        for ranges in [ranges + 1, ranges + 2, 1_500] {
            for (load, length) in [(0, 70_000), (0, 0), (u64::MAX, 70_000), (u64::MAX, 16)] {
                refuses(&context(ranges), load, length, Count);
            }
        }
    }
    // 3 before 15 for the RSDP.
    let past = after(loader(2, 88, b"", u64::MAX), &[pages(1_022)]);
    refuses(&past, 0, 70_000, Count);
}

#[test]
fn a_payload_has_at_most_so_many_bytes() {
    let whole = long(65_536);
    let short = long(65_535);
    for length in [65_536, 65_537, 70_000] {
        let (answer, out) = exported(&whole, LOAD, length);
        assert_eq!(answer, Ok(65_536));
        assert_eq!(read(&out).map(|payload| payload.size), Ok(65_536));
        assert!(out[65_536..].iter().all(|&byte| byte == JUNK));
        assert_eq!(exported(&short, LOAD, length).0, Ok(65_535));
    }
    assert_eq!(exported(&short, LOAD, 65_535).0, Ok(65_535));
    refuses(&whole, LOAD, 65_535, Room);
    for size in [65_537, 65_600] {
        for length in [0, 65_535, 65_536, 65_537, 70_000] {
            refuses(&long(size), LOAD, length, Room);
        }
    }
}

#[test]
fn the_true_size_is_added() {
    // 15 before 18, by the size that the payload would have.
    for size in [65_536, 65_537, 65_600] {
        let last = 0u64.wrapping_sub(size as u64);
        for length in [0, 65_535, 70_000] {
            refuses(&long(size), last + 1, length, Range);
            refuses(&long(size), u64::MAX, length, Range);
        }
        refuses(&long(size), last, 65_535, Room);
    }
    let last = 0u64.wrapping_sub(65_536);
    assert_eq!(exported(&long(65_536), last, 70_000).0, Ok(65_536));
    // One that the room would pass.
    refuses(&long(65_537), last, 70_000, Range);
    refuses(&long(65_537), last - 1, 70_000, Room);
}

#[test]
fn what_is_not_exported_is_left_behind() {
    let plain = payload(LOAD, &[], b"ab\0");
    for kind in [1, 2, 3, u32::MAX] {
        exports_to(&after(loader(kind, 88, b"ab", 0), &[]), LOAD, &plain);
    }
    for size in [56, 64, 72, 80, 88, 96] {
        exports_to(&after(loader(2, size, b"ab", 0), &[]), LOAD, &plain);
    }
    // Device tree, higher half, depth and SMBIOS.
    let mut full = loader(2, 88, b"ab", 0);
    full[56..88].fill(0x11);
    exports_to(&after(full, &[]), LOAD, &plain);
    let others = [framebuffer(), other(7), other(7), other(0x1_0005)];
    exports_to(&after(loader(2, 88, b"ab", 0), &others), LOAD, &plain);
    // Another version.
    let mut foreign = after(loader(2, 88, b"ab", 0), &[]);
    foreign[..4].copy_from_slice(&[7, 9, 0xEE, 0xEE]);
    exports_to(&foreign, LOAD, &plain);
}

#[test]
fn the_readers_refusal_comes_first() {
    let at = |number: Number, offset: u32| Err(Refusal { number, offset });
    let mut version = listed();
    version[0] = 0;
    let mut count = listed();
    count[5] = 4;
    let top = 0u64.wrapping_sub(4_096);
    let second_line = [line(b"x"), line(b"y")];
    let past_the_room = with(&[attribute(7, 65_104, &[]), other(8)]);
    for (buffer, refusal) in [
        (vec![], at(Short, 0)),
        (vec![1; 7], at(Short, 0)),
        (version, at(Version, 0)),
        (count, at(Count, 0)),
        (context(&[]), at(Missing, 0)),
        (context(&[platform(88)]), at(Missing, 0)),
        (listed()[..479].to_vec(), at(Overrun, 464)),
        (with(&[map(&[top, 4_097, 1])]), at(Range, 432)),
        (with(&[map(&[0, 2, 1, 1, 1, 1])]), at(Order, 432)),
        (with(&[module(b"m", 1, 1)]), at(Value, 432)),
        (with(&second_line), at(Repeat, 448)),
        (with(&[module(&[b'm'; 64], 0, 1)]), at(Text, 432)),
        (past_the_room, at(Header, 65_536)),
    ] {
        for load in [0, u64::MAX] {
            for length in [0, 15, 1_000, 70_000] {
                let (answer, out) = exported(&buffer, load, length);
                assert_eq!(answer, refusal);
                assert!(out == vec![JUNK; length]);
            }
        }
    }
}

#[test]
fn a_payload_reads_as_the_list() {
    let more = [module(b"m", 4_096, 9), pages(2), line(b"quiet")];
    let context = after(loader(2, 88, b"boot", 5), &more);
    let out = export_of(&context);
    let list = List::of(&context, LOAD).unwrap();
    let payload = read(&out).unwrap();
    assert_eq!((payload.size, payload.agent), (list.size(), 0));
    assert_eq!(&out[payload.agent_name], list.agent);
    assert_eq!(payload.records.len(), list.items.len());
    for (listed, item) in payload.records.iter().zip(&list.items) {
        let record = listed.record;
        assert_eq!((record.tag, record.flags), (item.tag, 0));
        assert_eq!((record.start, record.size), (item.start, item.size));
        for (place, string) in [(&listed.name, item.name), (&listed.meta, item.meta)] {
            assert_eq!(place.start != 0, string.is_some());
            assert_eq!(&out[place.clone()], string.unwrap_or_default());
        }
    }
    let tags: Vec<u32> = list.items.iter().map(|item| item.tag).collect();
    assert_eq!(tags, [SELF, FREE, FREE, FILE, CMDLINE, RSDP, END]);
}

/// Writes the list with R-2's call.
fn written(list: &List, out: &mut [u8]) -> Result<usize, Refusal> {
    let (mut records, mut parts, mut run) = (vec![], vec![], vec![]);
    let mut lend = |string: Option<&[u8]>| {
        let string = string.unwrap_or_default();
        parts.extend([run.len() as u64, string.len() as u64]);
        run.extend(string);
    };
    lend(Some(list.agent));
    for item in &list.items {
        records.extend(record(item.tag, item.start, item.size, 0, 0));
        lend(item.name);
        lend(item.meta);
    }
    write(out, &records, &parts, &run)
}

#[test]
fn the_form_is_the_written_one() {
    let [good, past] = [LAST_RSDP, LAST_RSDP + 1].map(|rsdp| loader(2, 88, b"boot", rsdp));
    let more = [module(b"m", 4_096, 9), module(b"", 0, 0), line(b"quiet")];
    let many = |ranges| [&[pages(ranges)], &more[..]].concat();
    for context in [
        listed(),
        with(&[]),
        after(good.clone(), &many(2)),
        after(past.clone(), &many(2)),
        after(good.clone(), &many(1_018)),
        after(good, &many(1_019)),
        after(past, &many(1_019)),
        long(65_536),
        long(65_537),
    ] {
        for load in [0, 1 << 63, u64::MAX - 65_535, u64::MAX - 187, u64::MAX] {
            let list = List::of(&context, load).unwrap();
            for length in [0, 81, 188, list.size() - 1, list.size(), 70_000] {
                let (answer, out) = exported(&context, load, length);
                let mut other = vec![JUNK; length];
                assert_eq!(answer, written(&list, &mut other));
                assert!(out == other);
            }
        }
    }
}
