//! The listing of contexts that are written byte by byte, against lines written by hand.

mod common;

use common::*;
use ultra_model::listing::listing;

/// Bytes 1 to 127 as they print.
#[rustfmt::skip]
const LOW: &str = concat!(
    "%01%02%03%04%05%06%07%08%09%0A%0B%0C%0D%0E%0F%10%11%12%13%14%15%16%17%18%19%1A",
    "%1B%1C%1D%1E%1F !\"#$%25&'()*+,-./0123456789:;<=>?@ABCDEFGHIJKLMNOPQRSTUVWXYZ[\\",
    "]^_`abcdefghijklmnopqrstuvwxyz{|}~%7F",
);

/// Bytes 128 to 255 as they print, which only a path has.
#[rustfmt::skip]
const HIGH: &str = concat!(
    "%80%81%82%83%84%85%86%87%88%89%8A%8B%8C%8D%8E%8F%90%91%92%93%94%95%96%97%98%99",
    "%9A%9B%9C%9D%9E%9F%A0%A1%A2%A3%A4%A5%A6%A7%A8%A9%AA%AB%AC%AD%AE%AF%B0%B1%B2%B3",
    "%B4%B5%B6%B7%B8%B9%BA%BB%BC%BD%BE%BF%C0%C1%C2%C3%C4%C5%C6%C7%C8%C9%CA%CB%CC%CD",
    "%CE%CF%D0%D1%D2%D3%D4%D5%D6%D7%D8%D9%DA%DB%DC%DD%DE%DF%E0%E1%E2%E3%E4%E5%E6%E7",
    "%E8%E9%EA%EB%EC%ED%EE%EF%F0%F1%F2%F3%F4%F5%F6%F7%F8%F9%FA%FB%FC%FD%FE%FF",
);

/// The lines of `platform(88)` and `kernel()` in a context of this many attributes.
fn opening(count: usize) -> String {
    format!(
        "version=1.0\nattributes={count}\nplatform=2\nloader=0.0\nname=\nrsdp=0\nhalf=0\n\
         depth=0\ndtb=0\nsmbios=0\nkernel=0,0,0\npartition=2,0,0\npath=/k\n"
    )
}

#[track_caller]
fn assert_listing(input: &[u8], expected: &str) {
    let listed = String::from_utf8(listing(input)).expect("a listing has no byte above 126");
    assert_eq!(listed, expected);
}

/// The value of the first line with this key.
fn value(input: &[u8], key: &str) -> Option<String> {
    let lines = String::from_utf8(listing(input)).expect("a listing has no byte above 126");
    let found = lines
        .lines()
        .find_map(|line| line.strip_prefix(key)?.strip_prefix('='));
    found.map(str::to_string)
}

#[test]
fn the_papers_listing() {
    let expected = "\
version=1.0
attributes=4
platform=2
loader=1.4
name=frost
rsdp=917504
half=18446603336221196288
depth=4
dtb=0
smbios=0
kernel=2097152,18446744071564165120,65536
partition=2,0,1
path=/boot/k
map=1
range=1048576,1048576,1
cmdline=quiet
used=480
";
    assert_eq!(listed().len(), 480);
    assert_listing(&listed(), expected);
}

/// A platform with every member and an odd byte in every silent place.
fn full_platform() -> Vec<u8> {
    attribute(
        1,
        96,
        &[
            (8, &[0xFF; 4]),
            (12, &[0xFF, 0xFF, 0x0A, 0]),
            (16, b"cold store\0junk"),
            (48, &[0xFF; 8]),
            (56, &1u64.to_le_bytes()),
            (64, &[255, 1, 2, 3, 4, 5, 6, 7]),
            (72, &[0, 0, 0, 0, 1, 0, 0, 0]),
            (80, &[0, 0, 0, 0, 0, 0, 0, 0x80]),
            (88, &[9; 8]),
        ],
    )
}

/// A kernel on a partition of type 3, with GUIDs of the bytes 0xA0 to 0xBF.
fn guid_kernel() -> Vec<u8> {
    let guids: Vec<u8> = (0xA0..=0xBF).collect();
    attribute(
        2,
        344,
        &[
            (8, &[0, 0x10]),
            (16, &[0, 0xF0, 0xFF, 0xFF, 0xFF, 0xFF, 0xFF, 0xFF]),
            (24, &[0, 0x10]),
            (32, &[3]),
            (40, &guids),
            (72, &[7, 0, 0, 0, 0xFF, 0xFF, 0xFF, 0xFF]),
            (80, b"/a,b=c \0junk"),
            (336, &[9; 8]),
        ],
    )
}

fn named_module(kind: u8, name: &[u8], address: u64, size: u64) -> Vec<u8> {
    attribute(
        4,
        96,
        &[
            (8, &[9; 4]),
            (12, &[kind]),
            (16, name),
            (80, &address.to_le_bytes()),
            (88, &size.to_le_bytes()),
        ],
    )
}

fn screen() -> Vec<u8> {
    attribute(
        6,
        40,
        &[
            (8, &1024u32.to_le_bytes()),
            (12, &768u32.to_le_bytes()),
            (16, &4096u32.to_le_bytes()),
            (20, &[32, 0, 3, 0]),
            (24, &0xE000_0000u64.to_le_bytes()),
            (32, &[9; 8]),
        ],
    )
}

/// The lines of the context in `every_type`.
const EVERY_TYPE: &str = "\
version=7.90
attributes=10
platform=4294967295
loader=65535.10
name=cold store
rsdp=18446744073709551615
half=1
depth=255
dtb=4294967296
smbios=9223372036854775808
kernel=4096,18446744073709547520,4096
partition=3,7,4294967295
guids=A0A1A2A3A4A5A6A7A8A9AAABACADAEAFB0B1B2B3B4B5B6B7B8B9BABBBCBDBEBF
path=/a,b=c\u{20}
other=4294967295,8
fb=1024,768,4096,32,3,3758096384
module=2,4096,10
modname=first
module=1,0,18446744073709551615
modname=
other=7,24
other=7,8
cmdline=a=1 %25
map=3
range=0,0,1
range=10,20,4294967296
range=18446744073709551615,1,18446744073709551615
used=824
";

#[test]
fn every_type() {
    let mut bytes = context(&[
        full_platform(),
        guid_kernel(),
        other(u32::MAX),
        screen(),
        named_module(2, b"first", 4096, 10),
        named_module(1, b"", 0, u64::MAX),
        attribute(7, 24, &[(8, &[9; 16])]),
        attribute(7, 8, &[]),
        attribute(5, 24, &[(8, b"a=1 %\0junk")]),
        map(&[0, 0, 1, 10, 20, 1 << 32, u64::MAX, 1, u64::MAX]),
    ]);
    bytes[..4].copy_from_slice(&[7, 90, 9, 9]);
    let used = bytes.len();
    bytes.extend([9; 100]);
    assert_eq!(used, 824);
    assert_listing(&bytes, EVERY_TYPE);
}

#[test]
fn guids_only_for_partition_type_3() {
    for kind in [1, 2, 4, 0x103, 0x1_0003, 3 + (1 << 32), 3 + (1 << 63)] {
        let mut kernel = guid_kernel();
        kernel[32..40].copy_from_slice(&u64::to_le_bytes(kind));
        let bytes = context(&[platform(88), kernel]);
        let partition = format!("{kind},7,4294967295");
        assert_eq!(value(&bytes, "partition"), Some(partition));
        assert_eq!(value(&bytes, "guids"), None);
    }
}

/// A size below that of `full_platform` cuts the late members off.
#[test]
fn absent_platform_members() {
    let full = ["1", "255", "4294967296", "9223372036854775808"];
    for (size, present) in [(56, 0), (64, 1), (72, 2), (80, 3), (88, 4), (96, 4)] {
        let mut platform = full_platform();
        platform.truncate(size);
        platform[4] = size as u8;
        let bytes = context(&[platform, kernel()]);
        assert_eq!(
            value(&bytes, "rsdp").as_deref(),
            Some("18446744073709551615")
        );
        for (at, key) in ["half", "depth", "dtb", "smbios"].into_iter().enumerate() {
            let expected = if at < present { full[at] } else { "-" };
            assert_eq!(value(&bytes, key).as_deref(), Some(expected));
        }
        let used = (8 + size + 336).to_string();
        assert_eq!(value(&bytes, "used"), Some(used));
    }
}

#[test]
fn escapes_in_a_path() {
    for (bytes, printed) in [(1..=127, LOW), (128..=255, HIGH)] {
        let path: Vec<u8> = std::iter::once(b'/').chain(bytes).collect();
        let kernel = attribute(2, 336, &[(32, &[2]), (80, &path)]);
        let bytes = context(&[platform(88), kernel]);
        assert_eq!(value(&bytes, "path"), Some(format!("/{printed}")));
    }
}

#[test]
fn escapes_in_a_command_line() {
    let text: Vec<u8> = (1..=127).collect();
    let bytes = with(&[attribute(5, 136, &[(8, &text)])]);
    assert_eq!(value(&bytes, "cmdline").as_deref(), Some(LOW));
}

/// The bytes 1 to 127 in names of at most `most` bytes, and how all of them print.
fn printed_in_names(most: usize, key: &str, name: impl Fn(&[u8]) -> Vec<u8>) -> String {
    let all: Vec<u8> = (1..=127).collect();
    let names = all.chunks(most);
    names
        .filter_map(|bytes| value(&name(bytes), key))
        .collect::<String>()
}

#[test]
fn escapes_in_names() {
    let loader = |name: &[u8]| {
        let platform = attribute(1, 88, &[(8, &[2]), (16, name)]);
        context(&[platform, kernel()])
    };
    assert_eq!(printed_in_names(31, "name", loader), LOW);
    let module = |name: &[u8]| with(&[named_module(1, name, 0, 0)]);
    assert_eq!(printed_in_names(63, "modname", module), LOW);
}

#[test]
fn empty_texts_have_their_lines() {
    let bytes = with(&[
        named_module(1, b"\0after", 0, 0),
        attribute(5, 16, &[(8, b"\0after")]),
    ]);
    let more = "module=1,0,0\nmodname=\ncmdline=\nused=544\n";
    assert_listing(&bytes, &(opening(4) + more));
}

#[test]
fn what_is_not_there_has_no_line() {
    assert_listing(&with(&[]), &(opening(2) + "used=432\n"));
    assert_listing(&with(&[map(&[])]), &(opening(3) + "map=0\nused=440\n"));
}

#[test]
fn a_refusal_is_a_single_line() {
    assert_listing(&[], "refused=1,0\n");
    assert_listing(&[1; 7], "refused=1,0\n");
    assert_listing(&[0; 8], "refused=2,0\n");
    assert_listing(&[1, 0, 0, 0, 1, 4, 0, 0], "refused=3,0\n");
    assert_listing(&[1, 0, 0, 0, 0, 0, 0, 0], "refused=4,0\n");
    assert_listing(&[1, 0, 0, 0, 2, 0, 0, 0], "refused=5,8\n");
    let mut open = listed();
    open[472..].fill(b'q');
    assert_listing(&open, "refused=14,464\n");
    assert_listing(&listed()[..479], "refused=7,464\n");
    let crossed = with(&[map(&[0, 4097, 1, 4096, 1, 1])]);
    assert_listing(&crossed, "refused=16,432\n");
}

#[test]
fn the_room_ends_at_65536() {
    let mut long = listed();
    long.resize(70_000, 0xEE);
    assert_eq!(listing(&long), listing(&listed()));

    // From 432 on there are 65,104 bytes of room.
    let mut exact = with(&[attribute(7, 65_104, &[])]);
    exact.extend([0xEE; 5_000]);
    let expected = opening(3) + "other=7,65104\nused=65536\n";
    assert_listing(&exact, &expected);

    let mut past = with(&[attribute(7, 65_112, &[])]);
    past.extend([0xEE; 5_000]);
    assert_listing(&past, "refused=7,432\n");

    let mut one_more = with(&[attribute(7, 65_104, &[]), other(7)]);
    one_more.extend([0xEE; 5_000]);
    assert_listing(&one_more, "refused=5,65536\n");
}

#[test]
fn the_longest_line() {
    // A platform of 56 bytes, a kernel, and a text of all the room that is left.
    let size = 65_536 - 8 - 56 - 336;
    let mut line = attribute(5, size, &[]);
    line[8..size as usize - 1].fill(127);
    let bytes = context(&[platform(56), kernel(), line]);
    let text = value(&bytes, "cmdline").expect("the line is accepted");
    assert_eq!(text, "%7F".repeat(65_127));
}
