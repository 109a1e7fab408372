//! The worked cases of the paper and of R-4, on the model alone. Contexts are written byte by
//! byte (see `common`), never with the model's own adds.

mod common;

use common::*;
use ultra_model::calls;
use ultra_model::format::Number::{self, *};
use ultra_model::listing::listing;
use ultra_model::questions;
use ultra_model::records::{Module, Platform};
use ultra_model::stepping::Cursor;

/// The single number of a refusal.
fn refused(number: Number, offset: u64) -> u64 {
    (number as u64) << 32 | offset
}

const THIRD: u64 = 8 + 88 + 336;

/// The last page of the address space.
const TOP: u64 = 0_u64.wrapping_sub(4_096);

fn module(address: u64, size: u64) -> Vec<u8> {
    attribute(
        4,
        96,
        &[
            (12, &[1]),
            (16, b"m"),
            (80, &address.to_le_bytes()),
            (88, &size.to_le_bytes()),
        ],
    )
}

#[test]
fn the_listing_reads() {
    let bytes = listed();
    assert_eq!(bytes.len(), 480);
    assert_eq!(calls::read(&bytes), 480);

    for (index, start) in [8, 96, 432, 464].into_iter().enumerate() {
        assert_eq!(calls::attribute(&bytes, index as u64), start);
    }
    assert_eq!(calls::attribute(&bytes, 4), refused(Count, 480));
    assert_eq!(calls::attribute(&bytes, 1 << 32), refused(Count, 480));
    assert_eq!(calls::attribute(&bytes, u64::MAX), refused(Count, 480));

    let mut out = [0xEE; 33];
    assert_eq!(calls::copy_map(&bytes, &mut out), 1);
    assert_eq!(out[..24], numbers(&[1_048_576, 1_048_576, 1]));
    assert_eq!(out[24..], [0xEE; 9]);
    let mut out = [0xEE; 23];
    assert_eq!(calls::copy_map(&bytes, &mut out), refused(Room, 480));
    assert_eq!(out, [0xEE; 23]);

    assert_eq!(calls::command_line(&bytes), 472 << 32 | 5);
    assert_eq!(calls::module_holding(&bytes, 0), 0);

    let first = questions::attribute(&bytes, 0).unwrap();
    let platform = Platform::parse(first.bytes).unwrap();
    assert_eq!(
        platform,
        Platform {
            kind: 2,
            loader_major: 1,
            loader_minor: 4,
            name: Some(b"frost"),
            rsdp: 917_504,
            higher_half_base: Some(18_446_603_336_221_196_288),
            depth: Some(4),
            dtb: Some(0),
            smbios: Some(0),
        }
    );
}

#[test]
fn the_listing_is_walked() {
    let bytes = listed();
    let mut cursor = Cursor::FIRST;
    let mut found = Vec::new();
    while let Some((attribute, next)) = cursor.step(&bytes).unwrap() {
        found.push((attribute.kind, attribute.start, attribute.bytes.len()));
        cursor = next;
    }
    assert_eq!(
        found,
        [(1, 8, 88), (2, 96, 336), (3, 432, 32), (5, 464, 16)]
    );
    assert_eq!((cursor.index, cursor.offset), (4, 480));
    assert_eq!(calls::step(&bytes, 3, 464), 480);
    assert_eq!(calls::step(&bytes, 4, 480), 0);
    // At the end the offset is not looked at; below it any offset is 5 to 8.
    assert_eq!(calls::step(&bytes, 4, 3), 0);
    assert_eq!(calls::step(&bytes, 0, 480), refused(Header, 480));
    assert_eq!(calls::step(&bytes, 0, 0), refused(Header, 0));
    assert_eq!(calls::step(&bytes, 0, 12), refused(Header, 12));
    assert_eq!(
        calls::step(&bytes, 0, 0xFFFF_FFF8),
        refused(Header, 0xFFFF_FFF8)
    );
    assert_eq!(
        calls::step(&bytes, 0, 0xFFFF_FFFF),
        refused(Header, 0xFFFF_FFFF)
    );
    // An offset that belongs to another index, or to none, is not judged.
    assert_eq!(calls::step(&bytes, 3, 8), 96);
    assert_eq!(calls::step(&bytes, 0, 16), refused(Size, 16));
}

#[test]
fn the_listing_is_built() {
    let bytes = listed();
    // Silent bytes have to become zero, so the buffer is not zero before.
    let mut buf = vec![0xAB; 483];
    assert_eq!(calls::begin(&mut buf), 8);
    assert_eq!(calls::read(&buf), refused(Missing, 0));
    assert_eq!(
        calls::add_platform(
            &mut buf,
            2,
            1,
            4,
            b"frost",
            917_504,
            18_446_603_336_221_196_288,
            4,
            0,
            0
        ),
        96
    );
    assert_eq!(
        calls::add_kernel(
            &mut buf,
            2_097_152,
            18_446_744_071_564_165_120,
            65_536,
            2,
            &[0; 16],
            &[0; 16],
            0,
            1,
            b"/boot/k"
        ),
        432
    );
    assert_eq!(
        calls::add_map(&mut buf, &numbers(&[1_048_576, 1_048_576, 1])),
        464
    );
    assert_eq!(calls::add_command_line(&mut buf, b"quiet"), 480);
    assert_eq!(buf[..480], bytes);
    assert_eq!(buf[480..], [0xAB; 3]);

    let before = buf.clone();
    assert_eq!(calls::add_map(&mut buf, &[]), refused(Repeat, 480));
    assert_eq!(
        calls::add_module(&mut buf, 1, b"m", 0, 0),
        refused(Room, 480)
    );
    assert_eq!(buf, before);
}

#[test]
fn heads_on_both_sides() {
    assert_eq!(calls::read(&[1, 0, 0, 0, 2, 0, 0]), refused(Short, 0));
    assert_eq!(calls::read(&[]), refused(Short, 0));
    assert_eq!(calls::read(&[0; 8]), refused(Version, 0));
    assert_eq!(calls::read(&[1, 0, 0, 0, 0, 0, 0, 0]), refused(Missing, 0));
    assert_eq!(calls::read(&[1, 0, 0, 0, 1, 0, 0, 0]), refused(Missing, 0));
    assert_eq!(calls::read(&[1, 0, 0, 0, 1, 4, 0, 0]), refused(Count, 0));
    assert_eq!(calls::read(&[0, 0, 0, 0, 1, 4, 0, 0]), refused(Version, 0));
    assert_eq!(calls::read(&[1, 0, 0, 0, 0, 4, 0, 0]), refused(Header, 8));
    assert_eq!(calls::read(&[1, 0, 0, 0, 2, 0, 0, 0]), refused(Header, 8));
    assert_eq!(calls::begin(&mut [9; 7]), refused(Short, 0));
}

#[test]
fn headers_on_both_sides() {
    let read = |kind: u8, size: u32| {
        let mut bytes = vec![1, 0, 0, 0, 2, 0, 0, 0, kind, 0, 0, 0];
        bytes.extend(size.to_le_bytes());
        calls::read(&bytes)
    };
    assert_eq!(read(1, 12), refused(Size, 8));
    assert_eq!(read(1, 0), refused(Size, 8));
    assert_eq!(read(1, 16), refused(Overrun, 8));
    assert_eq!(read(1, 0xFFFF_FFF8), refused(Overrun, 8));
    assert_eq!(read(1, 0xFFFF_FFFF), refused(Size, 8));
    assert_eq!(read(0, 8), refused(Type, 8));
    assert_eq!(read(2, 8), refused(Place, 8));
    assert_eq!(read(3, 8), refused(Place, 8));
    assert_eq!(read(1, 8), refused(Form, 8));
}

#[test]
fn command_lines_as_written() {
    for (length, size) in [(0, 16), (7, 16), (8, 24), (15, 24), (16, 32)] {
        let mut buf = with(&[]);
        buf.extend(vec![0xAB; size]);
        let end = THIRD + size as u64;
        assert_eq!(
            calls::add_command_line(&mut buf, &vec![b'x'; length]),
            end,
            "{length}"
        );
        let text = (THIRD + 8) << 32;
        assert_eq!(calls::command_line(&buf), text | length as u64);

        // One byte of room less is not enough.
        let mut buf = with(&[]);
        buf.extend(vec![0xAB; size - 1]);
        assert_eq!(
            calls::add_command_line(&mut buf, &vec![b'x'; length]),
            refused(Room, THIRD)
        );
    }
}

#[test]
fn ranges_that_meet() {
    assert_eq!(
        calls::read(&with(&[map(&[0, 4096, 1, 4096, 1, 1])])),
        THIRD + 56
    );
    assert_eq!(
        calls::read(&with(&[map(&[0, 4097, 1, 4096, 1, 1])])),
        refused(Order, THIRD)
    );
    let mut buf = with(&[]);
    buf.extend([0; 56]);
    let uneven = numbers(&[0, 4097, 1, 4096, 1, 1]);
    assert_eq!(calls::add_map(&mut buf, &uneven), refused(Order, THIRD));
    let straight = numbers(&[0, 4096, 1, 4096, 1, 1]);
    assert_eq!(calls::add_map(&mut buf, &straight), THIRD + 56);
}

#[test]
fn the_top_of_the_address_space() {
    assert_eq!(calls::read(&with(&[map(&[TOP, 4096, 1])])), THIRD + 32);
    assert_eq!(
        calls::read(&with(&[map(&[TOP, 4097, 1])])),
        refused(Range, THIRD)
    );
    assert_eq!(calls::read(&with(&[module(TOP, 4096)])), THIRD + 96);
    assert_eq!(
        calls::read(&with(&[module(TOP, 4097)])),
        refused(Range, THIRD)
    );
    // A module up to 2^64 holds the last address; nothing may follow such an entry.
    let bytes = with(&[module(0, 1), module(TOP, 4096)]);
    assert_eq!(calls::module_holding(&bytes, u64::MAX), THIRD + 96);
    assert_eq!(calls::module_holding(&bytes, TOP - 1), 0);
    assert_eq!(calls::module_holding(&bytes, 4_096), 0);
    assert_eq!(calls::module_holding(&bytes, 1), THIRD);
    assert_eq!(calls::module_holding(&bytes, 0), THIRD);
    for after in [0, u64::MAX] {
        let entries = [TOP, 4096, 1, after, 0, 1];
        assert_eq!(calls::read(&with(&[map(&entries)])), refused(Order, THIRD));
    }
}

/// Asks a context of these modules for each address, whose answer stands beside it.
#[track_caller]
fn assert_holding(modules: &[(u64, u64)], answers: &[(u64, u64)]) {
    let attributes: Vec<_> = modules
        .iter()
        .map(|(at, size)| module(*at, *size))
        .collect();
    let bytes = with(&attributes);
    for (address, start) in answers {
        let answer = calls::module_holding(&bytes, *address);
        assert_eq!(answer, *start, "{address} of {modules:?}");
    }
}

#[test]
fn a_module_fills_its_last_page() {
    // "A module of 4,097 bytes at 8,192 holds 16,383 and not 16,384."
    assert_holding(&[(8_192, 4_097)], &[(16_383, THIRD), (16_384, 0)]);
    for (size, end) in [
        (1, 12_288),
        (4_095, 12_288),
        (4_096, 12_288),
        (4_097, 16_384),
        (8_191, 16_384),
        (8_192, 16_384),
        (8_193, 20_480),
    ] {
        let held = [8_192, 8_191 + size, (8_192 + size).min(end - 1), end - 1];
        assert_holding(&[(8_192, size)], &held.map(|address| (address, THIRD)));
        let beside = [0, 8_191, end, end + 1, u64::MAX];
        assert_holding(&[(8_192, size)], &beside.map(|address| (address, 0)));
    }
    // "a size of 0 still holds nothing"
    for address in [0, 8_192, TOP] {
        let near = [
            0,
            address,
            address + 1,
            address + 4_095,
            address.wrapping_sub(1),
            u64::MAX,
        ];
        assert_holding(&[(address, 0)], &near.map(|address| (address, 0)));
    }
}

#[test]
fn the_last_page_of_all_is_filled_too() {
    for (address, size) in [
        (TOP, 1),
        (TOP, 4_095),
        (TOP, 4_096),
        (TOP - 4_096, 4_097),
        (4_096, TOP - 4_095),
        (4_096, TOP),
    ] {
        let held = [address, TOP, TOP + 1, u64::MAX - 1, u64::MAX];
        assert_holding(&[(address, size)], &held.map(|address| (address, THIRD)));
        assert_holding(&[(address, size)], &[(0, 0), (address - 1, 0)]);
    }
    // Sizes above 2^64 - 4,096 become 2^64, and hold every address.
    for size in [TOP + 1, u64::MAX - 1, u64::MAX] {
        let all = [0, 1, 4_096, TOP - 1, TOP, u64::MAX - 1, u64::MAX];
        assert_holding(&[(0, size)], &all.map(|address| (address, THIRD)));
    }
    let short = [(0, THIRD), (TOP - 1, THIRD), (TOP, 0), (u64::MAX, 0)];
    assert_holding(&[(0, TOP)], &short);
    assert_holding(&[(0, TOP - 1)], &short);
}

#[test]
fn the_first_module_that_holds_an_address_is_answered() {
    // From 8,193 on past the size of one and within that of the other.
    let (low, high, second) = ((4_096, 4_097), (8_192, 4_096), THIRD + 96);
    for modules in [[low, high], [high, low]] {
        let first = [8_192, 8_193, 12_287].map(|address| (address, THIRD));
        assert_holding(&modules, &first);
        assert_holding(&modules, &[(12_288, 0)]);
    }
    assert_holding(&[high, low], &[(8_191, second)]);
    assert_holding(&[(8_192, 0), high], &[(8_192, second), (12_287, second)]);
    assert_holding(&[(0, 1), (0, u64::MAX)], &[(4_095, THIRD), (4_096, second)]);
    assert_holding(&[(0, u64::MAX), (TOP, 4_096)], &[(u64::MAX, THIRD)]);
}

#[test]
fn only_the_question_about_an_address_rounds() {
    let bytes = with(&[module(8_192, 4_097)]);
    let lines = listing(&bytes);
    let lines = str::from_utf8(&lines).unwrap();
    assert!(lines.contains("\nmodule=1,8192,4097\n"), "{lines}");
    let third = questions::attribute(&bytes, 2).unwrap();
    assert_eq!(Module::parse(third.bytes).unwrap().size, 4_097);
    // The range rule goes by the size as it is, in reading and in adding.
    for (size, answer) in [
        (4_095, THIRD + 96),
        (4_096, THIRD + 96),
        (4_097, refused(Range, THIRD)),
    ] {
        assert_eq!(calls::read(&with(&[module(TOP, size)])), answer);
        let mut buf = with(&[]);
        buf.extend([0; 96]);
        assert_eq!(calls::add_module(&mut buf, 1, b"m", TOP, size), answer);
    }
}

#[test]
fn types_stand_together() {
    assert_eq!(calls::read(&with(&[other(7), other(7)])), THIRD + 16);
    assert_eq!(
        calls::read(&with(&[other(7), other(8), other(7)])),
        refused(Split, THIRD + 16)
    );
    assert_eq!(
        calls::read(&with(&[module(0, 1), other(8), module(0, 1)])),
        refused(Split, THIRD + 104)
    );
    // 10 before 12: a second map of a size outside the table.
    assert_eq!(
        calls::read(&with(&[map(&[]), attribute(3, 16, &[])])),
        refused(Repeat, THIRD + 8)
    );
    let mut buf = with(&[module(0, 1), other(8)]);
    buf.extend([0; 96]);
    assert_eq!(
        calls::add_module(&mut buf, 1, b"", 0, 0),
        refused(Split, THIRD + 104)
    );
}

#[test]
fn a_map_of_another_size_does_not_pass() {
    for size in [16, 24, 40, 48] {
        let uneven = attribute(3, size, &[(8, &vec![1; size as usize - 8])]);
        assert_eq!(calls::read(&with(&[uneven])), refused(Form, THIRD));
    }
    assert_eq!(calls::read(&with(&[map(&[])])), THIRD + 8);
    let mut buf = with(&[]);
    buf.extend([0; 64]);
    assert_eq!(calls::add_map(&mut buf, &[1; 25]), refused(Form, THIRD));
    assert_eq!(calls::add_map(&mut buf, &[1; 8]), refused(Form, THIRD));
    assert_eq!(calls::add_map(&mut buf, &[]), THIRD + 8);
}

#[test]
fn a_map_type_has_64_bits() {
    assert_eq!(calls::read(&with(&[map(&[0, 0, 1 << 32])])), THIRD + 32);
    assert_eq!(
        calls::read(&with(&[map(&[0, 0, 0])])),
        refused(Value, THIRD)
    );
    // All entries are tried for 13, then 15, then 16.
    let late_value = [8, 8, 1, 0, 0, 1, 0, 0, 0];
    assert_eq!(
        calls::read(&with(&[map(&late_value)])),
        refused(Value, THIRD)
    );
    let late_range = [8, 8, 1, 0, 0, 1, u64::MAX, 2, 1];
    assert_eq!(
        calls::read(&with(&[map(&late_range)])),
        refused(Range, THIRD)
    );
}

#[test]
fn a_short_platform_has_no_dtb() {
    let present = |size: u32| {
        let bytes = context(&[platform(size), kernel()]);
        assert_eq!(calls::read(&bytes), 8 + u64::from(size) + 336);
        let first = questions::attribute(&bytes, 0).unwrap();
        let record = Platform::parse(first.bytes).unwrap();
        [
            record.higher_half_base.is_some(),
            record.depth.is_some(),
            record.dtb.is_some(),
            record.smbios.is_some(),
        ]
    };
    assert_eq!(present(56), [false, false, false, false]);
    assert_eq!(present(64), [true, false, false, false]);
    assert_eq!(present(72), [true, true, false, false]);
    assert_eq!(present(80), [true, true, true, false]);
    assert_eq!(present(88), [true, true, true, true]);
    assert_eq!(present(96), [true, true, true, true]);
    assert_eq!(
        calls::read(&context(&[attribute(1, 48, &[(8, &[2])]), kernel()])),
        refused(Form, 8)
    );
}

#[test]
fn texts_end_in_their_field() {
    let mut bytes = with(&[]);
    bytes[8 + 16..8 + 47].fill(b'n');
    assert_eq!(calls::read(&bytes), THIRD);
    bytes[8 + 47] = b'n';
    assert_eq!(calls::read(&bytes), refused(Text, 8));
    bytes[8 + 18] = 0;
    bytes[8 + 20] = 0xFF;
    assert_eq!(calls::read(&bytes), THIRD, "silent after the zero");
    bytes[8 + 17] = 0x80;
    assert_eq!(calls::read(&bytes), refused(Text, 8));

    // A zero of the next attribute closes no command line.
    let line = attribute(5, 16, &[(8, b"12345678")]);
    assert_eq!(calls::read(&with(&[line, other(7)])), refused(Text, THIRD));

    let add = |name: &[u8], path: &[u8]| {
        let mut buf = vec![0; 432];
        calls::begin(&mut buf);
        let answer = calls::add_platform(&mut buf, 1, 0, 0, name, 0, 0, 0, 0, 0);
        if answer != 96 {
            return answer;
        }
        calls::add_kernel(&mut buf, 0, 0, 0, 1, &[7; 16], &[8; 16], 0, 0, path)
    };
    assert_eq!(add(&[b'n'; 31], b"/"), 432);
    assert_eq!(add(&[b'n'; 32], b"/"), refused(Text, 8));
    assert_eq!(add(b"n\0", b"/"), refused(Text, 8));
    assert_eq!(add(b"", b""), refused(Text, 96));
    assert_eq!(add(b"", b"k/"), refused(Text, 96));
    assert_eq!(add(b"", b"/\xFF"), 432);
    assert_eq!(add(b"", &[b'/'; 255]), 432);
    assert_eq!(add(b"", &[b'/'; 256]), refused(Text, 96));
}

#[test]
fn guids_have_sixteen_bytes() {
    let add = |disk: &[u8], partition: &[u8], partition_type: u64| {
        let mut buf = vec![0; 432];
        calls::begin(&mut buf);
        calls::add_platform(&mut buf, 1, 0, 0, b"", 0, 0, 0, 0, 0);
        calls::add_kernel(
            &mut buf,
            0,
            0,
            0,
            partition_type,
            disk,
            partition,
            0,
            0,
            b"/",
        )
    };
    assert_eq!(add(&[0; 16], &[0; 16], 1), 432);
    assert_eq!(add(&[0; 15], &[0; 16], 1), refused(Form, 96));
    assert_eq!(add(&[0; 16], &[0; 17], 0), refused(Form, 96));
    assert_eq!(add(&[0; 16], &[0; 16], 0), refused(Value, 96));
    // 9 before 12.
    let mut buf = with(&[]);
    assert_eq!(
        calls::add_kernel(&mut buf, 0, 0, 0, 0, &[], &[], 0, 0, b""),
        refused(Place, THIRD)
    );
}

#[test]
fn pitch_and_range_of_a_framebuffer() {
    let add = |width, height, pitch, bpp, format, address| {
        let mut buf = with(&[]);
        buf.extend([0xAB; 32]);
        calls::add_framebuffer(&mut buf, width, height, pitch, bpp, format, address)
    };
    assert_eq!(add(100, 1, 300, 24, 1, 0), THIRD + 32);
    assert_eq!(add(100, 1, 299, 24, 1, 0), refused(Value, THIRD));
    assert_eq!(add(100, 1, 400, 32, 4, 0), THIRD + 32);
    assert_eq!(add(100, 1, 399, 32, 4, 0), refused(Value, THIRD));
    assert_eq!(add(0, 0, 0, 32, 2, 0), refused(Value, THIRD));
    assert_eq!(add(0, 0, 0, 32, 5, 0), refused(Value, THIRD));
    // 2^27 × 32 is 2^32, and 2^16 × 2^16 too: neither wraps.
    assert_eq!(add(1 << 27, 1, 0, 32, 3, 0), refused(Value, THIRD));
    let last = 0_u64.wrapping_sub(1 << 32);
    assert_eq!(add(0, 1 << 16, 1 << 16, 32, 3, last), THIRD + 32);
    assert_eq!(
        add(0, 1 << 16, 1 << 16, 32, 3, last + 1),
        refused(Range, THIRD)
    );
}

#[test]
fn nothing_past_the_room_counts() {
    // An attribute up to exactly 65,536, and one eight bytes longer.
    let upto = |end: u32, length: usize| {
        let rest = end - THIRD as u32;
        let mut bytes = with(&[attribute(9, rest, &[])]);
        bytes.resize(length, 0);
        bytes
    };
    assert_eq!(calls::read(&upto(65_536, 65_536)), 65_536);
    assert_eq!(calls::read(&upto(65_536, 70_000)), 65_536);
    assert_eq!(calls::read(&upto(65_544, 70_000)), refused(Overrun, THIRD));
    let mut exact = upto(65_536 - 32, 70_000);
    assert_eq!(
        calls::add_framebuffer(&mut exact, 0, 0, 0, 24, 1, 0),
        65_536
    );
    let mut short = upto(65_536 - 24, 70_000);
    assert_eq!(
        calls::add_framebuffer(&mut short, 0, 0, 0, 24, 1, 0),
        refused(Room, 65_512)
    );
    // One more attribute asked for than the room has.
    let mut header = upto(65_536, 70_000);
    header[4] = 4;
    assert_eq!(calls::read(&header), refused(Header, 65_536));
}

#[test]
fn a_full_list_takes_no_more() {
    let list = |count: usize| {
        let mut bytes = with(&vec![other(7); count - 2]);
        bytes.extend([0; 400]);
        bytes
    };
    let used = |count: u64| THIRD + 8 * (count - 2);
    assert_eq!(calls::read(&list(1_024)), used(1_024));
    assert_eq!(calls::read(&list(1_025)), refused(Count, 0));
    let full = refused(Full, used(1_024));
    // 17 before 9 and 12.
    let mut buf = list(1_024);
    assert_eq!(calls::add_map(&mut buf, &[1]), full);
    assert_eq!(
        calls::add_platform(&mut buf, 0, 0, 0, b"", 0, 0, 0, 0, 0),
        full
    );
    let mut buf = list(1_023);
    assert_eq!(calls::add_map(&mut buf, &[]), used(1_024));
    assert_eq!(buf[4..8], [0, 4, 0, 0]);
}

#[test]
fn silent_bytes_change_nothing() {
    let mut bytes = with(&[module(0, 1), other(7)]);
    let used = calls::read(&bytes);
    bytes[2..4].fill(0xFF);
    bytes[8 + 65..8 + 72].fill(0xFF);
    bytes[96 + 83..96 + 336].fill(0xFF);
    bytes[432 + 8..432 + 12].fill(0xFF);
    bytes[432 + 18..432 + 80].fill(0xFF);
    bytes.extend([0xFF; 9]);
    assert_eq!(calls::read(&bytes), used);
    // A foreign version is kept by an add, and so are the silent bytes.
    bytes[0] = 7;
    bytes[1] = 9;
    bytes.resize(used as usize + 24, 0xFF);
    let before = bytes.clone();
    assert_eq!(calls::add_command_line(&mut bytes, b"8 bytes."), used + 24);
    assert_eq!(bytes[..4], before[..4]);
    assert_eq!(bytes[4..8], [5, 0, 0, 0]);
    assert_eq!(bytes[8..used as usize], before[8..used as usize]);
    assert_eq!(
        bytes[used as usize..],
        *b"\x05\0\0\0\x18\0\0\08 bytes.\0\0\0\0\0\0\0\0"
    );
}
