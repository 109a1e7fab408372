//! Frames, and the driver program by the model: each length on both sides of what it may be,
//! and what the page on the program says of its calls.

#[allow(dead_code)] // A part of it is for the other tests.
mod common;

use common::{attribute, kernel, listed, numbers, platform, with};
use ultra_model::driving::frame::*;
use ultra_model::driving::table::*;
use ultra_model::driving::{Answer, Driver, MALFORMED};

fn frame(call: u32, numbers: &[u64], strings: &[&[u8]]) -> Vec<u8> {
    let strings: Vec<Lent> = strings.iter().map(|string| Lent::Bytes(string)).collect();
    let mut out = Vec::new();
    put_frame(&mut out, call, numbers, &strings);
    out
}

fn kept(call: u32, numbers: &[u64], strings: &[&[u8]]) -> Vec<u8> {
    let strings = strings.iter().map(|string| Lent::Bytes(string));
    let strings: Vec<Lent> = [Lent::Kept].into_iter().chain(strings).collect();
    let mut out = Vec::new();
    put_frame(&mut out, call, numbers, &strings);
    out
}

/// The frame with another word at one of its places.
fn with_word(mut frame: Vec<u8>, at: usize, word: u32) -> Vec<u8> {
    frame[at..at + 4].copy_from_slice(&word.to_le_bytes());
    frame
}

fn answer(call: u32, numbers: &[u64], strings: &[&[u8]]) -> Answer {
    Driver::default().answer(&frame(call, numbers, strings))
}

fn is_malformed(frame: &[u8]) -> bool {
    Driver::default().answer(frame).call == MALFORMED
}

#[test]
fn a_frame_is_these_bytes() {
    let bytes = [
        3, 0, 0, 0, 2, 0, 0, 0, 1, 0, 0, 0, 23, 0, 0, 0, // Call, numbers, strings, rest.
        1, 0, 0, 0, 0, 0, 0, 0, 0, 1, 0, 0, 0, 0, 0, 128, // 1, 2^63 + 256.
        3, 0, 0, 0, 97, 98, 99, // "abc"
    ];
    assert_eq!(frame(3, &[1, 1 << 63 | 256], &[b"abc"]), bytes);
    let parsed = Frame {
        call: 3,
        numbers: vec![1, 1 << 63 | 256],
        strings: vec![Lent::Bytes(b"abc")],
    };
    assert_eq!(parse_frame(&bytes), Some(parsed));
}

#[test]
fn frames_are_parsed_as_they_are_put() {
    let strings: [&[Lent]; 5] = [
        &[],
        &[Lent::Kept],
        &[Lent::Bytes(b"")],
        &[Lent::Kept, Lent::Bytes(b""), Lent::Bytes(b"x")],
        &[Lent::Bytes(b"xyz"), Lent::Bytes(&[0; 300])],
    ];
    for strings in strings {
        for numbers in [&[][..], &[u64::MAX], &[1, 2, 3]] {
            let mut bytes = Vec::new();
            put_frame(&mut bytes, 77, numbers, strings);
            let parsed = parse_frame(&bytes).unwrap();
            assert_eq!((parsed.call, &parsed.numbers[..]), (77, numbers));
            assert_eq!(parsed.strings, strings);
        }
    }
}

#[test]
fn lengths_add_up_or_it_is_no_frame() {
    let good = frame(3, &[1, 2], &[b"abc", b"de"]);
    assert!(parse_frame(&good).is_some());
    for length in 0..good.len() {
        assert_eq!(parse_frame(&good[..length]), None, "{length} bytes");
    }
    assert_eq!(parse_frame(&[&good[..], &[0]].concat()), None);
    // Counts and lengths one off, and counts that are right modulo 2^32.
    for (at, words) in [
        (4, &[1, 3, 2 + (1 << 29)][..]),
        (8, &[1, 3, 2 + (1 << 30)]),
        (32, &[2, 4, u32::MAX - 3]),
        (39, &[1, 3, u32::MAX]),
    ] {
        for word in words {
            let bytes = with_word(good.clone(), at, *word);
            assert_eq!(parse_frame(&bytes), None, "{word} at {at}");
        }
    }
}

#[test]
fn only_the_buffer_is_kept() {
    let bytes = with_word(frame(8, &[], &[b"", b""]), 16, KEPT);
    assert_eq!(parse_frame(&bytes).unwrap().strings[0], Lent::Kept);
    let bytes = with_word(frame(8, &[], &[b"", b""]), 20, KEPT);
    assert_eq!(parse_frame(&bytes), None);
}

#[test]
fn a_frame_has_at_most_so_many_bytes() {
    let head = |rest| Head {
        call: 1,
        numbers: 0,
        strings: 1,
        rest,
    };
    assert!(!head(1_048_576 - 16).is_too_long());
    assert!(head(1_048_576 - 15).is_too_long());
    assert!(head(u32::MAX).is_too_long());
    assert_eq!(Head::of(&head(5).bytes()), head(5));
}

#[test]
fn counts_are_the_tables() {
    for call in 1..=LAST {
        let (n, s) = arguments(call).unwrap();
        let made = |n: usize, s: usize| frame(call, &vec![0; n], &vec![&[][..]; s]);
        assert!(!is_malformed(&made(n, s)), "call {call}");
        assert!(is_malformed(&made(n + 1, s)), "call {call}");
        assert!(is_malformed(&made(n, s + 1)), "call {call}");
        assert!(n == 0 || is_malformed(&made(n - 1, s)), "call {call}");
        assert!(s == 0 || is_malformed(&made(n, s - 1)), "call {call}");
    }
    for call in [0, LAST + 1, 63, 257, u32::MAX] {
        assert!(is_malformed(&frame(call, &[], &[b""])), "call {call}");
    }
}

#[test]
fn memory_is_so_long() {
    let zeros = vec![0; 131_073];
    assert!(!is_malformed(&frame(READ, &[], &[&zeros[..131_072]])));
    assert!(is_malformed(&frame(READ, &[], &[&zeros])));
    for call in [COPY_MAP, ADD_MAP] {
        assert!(!is_malformed(&frame(call, &[], &[b"", &zeros[..72_007]])));
        assert!(is_malformed(&frame(call, &[], &[b"", &zeros[..72_008]])));
    }
    // 16 modules of 88 bytes, with as many bytes left over as are no module; then one more.
    for (length, too_long) in [
        (1_408, false),
        (1_495, false),
        (1_496, true),
        (131_073, true),
    ] {
        let modules = frame(ADD_MODULES, &[], &[b"", &zeros[..length]]);
        assert_eq!(is_malformed(&modules), too_long, "{length} bytes");
    }
    for call in [
        COPY_MAP_BYTES,
        COMMAND_LINE,
        MEMBERS_ADD_MAP,
        ADD_COMMAND_LINE,
        LIST,
    ] {
        assert!(!is_malformed(&frame(call, &[], &[b"", &zeros])));
    }
    // Of what is written the parts alone have a limit.
    for (length, too_long) in [(72_007, false), (72_008, true)] {
        let parts = frame(HANDOVER_WRITE, &[], &[b"", b"", &zeros[..length], b""]);
        assert_eq!(is_malformed(&parts), too_long, "{length} bytes");
    }
    let long = frame(HANDOVER_WRITE, &[], &[b"", &zeros, b"", &zeros]);
    assert!(!is_malformed(&long));
    assert!(!is_malformed(&frame(EXPORT, &[0], &[b"", &zeros])));
    assert!(is_malformed(&frame(EXPORT, &[0], &[&zeros, b""])));
}

#[test]
fn the_buffer_is_kept() {
    let mut driver = Driver::default();
    assert_eq!(driver.answer(&kept(READ, &[], &[])).numbers, [1, 0, 0, 0]);
    driver.answer(&frame(BEGIN, &[], &[&[7; 20]]));
    assert_eq!(driver.buffer[..9], [1, 0, 0, 0, 0, 0, 0, 0, 7]);
    driver.answer(&frame(FIRST, &[], &[]));
    assert!(driver.answer(&frame(READ, &[0], &[b"x"])).call == MALFORMED);
    let too_long = frame(ADD_MAP, &[], &[b"x", &[0; 72_008]]);
    assert!(driver.answer(&too_long).call == MALFORMED);
    let read = driver.answer(&kept(READ, &[], &[]));
    assert_eq!((read.numbers[0], driver.buffer.len()), (4, 20));
}

#[test]
fn the_program_ends() {
    let read = frame(READ, &[], &[&listed()]);
    let one = Driver::run(&read);
    assert_eq!(Driver::run(&[]), []);
    for length in 1..read.len() {
        assert_eq!(Driver::run(&[&read, &read[..length]].concat()), one);
    }
    let malformed = frame(MALFORMED, &[], &[]);
    let too_long = with_word(frame(READ, &[], &[b""]), 12, 1_048_561);
    let ends = [&read[..], &too_long, &read].concat();
    assert_eq!(Driver::run(&ends), [&one[..], &malformed].concat());
    let unknown = frame(99, &[], &[]);
    let goes_on = [&read[..], &unknown, &read].concat();
    assert_eq!(Driver::run(&goes_on), [&one[..], &malformed, &one].concat());
}

#[test]
fn the_listed_context_is_answered() {
    let context = listed();
    let ask = |call, numbers: &[u64], strings: &[&[u8]]| {
        let strings = [&[&context[..]], strings].concat();
        answer(call, numbers, &strings)
    };
    assert_eq!(ask(READ, &[], &[]).numbers, [0, 480, 1, 0]);
    assert_eq!(answer(FIRST, &[], &[]).numbers, [0, 0, 0, 8]);
    let step = ask(STEP, &[1 << 32 | 1, 96], &[]).numbers;
    assert_eq!(step, [0, 432, 1, 2, 96, 336, 2, 432]);
    let step = ask(STEP, &[4, 480], &[]).numbers;
    assert_eq!(step, [0; 8]);
    assert_eq!(ask(ATTRIBUTE_START, &[4], &[]).numbers, [3, 480]);
    let part = ask(ATTRIBUTE_PART, &[2], &[]);
    assert_eq!(part.numbers, [0, 0, 440, 24]);
    assert_eq!(part.strings, [numbers(&[1_048_576, 1_048_576, 1])]);
    let copied = ask(COPY_MAP, &[], &[&[9; 39]]);
    assert_eq!(copied.numbers, [0, 1]);
    assert_eq!(
        copied.strings[0][16..],
        [1, 0, 0, 0, 0, 0, 0, 0, 9, 9, 9, 9, 9, 9, 9, 9]
    );
    let copied = ask(COPY_MAP_BYTES, &[], &[&[9; 23]]);
    assert_eq!(
        (copied.numbers, copied.strings),
        (vec![18, 480], vec![vec![9; 23]])
    );
    let line = ask(COMMAND_LINE, &[], &[b"board"]);
    assert_eq!(
        (line.numbers, line.strings),
        (vec![0, 0, 472, 5], vec![b"quiet".to_vec()])
    );
    let part = ask(COMMAND_LINE_PART, &[], &[]);
    assert_eq!(part.numbers, [0, 0, 472, 5]);
    assert_eq!(part.strings, [[0u8; 0]; 0]);
    let length = ask(LISTING_LENGTH, &[], &[]).numbers[1];
    let short = vec![9; length as usize - 1];
    let list = ask(LIST, &[], &[&short]);
    assert_eq!((list.numbers, list.strings), (vec![18, 0], vec![short]));
}

#[test]
fn a_frame_of_a_board_is_these_bytes() {
    let bytes = [
        9, 0, 0, 0, 0, 0, 0, 0, 2, 0, 0, 0, 12, 0, 0, 0, // No number, two strings.
        255, 255, 255, 255, // The buffer kept.
        4, 0, 0, 0, b'a', 0, 255, 0, // The board's text.
    ];
    assert_eq!(kept(COMMAND_LINE, &[], &[b"a\0\xff\0"]), bytes);

    let mut out = Vec::new();
    let mut driver = Driver::default();
    let answer = driver.answer(&bytes);
    driver.put_answer(&mut out, &answer);
    // Four zeros, an empty buffer, and all of the board's text.
    assert_eq!(out, frame(9, &[0; 4], &[b"", b"a\0\xff\0"]));
}

#[test]
fn a_line_is_answered_with_the_boards_text() {
    let line = |text: &[u8]| with(&[attribute(5, 16, &[(8, text)])]);
    let refused = |text: &[u8]| [&[0][..], &line(text)[1..]].concat();
    let long = [b'x'; 70_000];
    for board in [&b""[..], b"board", b"\0", b"bo\0ard\0", b"\x80\xff", &long] {
        for (buffer, numbers, text) in [
            (line(b"quiet"), [0, 0, 440, 5], &b"quiet"[..]),
            (line(b""), [0, 0, 440, 0], b""),
            (line(b"\0after"), [0, 0, 440, 0], b""),
            (with(&[]), [0; 4], board),
            (refused(b"quiet"), [0; 4], board),
            (refused(b""), [0; 4], board),
            (vec![], [0; 4], board),
        ] {
            let mut driver = Driver::default();
            let answer = driver.answer(&frame(COMMAND_LINE, &[], &[&buffer, board]));
            assert_eq!((answer.call, answer.lent), (9, true));
            assert_eq!(answer.numbers, numbers);
            assert!(answer.strings == [text]);
            // Call 10 says where the line lies, and hands nothing back.
            let part = driver.answer(&kept(COMMAND_LINE_PART, &[], &[]));
            assert_eq!((&part.numbers, part.strings.len()), (&answer.numbers, 0));
            assert_eq!(driver.buffer, buffer);
        }
    }
}

#[test]
fn a_line_is_not_asked_for_without_a_board() {
    let mut driver = Driver::default();
    driver.answer(&frame(READ, &[], &[&listed()]));
    let no_board = [
        kept(COMMAND_LINE, &[], &[]),
        frame(COMMAND_LINE, &[], &[b"x"]),
        kept(COMMAND_LINE, &[], &[b"x", b""]),
        kept(COMMAND_LINE, &[0], &[b"x"]),
        // The board's text is not kept.
        with_word(kept(COMMAND_LINE, &[], &[b""]), 20, KEPT),
    ];
    for frame in no_board {
        assert_eq!(driver.answer(&frame).call, MALFORMED);
        assert_eq!(driver.buffer, listed());
    }
}

#[test]
fn members_are_handed_back() {
    let context = with(&[]);
    let first = answer(ATTRIBUTE, &[0], &[&context]);
    assert_eq!(first.numbers.len(), 31);
    assert_eq!(first.numbers[..8], [0, 8, 1, 8, 88, 0, 0, 2]);
    assert_eq!(first.numbers[11], 0b1111);
    let widths: Vec<usize> = first.strings.iter().map(Vec::len).collect();
    assert_eq!(widths, [32, 16, 16, 256, 64]);
    let second = answer(ATTRIBUTE, &[1], &[&context]);
    assert_eq!(second.numbers[16..22], [0, 0, 0, 2, 0, 0]);
    assert_eq!(second.strings[3][..3], *b"/k\0");

    for (size, present) in [(56, 0), (64, 1), (72, 3), (80, 7), (88, 15), (96, 15)] {
        let context = common::context(&[platform(size), kernel()]);
        let numbers = answer(ATTRIBUTE, &[0], &[&context]).numbers;
        assert_eq!(numbers[11], present, "{size} bytes");
    }
}

#[test]
fn texts_of_records_are_arrays() {
    let begun = [&[1, 0, 0, 0, 0, 0, 0, 0][..], &[0xEE; 88]].concat();
    let add = |name: &[u8], present: u64| {
        let members = [2, 1, 4, 0, present, 5, 6, 7, 8];
        answer(ADD_PLATFORM, &members, &[&begun, name]).numbers
    };
    let full = [b'a'; 40];
    assert_eq!(add(b"", 15), [0, 96]);
    assert_eq!(add(&full[..31], 15), [0, 96]);
    assert_eq!(add(&full[..32], 15), [14, 8]);
    assert_eq!(add(b"ab\0\0", 15), [0, 96]);
    assert_eq!(add(b"ab\0c", 15), [14, 8]);
    // What is past the array is left out, be it a text or not.
    assert_eq!(add(&full, 15), [14, 8]);
    assert_eq!(add(&[&full[..31], b"\0bc"].concat(), 15), [0, 96]);
    assert_eq!(add(b"ab", 0xF0 | 15), [0, 96]);
    for absent in 0..15 {
        assert_eq!(add(b"ab", absent), [12, 8], "present {absent}");
    }
}

#[test]
fn members_are_taken_as_they_are() {
    let begun = [&[1, 0, 0, 0, 0, 0, 0, 0][..], &[0xEE; 88]].concat();
    let add = |name: &[u8], complete: u64| {
        let members = [1 << 32 | 2, 1, 4, 0, complete, 5, 256 | 6, 7, 8];
        answer(MEMBERS_ADD_PLATFORM, &members, &[&begun, name]).numbers
    };
    assert_eq!(add(b"ab", 1), [0, 96]);
    assert_eq!(add(b"ab", 1 << 32), [0, 96]);
    assert_eq!(add(b"ab", 0), [12, 8]);
    assert_eq!(add(b"ab\0", 1), [14, 8]);

    let context = with(&[]);
    let context = [&context[..], &[0xEE; 32]].concat();
    let map = numbers(&[0, 4096, 1]);
    let left_over = [&map[..], &[1; 7]].concat();
    let add = |call, entries: &[u8]| answer(call, &[], &[&context, entries]).numbers;
    assert_eq!(add(ADD_MAP, &map), [0, 464]);
    assert_eq!(add(ADD_MAP, &left_over), [0, 464]);
    assert_eq!(add(ADD_MAP, &map[..16]), [12, 432]);
    assert_eq!(add(MEMBERS_ADD_MAP, &left_over), [12, 432]);
}

/// A module of a list: its numbers, and its name with zeros after it.
fn listed_module(kind: u64, address: u64, size: u64, name: &[u8]) -> Vec<u8> {
    let mut bytes = [numbers(&[kind, address, size]), name.to_vec()].concat();
    assert!(bytes.len() <= LISTED_MODULE_SIZE);
    bytes.resize(LISTED_MODULE_SIZE, 0);
    bytes
}

/// The attribute of a module of type 1.
fn module_attribute(address: u64, size: u64, name: &[u8]) -> Vec<u8> {
    let (address, size) = (address.to_le_bytes(), size.to_le_bytes());
    let members = [(12, &[1][..]), (16, name), (80, &address), (88, &size)];
    attribute(4, 96, &members)
}

#[test]
fn modules_are_answered_with_their_number() {
    let [a, b] = [b"a", b"b"].map(|name| listed_module(1, 4096, 7, name));
    let context = [with(&[]), vec![0xEE; 200]].concat();
    let mut driver = Driver::default();
    let answer = driver.answer(&frame(ADD_MODULES, &[], &[&context, &[a, b].concat()]));
    assert_eq!((answer.call, answer.lent), (25, true));
    assert_eq!((answer.numbers, answer.strings.len()), (vec![0, 624, 2], 0));
    let modules = [b"a", b"b"].map(|name| module_attribute(4096, 7, name));
    assert_eq!(driver.buffer, [with(&modules), vec![0xEE; 8]].concat());
}

#[test]
fn a_frame_of_modules_is_these_bytes() {
    let module = listed_module(2, 0x1000, 0x0102, b"m");
    let mut bytes = vec![
        25, 0, 0, 0, 0, 0, 0, 0, 2, 0, 0, 0, 96, 0, 0, 0, // No number, two strings.
        255, 255, 255, 255, // The buffer kept.
        88, 0, 0, 0, // One module: type 2, address 4096, size 258, name "m".
        2, 0, 0, 0, 0, 0, 0, 0, 0, 16, 0, 0, 0, 0, 0, 0, 2, 1, 0, 0, 0, 0, 0, 0, b'm',
    ];
    bytes.resize(16 + 4 + 4 + 88, 0);
    assert_eq!(kept(ADD_MODULES, &[], &[&module]), bytes);

    let mut out = Vec::new();
    let mut driver = Driver::default();
    let answer = driver.answer(&bytes);
    driver.put_answer(&mut out, &answer);
    // 1 with offset 0 and none added, and an empty buffer.
    assert_eq!(out, frame(25, &[1, 0, 0], &[b""]));
}

#[test]
fn no_modules_are_told_as_zeros() {
    let mut driver = Driver::default();
    let at_the_start = driver.answer(&kept(ADD_MODULES, &[], &[b""]));
    assert_eq!(at_the_start.numbers, [0; 3]);
    for left_over in [0, 1, 87] {
        let list = vec![1; left_over];
        for buffer in [&[][..], &[7; 7], &[9; 100], &listed()] {
            let answer = driver.answer(&frame(ADD_MODULES, &[], &[buffer, &list]));
            assert_eq!(answer.numbers, [0; 3]);
            // It is the buffer that is kept, though the call does not look at it.
            assert_eq!(driver.buffer, buffer);
        }
    }
}

#[test]
fn a_refusal_leaves_the_modules_before_it() {
    let good = listed_module(1, 0, 1, b"a");
    let context = [with(&[]), vec![0xEE; 300]].concat();
    let one = [with(&[module_attribute(0, 1, b"a")]), vec![0xEE; 204]].concat();
    for (bad, number) in [
        (listed_module(3, 0, 1, b"b"), 13),
        (listed_module(1 << 32, 0, 1, b"b"), 13),
        (listed_module(1, 8, 1, b"b"), 13),
        (listed_module(1, 0, 1, &[b'b'; 64]), 14),
        (listed_module(1, 0, 1, b"b\0b"), 14),
        (listed_module(1, 0, 1, b"\x80"), 14),
        (listed_module(1, 4096, u64::MAX - 4094, b"b"), 15),
    ] {
        let list = [&good[..], &bad, &good].concat();
        let mut driver = Driver::default();
        let answer = driver.answer(&frame(ADD_MODULES, &[], &[&context, &list]));
        assert_eq!(answer.numbers, [number, 528, 1]);
        assert_eq!(driver.buffer, one);
        // The buffer kept has them, too.
        let read = driver.answer(&kept(READ, &[], &[]));
        assert_eq!(read.numbers, [0, 528, 1, 0]);
        let more = driver.answer(&kept(ADD_MODULES, &[], &[&good]));
        assert_eq!(more.numbers, [0, 624, 1]);
    }
}

#[test]
fn members_of_listed_modules_are_as_of_records() {
    let context = [with(&[]), vec![0xEE; 96]].concat();
    let add = |module: Vec<u8>| {
        let mut driver = Driver::default();
        let answer = driver.answer(&frame(ADD_MODULES, &[], &[&context, &module]));
        (answer.numbers, driver.buffer)
    };
    let added = |name: &[u8]| (vec![0, 528, 1], with(&[module_attribute(0, 1, name)]));
    let full = [b'a'; 63];
    // A type is taken by its low bits, and a name without the zeros after it.
    assert_eq!(add(listed_module(1 << 32 | 1, 0, 1, b"ab")), added(b"ab"));
    assert_eq!(
        add(listed_module(u64::MAX << 32 | 1, 0, 1, b"")),
        added(b"")
    );
    assert_eq!(add(listed_module(1, 0, 1, &full)), added(&full));
    // Bytes left over are no part of a module.
    let left_over = [listed_module(1, 0, 1, b"ab"), vec![0xFF; 87]].concat();
    assert_eq!(add(left_over), added(b"ab"));
}

#[test]
fn sixteen_modules_are_added_and_seventeen_are_none() {
    let module = listed_module(1, 0, 1, b"a");
    let context = [with(&[]), vec![0xEE; 17 * 96]].concat();
    let mut driver = Driver::default();
    let most = frame(ADD_MODULES, &[], &[&context, &module.repeat(16)]);
    assert_eq!(driver.answer(&most).numbers, [0, 432 + 16 * 96, 16]);
    // The buffer that was kept stays, and no module is taken out of a frame with too many.
    let before = driver.buffer.clone();
    let too_many = module.repeat(17);
    for frame in [
        frame(ADD_MODULES, &[], &[&context, &too_many]),
        kept(ADD_MODULES, &[], &[&too_many]),
    ] {
        assert_eq!(driver.answer(&frame).call, MALFORMED);
        assert_eq!(driver.buffer, before);
    }
}

/// A file with the name "k" and the meta "", and the end; the agent is "ab".
#[rustfmt::skip]
const PAYLOAD: [u8; 86] = [
    0x01, 0xb0, 0x01, 0xc0, 0, 0, 0, 0, 86, 0, 0, 0, 2, 0, 0, 0,
    0x3b, 0x6d, 0xc3, 0xcb, 5, 0, 0, 0, 0, 0x10, 0, 0, 0, 0, 0, 0,
    9, 0, 0, 0, 0, 0, 0, 0x80, 3, 0, 0, 0, 5, 0, 0, 0,
    0xff, 0xff, 0xff, 0xff, 0, 0, 0, 0, 0, 0, 0, 0, 0, 0, 0, 0,
    0, 0, 0, 0, 0, 0, 0, 0, 0, 0, 0, 0, 0, 0, 0, 0,
    b'a', b'b', 0, b'k', 0, 0,
];
const FILE: u64 = 0xcbc3_6d3b;
const END: u64 = 0xffff_ffff;

#[test]
fn a_payload_is_answered() {
    let ask = |call, numbers: &[u64]| {
        let answer = answer(call, numbers, &[&PAYLOAD]);
        assert_eq!((answer.call, answer.lent), (call, true));
        (answer.numbers, answer.strings)
    };
    let none: Vec<Vec<u8>> = vec![];
    assert_eq!(ask(HANDOVER_READ, &[]), (vec![0, 86], none.clone()));
    assert_eq!(ask(AGENT, &[]), (vec![0, 86, 0, 80, 2], none.clone()));
    let string = |bytes: &[u8]| vec![bytes.to_vec()];
    assert_eq!(ask(AGENT_NAME, &[]), (vec![0, 0, 80, 2], string(b"ab")));
    let size = 1 << 63 | 9;
    let file = vec![0, 86, FILE, 5, 4096, size, 3, 5, 83, 1, 85, 0];
    assert_eq!(ask(RECORD_AT, &[0]), (file, none.clone()));
    assert_eq!(ask(RECORD_NAME, &[0]), (vec![0, 0, 83, 1], string(b"k")));
    assert_eq!(ask(RECORD_META, &[0]), (vec![0, 0, 85, 0], string(b"")));
    let end = vec![0, 86, END, 0, 0, 0, 0, 0, 0, 0, 0, 0];
    assert_eq!(ask(RECORD_AT, &[1]), (end, none.clone()));
    // From the count on: 3 with the used length, and no string.
    for index in [2, 1 << 32, u64::MAX] {
        let past = vec![3, 86, 0, 0, 0, 0, 0, 0, 0, 0, 0, 0];
        assert_eq!(ask(RECORD_AT, &[index]), (past, none.clone()));
        for call in [RECORD_NAME, RECORD_META] {
            assert_eq!(ask(call, &[index]), (vec![0; 4], string(b"")));
        }
    }
    for call in [RECORD_NAME, RECORD_META] {
        assert_eq!(ask(call, &[1]), (vec![0; 4], string(b"")));
    }
}

#[test]
fn a_refused_payload_is_answered() {
    // The file's meta is past the table.
    let mut refused = PAYLOAD;
    refused[44] = 6;
    let ask = |call, numbers: &[u64]| {
        let answer = answer(call, numbers, &[&refused]);
        (answer.numbers, answer.strings.concat())
    };
    assert_eq!(ask(HANDOVER_READ, &[]).0, [22, 16]);
    assert_eq!(ask(AGENT, &[]).0, [22, 16, 0, 0, 0]);
    assert_eq!(ask(AGENT_NAME, &[]), (vec![0; 4], vec![]));
    for index in [0, 1, 2] {
        let record = [22, 16, 0, 0, 0, 0, 0, 0, 0, 0, 0, 0];
        assert_eq!(ask(RECORD_AT, &[index]).0, record);
        assert_eq!(ask(RECORD_NAME, &[index]), (vec![0; 4], vec![]));
        assert_eq!(ask(RECORD_META, &[index]), (vec![0; 4], vec![]));
    }
}

#[test]
fn a_payload_is_written_to_the_buffer() {
    let records = &PAYLOAD[16..80];
    let parts = numbers(&[1, 2, 0, 1, 3, 0]);
    let mut driver = Driver::default();
    let buffer = [0xEE; 90];
    let written = driver.answer(&frame(
        HANDOVER_WRITE,
        &[],
        &[&buffer, records, &parts, b"kab"],
    ));
    assert_eq!((written.call, written.numbers), (32, vec![0, 86]));
    assert!(written.lent && written.strings.is_empty());
    assert_eq!(driver.buffer, [&PAYLOAD[..], &[0xEE; 4]].concat());
    assert_eq!(
        driver.answer(&kept(HANDOVER_READ, &[], &[])).numbers,
        [0, 86]
    );
    // Numbers are taken as far as they are whole.
    let write = |parts: &[u8]| {
        let strings = [&buffer[..], records, parts, b"kab"];
        answer(HANDOVER_WRITE, &[], &strings).numbers
    };
    assert_eq!(write(&[&parts[..], &[1; 7]].concat()), [0, 86]);
    assert_eq!(write(&parts[..47]), [22, 0]);
    // A refusal leaves the buffer.
    let before = driver.buffer.clone();
    let refused = driver.answer(&kept(HANDOVER_WRITE, &[], &[records, b"", b"kab"]));
    assert_eq!((refused.numbers, &driver.buffer), (vec![22, 0], &before));
}

#[test]
fn a_frame_of_an_export_is_these_bytes() {
    let bytes = [
        33, 0, 0, 0, 1, 0, 0, 0, 2, 0, 0, 0, 19, 0, 0, 0, // One number, two strings.
        0, 0, 32, 0, 0, 0, 0, 128, // The load address, 2^63 + 2,097,152.
        255, 255, 255, 255, // The buffer kept.
        3, 0, 0, 0, 1, 2, 3, // The output.
    ];
    assert_eq!(kept(EXPORT, &[1 << 63 | 2_097_152], &[&[1, 2, 3]]), bytes);

    let mut out = Vec::new();
    let mut driver = Driver::default();
    let answer = driver.answer(&bytes);
    driver.put_answer(&mut out, &answer);
    // 1 with offset 0, an empty buffer, and the output as it was.
    assert_eq!(out, frame(33, &[1, 0], &[b"", &[1, 2, 3]]));
}

#[test]
fn a_context_is_exported_to_the_output() {
    let mut driver = Driver::default();
    let export = |driver: &mut Driver, frame: &[u8]| {
        let answer = driver.answer(frame);
        assert_eq!(
            (answer.call, answer.lent, answer.strings.len()),
            (33, true, 1)
        );
        // The context stays.
        assert_eq!(driver.buffer, listed());
        (answer.numbers, answer.strings.concat())
    };
    let given = frame(EXPORT, &[2_097_152], &[&listed(), &[0xEE; 190]]);
    let (numbers, output) = export(&mut driver, &given);
    assert_eq!(numbers, [0, 188]);
    assert_eq!(output[..12], [1, 0xb0, 1, 0xc0, 0, 0, 0, 0, 188, 0, 0, 0]);
    assert_eq!(
        output[16..32],
        [0x8d, 0x98, 0x4f, 0xa2, 0, 0, 0, 0, 0, 0, 32, 0, 0, 0, 0, 0]
    );
    assert_eq!(output[176..], *b"frost\0quiet\0\xEE\xEE");
    let short = vec![0xEE; 187];
    let refused = export(&mut driver, &kept(EXPORT, &[2_097_152], &[&short]));
    assert_eq!(refused, (vec![18, 0], short.clone()));
    let past = export(&mut driver, &kept(EXPORT, &[u64::MAX - 186], &[&short]));
    assert_eq!(past, (vec![15, 0], short));
    let top = export(&mut driver, &kept(EXPORT, &[u64::MAX - 187], &[&[0; 188]]));
    assert_eq!(top.0, [0, 188]);

    // The output can be lent as a payload.
    let read = driver.answer(&frame(HANDOVER_READ, &[], &[&output]));
    assert_eq!(read.numbers, [0, 188]);
    let line = driver.answer(&kept(RECORD_META, &[2], &[]));
    assert_eq!(
        (line.numbers, line.strings),
        (vec![0, 0, 182, 5], vec![b"quiet".to_vec()])
    );
}
