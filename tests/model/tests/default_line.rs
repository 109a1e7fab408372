//! A command line when none was sent, on the model alone. Contexts are written byte by byte
//! (see `common`), never with the model's own adds.

#[allow(dead_code)] // A part of it is for the other tests.
mod common;

use std::ptr;

use common::*;
use ultra_model::calls;
use ultra_model::format::Number::{self, *};
use ultra_model::requests::default_line::command_line;

/// Where the third attribute starts.
const THIRD: usize = 8 + 88 + 336;

/// An attribute of 24 bytes with this field, which closes the text or not.
fn line(field: &[u8]) -> Vec<u8> {
    attribute(5, 24, &[(8, field)])
}

/// None, short ones, those that look like a line, bytes that no line has, and long ones.
fn boards() -> Vec<Vec<u8>> {
    let every: Vec<u8> = (0..=255).collect();
    let mut boards = [
        &b""[..],
        b"x",
        b"quiet",
        b"quie",
        b"quiet ",
        b"console=ttyS0 recovery",
        b"quiet\0",
        b"\0quiet",
        b"qu\0iet",
        b"\0qu\0\0iet\0",
        b"\0",
        b"\0\0\0\0\0\0\0\0",
        b"\x80",
        b"\xff\xfe quiet \x7f",
        &every,
        &listed(),
        &listed()[..8],
        &line(b"quiet"),
    ]
    .map(<[u8]>::to_vec)
    .to_vec();
    for length in [65_535, 65_536, 65_537, 100_000, 200_000] {
        boards.push(vec![b'x'; length]);
        boards.push(every.iter().copied().cycle().take(length).collect());
    }
    boards
}

/// Both the same memory: "a part of one of the two texts lent and not a copy".
#[track_caller]
fn assert_same(handed_back: &[u8], lent: &[u8]) {
    assert!(
        ptr::eq(handed_back, lent),
        "{} bytes and not {}",
        handed_back.len(),
        lent.len()
    );
}

/// The line of the context is that part of it, whatever the board's text is.
#[track_caller]
fn assert_own(context: &[u8], start: usize, text: &[u8]) {
    for board in boards() {
        let handed_back = command_line(context, &board);
        assert_eq!(handed_back, text);
        assert_same(handed_back, &context[start..start + text.len()]);
    }
}

/// The board's text is handed back, all of it.
#[track_caller]
fn assert_boards(buf: &[u8]) {
    for board in boards() {
        let handed_back = command_line(buf, &board);
        assert!(handed_back == board);
        assert_same(handed_back, &board);
    }
    assert_eq!(calls::command_line(buf), 0);
}

#[track_caller]
fn assert_refused(buf: &[u8], number: Number, offset: usize) {
    let refused = (number as u64) << 32 | offset as u64;
    assert_eq!(calls::read(buf), refused);
    assert_boards(buf);
}

#[test]
fn a_line_is_handed_back() {
    assert_own(&listed(), 472, b"quiet");
    assert_own(&with(&[line(b"a b=c")]), THIRD + 8, b"a b=c");
    assert_own(&with(&[other(7), line(b"x")]), THIRD + 16, b"x");
    assert_own(&with(&[line(b"x"), other(7)]), THIRD + 8, b"x");
    // Up to its zero, with whatever comes after that.
    assert_own(&with(&[line(b"quiet\0\xff\0x")]), THIRD + 8, b"quiet");
    let full = b"fifteen in all.";
    assert_own(&with(&[line(full)]), THIRD + 8, full);
    let foreign = [&[7, 9, 0xEE, 0xEE][..], &listed()[4..], &[0xEE; 100]].concat();
    assert_own(&foreign, 472, b"quiet");
}

#[test]
fn an_empty_line_is_handed_back() {
    // "even an empty one"
    assert_own(&with(&[line(b"")]), THIRD + 8, b"");
    assert_own(&with(&[line(b""), other(7)]), THIRD + 8, b"");
    assert_own(&with(&[line(b"\0quiet\xff")]), THIRD + 8, b"");
    assert_own(&with(&[attribute(5, 16, &[])]), THIRD + 8, b"");
}

#[test]
fn without_a_line_it_is_the_boards() {
    assert_boards(&with(&[]));
    assert_boards(&with(&[map(&[0, 4_096, 1]), other(7)]));
    // A type whose low bits are a line's, and a line in a body that is silent.
    assert_boards(&with(&[attribute(0x105, 24, &[(8, b"quiet")])]));
    assert_boards(&with(&[attribute(7, 32, &[(8, &line(b"quiet"))])]));
}

#[test]
fn a_line_past_the_list_is_none() {
    let context = with(&[]);
    assert_boards(&[&context[..], &line(b"quiet")].concat());
    assert_boards(&[&context[..], &listed()].concat());
}

#[test]
fn a_refused_head_has_no_line() {
    let spoilt = |at: usize, byte: u8| {
        let mut bytes = listed();
        bytes[at] = byte;
        bytes
    };
    for length in 0..8 {
        assert_refused(&listed()[..length], Short, 0);
    }
    assert_refused(&spoilt(0, 0), Version, 0);
    assert_refused(&spoilt(5, 4), Count, 0);
    // The line is all there, but no part of a list of two or more.
    assert_refused(&spoilt(4, 0), Missing, 0);
    assert_refused(&spoilt(4, 1), Missing, 0);
}

#[test]
fn what_comes_after_a_line_can_refuse_it() {
    let end = THIRD + 24;
    let header = |kind: u32, size: u32| [kind, size].map(u32::to_le_bytes).concat();
    // Of two rows of one byte, the first of them at this address.
    let framebuffer = |format: u8, address: u64| {
        let screen = [0, 2, 1, u32::from(format) << 16 | 24].map(u32::to_le_bytes);
        let address = address.to_le_bytes();
        attribute(6, 32, &[(8, screen.as_flattened()), (24, &address)])
    };
    let cases = [
        (vec![], Header, end),
        (vec![0; 7], Header, end),
        (header(7, 0), Size, end),
        (header(7, 12), Size, end),
        (header(7, 16), Overrun, end),
        (header(0, 8), Type, end),
        (platform(88), Place, end),
        (kernel(), Place, end),
        (line(b"another"), Repeat, end),
        (header(4, 8), Form, end),
        (framebuffer(5, 0), Value, end),
        (attribute(4, 96, &[(12, &[1]), (16, b"\x80")]), Text, end),
        (framebuffer(1, u64::MAX), Range, end),
        (map(&[0, 2, 1, 1, 1, 1]), Order, end),
    ];
    for text in [&b"quiet"[..], b"", b"\0quiet"] {
        for (bad, number, offset) in &cases {
            let mut bytes = with(&[line(text), bad.clone()]);
            assert_refused(&bytes, *number, *offset);
            // With one attribute fewer it is accepted, and the line is its own.
            bytes[4] -= 1;
            let own = text.split(|&byte| byte == 0).next().unwrap();
            assert_own(&bytes, THIRD + 8, own);
        }
    }
    let split = [line(b"quiet"), other(7), other(8), other(7)];
    assert_refused(&with(&split), Split, end + 16);
}

#[test]
fn what_comes_before_a_line_can_refuse_it() {
    let mut bytes = listed();
    bytes[16] = 0;
    assert_refused(&bytes, Value, 8);
    let mut bytes = listed();
    bytes[96 + 80] = b'b';
    assert_refused(&bytes, Text, 96);
    assert_refused(&with(&[map(&[0, 4_096, 0]), line(b"quiet")]), Value, THIRD);
}

#[test]
fn a_refused_line_is_none() {
    assert_refused(&with(&[line(&[b'x'; 16])]), Text, THIRD);
    assert_refused(&with(&[line(b"caf\xc3\xa9")]), Text, THIRD);
    assert_refused(&with(&[attribute(5, 8, &[])]), Form, THIRD);
    assert_refused(&with(&[attribute(5, 20, &[])]), Size, THIRD);
    let whole = with(&[line(b"quiet")]);
    assert_refused(&whole[..whole.len() - 1], Overrun, THIRD);
    assert_refused(&whole[..THIRD + 7], Header, THIRD);
    // The next attribute's zeros close nothing.
    assert_refused(&with(&[line(&[b'x'; 16]), other(7)]), Text, THIRD);
}

#[test]
fn a_line_past_the_room_is_none() {
    let line_at = |start: usize| {
        let filler = attribute(9, (start - THIRD) as u32, &[]);
        [&with(&[filler, line(b"quiet")])[..], &[0; 50]].concat()
    };
    assert_own(&line_at(65_536 - 24), 65_536 - 16, b"quiet");
    assert_refused(&line_at(65_536 - 16), Overrun, 65_536 - 16);
    assert_refused(&line_at(65_536), Header, 65_536);
}

#[test]
fn an_empty_board_makes_no_difference() {
    // "The recovery image passes an empty board text and sees no difference."
    assert_eq!(command_line(&listed(), b""), b"quiet");
    for buf in [with(&[line(b"")]), with(&[]), vec![], vec![0xEE; 100]] {
        assert_eq!(command_line(&buf, b""), b"");
    }
}

#[test]
fn toward_c_nothing_is_new() {
    // "Toward C, 0 still means no line": an empty line is its start, and so not 0.
    let third = THIRD as u64;
    assert_eq!(calls::command_line(&listed()), 472 << 32 | 5);
    assert_eq!(calls::command_line(&with(&[line(b"")])), (third + 8) << 32);
    assert_eq!(calls::command_line(&with(&[])), 0);
}

#[test]
fn both_may_be_one_memory() {
    let context = listed();
    for board in [&context[..], &context[472..], &context[470..475], &[]] {
        assert_same(command_line(&context, board), &context[472..477]);
    }
    let refused = &context[1..];
    for board in [refused, &refused[471..476], &refused[..0]] {
        assert_same(command_line(refused, board), board);
    }
}
