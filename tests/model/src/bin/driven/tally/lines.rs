//! The shapes of the command line's question with a board's text: what the buffer has
//! beside what the board lends. Which of the two is handed back is worked out once more, by the
//! headers: so an answer that is wrong on both sides is told too.

use ultra_model::driving::frame::{FRAME_LIMIT, HEAD_LENGTH};
use ultra_model::driving::table::BUFFER_LIMIT;
use ultra_model::format::{
    room, u32_at, Number, Refusal, COMMAND_LINE, COUNT_LEAST, HEADER_SIZE, HEAD_SIZE, ROOM_LIMIT,
};
use ultra_model::reading;

use super::{Made, Shapes};

ultra_model::shapes! {
    LineNoBoard: "command lines beside an empty board's text",
    LineBoard: "command lines beside a board's text without a zero",
    LineBoardZero: "command lines beside a board's text with a zero",
    EmptyNoBoard: "empty command lines beside an empty board's text",
    EmptyBoard: "empty command lines beside a board's text without a zero",
    EmptyBoardZero: "empty command lines beside a board's text with a zero",
    NoneNoBoard: "contexts without a command line beside an empty board's text",
    NoneBoard: "contexts without a command line beside a board's text without a zero",
    NoneBoardZero: "contexts without a command line beside a board's text with a zero",
    RefusedNoBoard: "refused buffers beside an empty board's text",
    RefusedBoard: "refused buffers beside a board's text without a zero",
    RefusedBoardZero: "refused buffers beside a board's text with a zero",
    LineIsBoard: "command lines beside themselves as the board's text",
    LineClosedIsBoard: "command lines beside themselves with a zero as the board's text",
    LineOfBoard: "command lines beside a board's text that begins with them",
    LineBoardLong: "command lines beside a board's text of more than 65,536 bytes",
    LineBytesAfter: "command lines with other bytes after their zero",
    EmptyBytesAfter: "empty command lines with other bytes after their zero, beside a board's text",
    LineUpToTheLimit: "command lines that end at 65,536 in a longer buffer",
    LineKeptChanged: "command lines in the buffer kept, which a call before had changed",
    NonePastTheEnd: "contexts without a command line, with another one just after their end",
    NoneKeptChanged: "contexts without a command line, which a call before had changed",
    RefusedAfterLine: "buffers refused for what comes after a command line",
    RefusedAfterEmpty: "buffers refused for what comes after an empty command line",
    RefusedSecond: "buffers refused for a second command line",
    RefusedText: "buffers refused for the command line's text",
    RefusedCut: "buffers refused for a command line that passes their end",
    RefusedLimit: "buffers refused for a command line that passes 65,536, and not their end",
    RefusedHead: "buffers refused for their head, with a command line after it",
    RefusedShort: "buffers of fewer than 8 bytes beside a board's text",
    BoardByte: "boards' texts of one byte handed back",
    BoardZeroFirst: "boards' texts handed back with a zero as their first byte",
    BoardZeroWithin: "boards' texts handed back with a zero between other bytes",
    BoardZeroLast: "boards' texts handed back with a zero as their last byte alone",
    BoardZeros: "boards' texts of zeros handed back",
    BoardHigh: "boards' texts handed back with a byte from 128 up",
    BoardIsBuffer: "boards' texts handed back that are the whole buffer",
    BoardIsBeginning: "boards' texts handed back that the buffer begins with",
    BoardOfRoom: "boards' texts of 65,536 bytes handed back",
    BoardPastTheRoom: "boards' texts of more than 65,536 bytes handed back",
    BoardLongest: "boards' texts that fill a frame, handed back beside the longest buffer",
}

/// What a buffer has.
enum Found {
    /// A command line, whose attribute starts there.
    Line(usize),
    /// A context of this used length, which has none.
    NoLine(usize),
    Refused(Refusal),
}

/// The shapes of one kind of buffer: beside no text, one without a zero, and one with a zero.
type Beside = [Shape; 3];

const LINE: Beside = [Shape::LineNoBoard, Shape::LineBoard, Shape::LineBoardZero];
const EMPTY: Beside = [
    Shape::EmptyNoBoard,
    Shape::EmptyBoard,
    Shape::EmptyBoardZero,
];
const NONE: Beside = [Shape::NoneNoBoard, Shape::NoneBoard, Shape::NoneBoardZero];
const REFUSED: Beside = [
    Shape::RefusedNoBoard,
    Shape::RefusedBoard,
    Shape::RefusedBoardZero,
];

pub fn count(shapes: &mut Shapes, made: &Made) {
    let (buf, board) = (made.before, made.given());
    let found = find(buf);
    let (place, text) = match found {
        Found::Line(start) => {
            let text = text_at(buf, start);
            ([start + HEADER_SIZE, text.len()], text)
        }
        _ => ([0, 0], board),
    };
    let place = place.map(|number| number as u64);
    if made.answer.numbers[2..] != place || made.answer.strings[0] != text {
        return shapes.impossible();
    }
    match found {
        Found::Line(start) => {
            match text {
                [] => empty_line(shapes, field(buf, start), board),
                _ => line(shapes, field(buf, start), text, board),
            }
            shapes.met_if(made.kept == Some(true), Shape::LineKeptChanged);
            let at_the_limit = start + HEADER_SIZE + field(buf, start).len() == ROOM_LIMIT;
            let goes_on = buf.len() > ROOM_LIMIT;
            shapes.met_if(at_the_limit && goes_on, Shape::LineUpToTheLimit);
        }
        Found::NoLine(used) => {
            pair(shapes, NONE, board);
            shapes.met_if(made.kept == Some(true), Shape::NoneKeptChanged);
            shapes.met_if(would_tell(buf, used, board), Shape::NonePastTheEnd);
            handed_back(shapes, buf, board);
        }
        Found::Refused(refusal) => {
            pair(shapes, REFUSED, board);
            refused(shapes, buf, board, refusal);
            handed_back(shapes, buf, board);
        }
    }
}

fn find(buf: &[u8]) -> Found {
    match reading::read(buf, COUNT_LEAST) {
        Err(refusal) => Found::Refused(refusal),
        Ok(outline) => match line_within(buf, HEAD_SIZE, outline.used) {
            Some(start) => Found::Line(start),
            None => Found::NoLine(outline.used),
        },
    }
}

/// Where the first command line starts among the headers that follow one another from there up
/// to `end`. No size is judged.
fn line_within(buf: &[u8], mut start: usize, end: usize) -> Option<usize> {
    while start + HEADER_SIZE <= end.min(buf.len()) {
        match (u32_at(buf, start), u32_at(buf, start + 4)) {
            (COMMAND_LINE, _) => return Some(start),
            (_, 0) => return None,
            (_, size) => start += size as usize,
        }
    }
    None
}

/// What comes after a header, as far as the buffer has it.
fn field(buf: &[u8], start: usize) -> &[u8] {
    let body = start + HEADER_SIZE;
    let end = start + u32_at(buf, start + 4) as usize;
    &buf[body..end.clamp(body, buf.len())]
}

/// The text that a command line would have: up to a zero, or to the end of its field.
fn text_at(buf: &[u8], start: usize) -> &[u8] {
    let field = field(buf, start);
    let zero = field.iter().position(|&byte| byte == 0);
    &field[..zero.unwrap_or(field.len())]
}

/// Whether a command line stands there, and a call that handed it back in place of the board's
/// text would be told by its bytes.
fn would_tell(buf: &[u8], start: usize, board: &[u8]) -> bool {
    let line = line_within(buf, start, start + HEADER_SIZE);
    line.is_some_and(|start| text_at(buf, start) != board)
}

/// Of a long text only its length is counted: it is random, and would meet most shapes at once.
fn is_long(board: &[u8]) -> bool {
    board.len() >= ROOM_LIMIT
}

fn pair(shapes: &mut Shapes, [no_text, text, with_zero]: Beside, board: &[u8]) {
    if is_long(board) {
        return;
    }
    shapes.met(match board {
        [] => no_text,
        _ if board.contains(&0) => with_zero,
        _ => text,
    });
}

/// One that is the board's text too tells nothing by its bytes, and is counted apart.
fn line(shapes: &mut Shapes, field: &[u8], text: &[u8], board: &[u8]) {
    if text == board {
        return shapes.met(Shape::LineIsBoard);
    }
    pair(shapes, LINE, board);
    let closed = board.strip_suffix(&[0]) == Some(text);
    shapes.met_if(closed, Shape::LineClosedIsBoard);
    shapes.met_if(board.starts_with(text), Shape::LineOfBoard);
    shapes.met_if(board.len() > ROOM_LIMIT, Shape::LineBoardLong);
    let after = field[text.len()..].iter().any(|&byte| byte != 0);
    shapes.met_if(after, Shape::LineBytesAfter);
}

fn empty_line(shapes: &mut Shapes, field: &[u8], board: &[u8]) {
    pair(shapes, EMPTY, board);
    let after = field.iter().any(|&byte| byte != 0);
    shapes.met_if(after && !board.is_empty(), Shape::EmptyBytesAfter);
}

/// What refuses a buffer that has a command line, which the board's text is not.
fn refused(shapes: &mut Shapes, buf: &[u8], board: &[u8], refusal: Refusal) {
    let at = refusal.offset as usize;
    match refusal.number {
        Number::Short => return shapes.met_if(!board.is_empty(), Shape::RefusedShort),
        Number::Version | Number::Count | Number::Missing => {
            let line = line_within(buf, HEAD_SIZE, room(buf).len());
            let tells = line.is_some_and(|start| would_tell(buf, start, board));
            return shapes.met_if(tells, Shape::RefusedHead);
        }
        _ => {}
    }
    // What comes before the attribute that is refused is good.
    if let Some(start) = line_within(buf, HEAD_SIZE, at) {
        let shape = match text_at(buf, start) {
            [] => Shape::RefusedAfterEmpty,
            _ => Shape::RefusedAfterLine,
        };
        shapes.met_if(would_tell(buf, start, board), shape);
    }
    if would_tell(buf, at, board) {
        let past_the_buffer = at + u32_at(buf, at + 4) as usize > buf.len();
        match (refusal.number, past_the_buffer) {
            (Number::Repeat, _) => shapes.met(Shape::RefusedSecond),
            (Number::Text, _) => shapes.met(Shape::RefusedText),
            (Number::Overrun, true) => shapes.met(Shape::RefusedCut),
            (Number::Overrun, false) => shapes.met(Shape::RefusedLimit),
            _ => {}
        }
    }
}

/// The board's text, where it is the answer: it is not judged, and not cut.
fn handed_back(shapes: &mut Shapes, buf: &[u8], board: &[u8]) {
    let length = board.len();
    if is_long(board) {
        return long_board(shapes, buf, length);
    }
    shapes.met_if(length == 1, Shape::BoardByte);
    shapes.met_if(!board.is_ascii(), Shape::BoardHigh);
    if length > 0 && buf.starts_with(board) {
        shapes.met(match length == buf.len() {
            true => Shape::BoardIsBuffer,
            false => Shape::BoardIsBeginning,
        });
    }
    if let Some(zero) = board.iter().position(|&byte| byte == 0) {
        let others_after = board[zero..].iter().any(|&byte| byte != 0);
        match (zero, others_after) {
            (0, false) => shapes.met(Shape::BoardZeros),
            (0, true) => shapes.met(Shape::BoardZeroFirst),
            (_, true) => shapes.met(Shape::BoardZeroWithin),
            (_, false) => shapes.met_if(zero == length - 1, Shape::BoardZeroLast),
        }
    }
}

fn long_board(shapes: &mut Shapes, buf: &[u8], length: usize) {
    let fills_a_frame = length == FRAME_LIMIT - HEAD_LENGTH - 8;
    match length {
        ROOM_LIMIT => shapes.met(Shape::BoardOfRoom),
        _ if fills_a_frame => shapes.met_if(buf.len() == BUFFER_LIMIT, Shape::BoardLongest),
        _ => shapes.met(Shape::BoardPastTheRoom),
    }
}
