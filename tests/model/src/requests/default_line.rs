//! R-5, A command line when none was sent: "Boards now carry a default text in flash." Where the
//! context's line lies is [`questions::command_line`]'s to say, as before; what the comparison has
//! to meet is in src/bin/driven/tally/lines.rs. Toward C the question has no board's text.

use crate::questions;

/// "hands back the context's own line where the context is accepted and has one, even an empty
/// one, and otherwise the board's text": all of it, whatever its bytes are. "The answer is a part
/// of one of the two texts lent and not a copy."
pub fn command_line<'a>(buf: &'a [u8], board: &'a [u8]) -> &'a [u8] {
    match questions::command_line(buf) {
        Some(line) => &buf[line],
        None => board,
    }
}
