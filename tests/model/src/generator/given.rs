//! Bytes that are given to a call, and what an input starts with.

use std::fmt;

/// Bytes to be lent: at an address of this remainder modulo 16; if empty and `null`, with a
/// null pointer.
#[derive(Clone, Default)]
pub struct Given {
    pub bytes: Vec<u8>,
    pub shift: usize,
    pub null: bool,
}

impl fmt::Debug for Given {
    fn fmt(&self, f: &mut fmt::Formatter) -> fmt::Result {
        let length = self.bytes.len();
        match (length, self.null) {
            (0, true) => write!(f, "[null]"),
            _ => write!(f, "[{length} at +{}: {}]", self.shift, hex(&self.bytes)),
        }
    }
}

pub fn hex(bytes: &[u8]) -> String {
    bytes.iter().map(|byte| format!("{byte:02x}")).collect()
}

/// What an input starts with.
#[derive(Clone, Default)]
pub struct Start {
    pub buffer: Given,
    /// What would come after the lent bytes.
    pub beyond: Vec<u8>,
    /// The used length that reading has to answer, where the bytes were laid out as a
    /// context.
    pub expected: Option<usize>,
}
