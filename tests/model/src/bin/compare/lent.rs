//! Memory lent to the library, with guard bytes on both sides.

use ultra_archive::BytesMut;
use ultra_model::generator::given::Given;

const GUARD: usize = 64;

/// Bytes at a chosen address modulo 16, between two guards.
pub struct Lent {
    memory: Vec<u8>,
    start: usize,
    length: usize,
    null: bool,
    before: [u8; GUARD],
    after: [u8; GUARD],
}

impl Lent {
    pub fn new() -> Lent {
        Lent {
            memory: Vec::new(),
            start: 0,
            length: 0,
            null: true,
            before: [0; GUARD],
            after: [0; GUARD],
        }
    }

    /// Lends a copy of what is given. The guard that follows begins with `beyond`: what a reader
    /// that goes too far would like to find.
    pub fn load(&mut self, given: &Given, beyond: &[u8]) {
        self.length = given.bytes.len();
        self.null = given.null;
        let least = self.length + 2 * GUARD + 16;
        if self.memory.len() < least {
            self.memory.resize(least, 0);
        }
        let address = self.memory.as_ptr() as usize;
        self.start = GUARD + (given.shift.wrapping_sub(address + GUARD) & 15);

        let pattern = [0x00, 0x41, 0xF3, 0x2F][given.shift & 3];
        self.before.fill(pattern);
        self.after.fill(pattern);
        let known = beyond.len().min(GUARD);
        self.after[..known].copy_from_slice(&beyond[..known]);

        let (start, end) = (self.start, self.start + self.length);
        self.memory[start - GUARD..start].copy_from_slice(&self.before);
        self.memory[start..end].copy_from_slice(&given.bytes);
        self.memory[end..end + GUARD].copy_from_slice(&self.after);
    }

    /// Puts other bytes of the same length in place.
    pub fn restore(&mut self, bytes: &[u8]) {
        self.memory[self.start..self.start + self.length].copy_from_slice(bytes);
    }

    pub fn bytes(&self) -> &[u8] {
        &self.memory[self.start..self.start + self.length]
    }

    /// The bytes, as they cross toward C; no bytes may cross as null. All are lent mutably,
    /// also where the library may only read: that it does not write is what is tested.
    pub fn lend(&mut self) -> BytesMut<'_> {
        if self.null && self.length == 0 {
            return BytesMut::null();
        }
        BytesMut::part(&mut self.memory, self.start..self.start + self.length)
    }

    pub fn guards_hold(&self) -> bool {
        let end = self.start + self.length;
        self.memory[self.start - GUARD..self.start] == self.before
            && self.memory[end..end + GUARD] == self.after
    }
}
