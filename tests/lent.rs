//! What is lent to the library.

// Each program uses a part.
#![allow(dead_code)]

/// Bytes before and after what is lent to the library.
const GUARD: [u8; 16] = [0xC3; 16];

/// Bytes that are lent to the library, between guards.
pub struct Lent(Vec<u8>);

impl Lent {
    pub fn new(bytes: &[u8]) -> Lent {
        Lent([&GUARD, bytes, &GUARD].concat())
    }

    pub fn set(&mut self, bytes: &[u8]) {
        self.0.clear();
        for part in [&GUARD, bytes, &GUARD] {
            self.0.extend_from_slice(part);
        }
    }

    pub fn bytes(&mut self) -> &mut [u8] {
        let end = self.0.len() - GUARD.len();
        &mut self.0[GUARD.len()..end]
    }

    /// Whether these are the bytes, and the guards are as they were.
    pub fn holds(&self, expected: &[u8]) -> bool {
        let (before, rest) = self.0.split_at(GUARD.len());
        let (bytes, after) = rest.split_at(rest.len() - GUARD.len());
        bytes == expected && before == GUARD && after == GUARD
    }
}
