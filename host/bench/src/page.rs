//! Bytes that begin where a page of memory does.

use std::ops::{Deref, DerefMut};

/// The bytes of a page of memory.
const PAGE: usize = 4096;

/// Bytes that begin where a page does.
///
/// How long a copy of some kilobytes takes depends on where in their pages both sides begin, by a
/// factor of ten and more on some processors. All ways copy from the same bytes, and to bytes of
/// this type, so that they copy between the same places of pages.
pub struct Paged {
    bytes: Vec<u8>,
    start: usize,
}

impl Paged {
    /// So many zeros.
    pub fn zeros(length: usize) -> Self {
        let bytes = vec![0; length + PAGE];
        let start = bytes.as_ptr().align_offset(PAGE);
        let mut paged = Paged { bytes, start };
        paged.bytes.truncate(start + length);
        paged
    }
}

impl Deref for Paged {
    type Target = [u8];

    fn deref(&self) -> &[u8] {
        &self.bytes[self.start..]
    }
}

impl DerefMut for Paged {
    fn deref_mut(&mut self) -> &mut [u8] {
        &mut self.bytes[self.start..]
    }
}
