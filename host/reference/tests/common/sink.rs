//! What a receiver keeps for the cursor stream, and the two calls that take packets.

use reference::cursor::{self, Picture, Pointer};
use reference::Refused;

use super::continuation;

/// Records with the picture and marks that are lent.
#[derive(Clone, Debug, PartialEq, Eq)]
pub struct Sink {
    pub pointer: Pointer,
    pub record: Picture,
    pub picture: Vec<u8>,
    pub marks: Vec<u8>,
}

impl Sink {
    pub fn fresh(length: usize) -> Self {
        Sink {
            pointer: Pointer::fresh(),
            record: Picture::fresh(),
            picture: vec![0xEE; length],
            marks: vec![0x77; length],
        }
    }

    /// Takes a position packet; checks that a refusal has place 0.
    pub fn position(&mut self, packet: &[u8]) -> u8 {
        match cursor::position(self.pointer, packet) {
            Ok(pointer) => {
                self.pointer = pointer;
                0
            }
            Err(refused) => number(refused),
        }
    }

    /// Takes a start or a continuation; checks that a refusal has place 0 and changes nothing.
    pub fn store(&mut self, packet: &[u8]) -> u8 {
        let before = self.clone();
        let answer =
            cursor::store(self.pointer, self.record, packet, &mut self.picture, &mut self.marks);
        match answer {
            Ok((pointer, record)) => {
                self.pointer = pointer;
                self.record = record;
                0
            }
            Err(refused) => {
                assert_eq!(*self, before);
                number(refused)
            }
        }
    }

    pub fn complete(&self) -> Result<bool, u8> {
        cursor::complete(self.record, &self.picture, &self.marks)
            .map_err(|refused| refused.number.number())
    }
}

/// The number of a refusal, whose place must be 0.
fn number(refused: Refused) -> u8 {
    assert_eq!(refused.place, 0);
    refused.number.number()
}

/// A sink with picture 1 of total 8 opened by sequence number 100, places 2 to 5 filled with
/// `C`, `D`, `E`, `F` and no start seen.
pub fn opened() -> Sink {
    let mut sink = Sink::fresh(10);
    assert_eq!(sink.store(&continuation(100, 1, 8, 2, b"CDEF")), 0);
    sink
}
