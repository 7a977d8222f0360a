//! Cuts the bytes of a TCP connection into messages, each by its own Size.

/// The number of bytes of a message's header: Size (2), Version, Command.
pub const HEADER: usize = 4;

/// The bytes that arrived and are not cut yet.
#[derive(Default)]
pub struct Cutter {
    bytes: Vec<u8>,
    /// The number of bytes at the front that were cut already.
    passed: usize,
}

/// What the next cut gives.
#[derive(Debug, PartialEq, Eq)]
pub enum Cut<'a> {
    /// All bytes of a message.
    Message(&'a [u8]),
    /// The next message has not arrived whole.
    Incomplete,
    /// The next message's Size is below that of a header. Nobody can tell where the message after
    /// it begins, so that nothing more can be cut from this connection.
    SizeBelowHeader(u16),
}

impl Cutter {
    /// Takes bytes that arrived: any part of a message, or several messages.
    pub fn put(&mut self, arrived: &[u8]) {
        self.bytes.drain(..self.passed);
        self.passed = 0;
        self.bytes.extend_from_slice(arrived);
    }

    /// Cuts the next message. A header is looked at when all of it has arrived.
    pub fn cut(&mut self) -> Cut<'_> {
        let rest = &self.bytes[self.passed..];
        let &[s1, s0, _, _, ..] = rest else {
            return Cut::Incomplete;
        };
        let size = u16::from_be_bytes([s1, s0]);
        if usize::from(size) < HEADER {
            return Cut::SizeBelowHeader(size);
        }
        match rest.get(..usize::from(size)) {
            Some(message) => {
                self.passed += message.len();
                Cut::Message(message)
            }
            None => Cut::Incomplete,
        }
    }

    /// The bytes that were not cut.
    pub fn rest(&self) -> &[u8] {
        &self.bytes[self.passed..]
    }
}

#[cfg(test)]
mod tests {
    use super::*;

    /// Three messages of 4, 6 and 260 bytes.
    fn three() -> [Vec<u8>; 3] {
        let mut long = vec![1, 4, 1, 9];
        long.resize(260, 0xEE);
        [vec![0, 4, 1, 7], vec![0, 6, 1, 8, 0xAA, 0xBB], long]
    }

    /// Every message that can be cut now.
    fn all(cutter: &mut Cutter) -> Vec<Vec<u8>> {
        let mut messages = Vec::new();
        while let Cut::Message(message) = cutter.cut() {
            messages.push(message.to_vec());
        }
        messages
    }

    #[test]
    fn several_at_once() {
        let mut cutter = Cutter::default();
        cutter.put(&three().concat());
        assert_eq!(all(&mut cutter), three());
        assert_eq!(cutter.cut(), Cut::Incomplete);
        assert!(cutter.rest().is_empty());
    }

    #[test]
    fn pieces_of_every_length() {
        let bytes = three().concat();
        for length in 1..=bytes.len() {
            let mut cutter = Cutter::default();
            let mut messages = Vec::new();
            for piece in bytes.chunks(length) {
                cutter.put(piece);
                messages.extend(all(&mut cutter));
            }
            assert_eq!(messages, three(), "pieces of {length} bytes");
            assert!(cutter.rest().is_empty());
        }
    }

    #[test]
    fn a_message_is_cut_with_its_last_byte() {
        let [_, message, _] = three();
        let mut cutter = Cutter::default();
        for byte in &message {
            assert_eq!(cutter.cut(), Cut::Incomplete);
            cutter.put(&[*byte]);
        }
        assert_eq!(cutter.cut(), Cut::Message(&message));
    }

    #[test]
    fn the_largest_size() {
        let mut message = vec![0xFF, 0xFF, 1, 1];
        message.resize(65_535, 0);
        let mut cutter = Cutter::default();
        cutter.put(&message[..65_534]);
        assert_eq!(cutter.cut(), Cut::Incomplete);
        cutter.put(&[0, 0]);
        assert_eq!(cutter.cut(), Cut::Message(&message));
        assert_eq!(cutter.rest(), [0]);
    }

    #[test]
    fn a_size_below_4_stops_the_cutting() {
        for size in 0..4 {
            let mut cutter = Cutter::default();
            cutter.put(&[0, 4, 1, 1, 0, size, 1]);
            assert_eq!(cutter.cut(), Cut::Message(&[0, 4, 1, 1]));
            assert_eq!(cutter.cut(), Cut::Incomplete, "three bytes are no header");
            cutter.put(&[1, 0, 4, 1, 1]);
            let stopped = Cut::SizeBelowHeader(size.into());
            assert_eq!(cutter.cut(), stopped);
            assert_eq!(cutter.cut(), stopped, "it stays so");
            assert_eq!(cutter.rest(), [0, size, 1, 1, 0, 4, 1, 1]);
        }
    }

    #[test]
    fn no_bytes() {
        let mut cutter = Cutter::default();
        cutter.put(&[]);
        assert_eq!(cutter.cut(), Cut::Incomplete);
        assert!(cutter.rest().is_empty());
    }
}
