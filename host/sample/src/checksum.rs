//! A checksum by which two programs can compare bytes: FNV-1a with 64 bits.

use std::fmt;

/// The checksum of the bytes that it was given so far.
#[derive(Clone, Copy, Debug, PartialEq, Eq)]
pub struct Checksum(u64);

impl Checksum {
    /// The checksum of no bytes.
    pub const EMPTY: Checksum = Checksum(0xCBF2_9CE4_8422_2325);

    /// The checksum of these bytes.
    pub fn of(bytes: &[u8]) -> Checksum {
        Self::EMPTY.and(bytes)
    }

    /// The checksum of the bytes so far and then of these.
    pub fn and(self, bytes: &[u8]) -> Checksum {
        Checksum(
            bytes.iter().fold(self.0, |sum, &byte| {
                (sum ^ u64::from(byte)).wrapping_mul(0x0000_0100_0000_01B3)
            }),
        )
    }

    /// The checksum as bytes.
    pub const fn to_bytes(self) -> [u8; 8] {
        self.0.to_be_bytes()
    }
}

impl fmt::Display for Checksum {
    /// As 16 hexadecimal digits.
    fn fmt(&self, f: &mut fmt::Formatter<'_>) -> fmt::Result {
        write!(f, "{:016X}", self.0)
    }
}

#[cfg(test)]
mod tests {
    use super::*;

    /// The test vectors that the authors of FNV publish.
    #[test]
    fn published_values() {
        assert_eq!(Checksum::of(b"").to_string(), "CBF29CE484222325");
        assert_eq!(Checksum::of(b"a").to_string(), "AF63DC4C8601EC8C");
        assert_eq!(Checksum::of(b"foobar").to_string(), "85944171F73967E8");
    }

    #[test]
    fn parts_one_after_another() {
        assert_eq!(Checksum::of(b"foo").and(b"").and(b"bar"), Checksum::of(b"foobar"));
    }
}
