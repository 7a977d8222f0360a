//! Numbers on the wire, and the serial order of sequence numbers.
//!
//! Paper 01, "What the receiver reads and writes": all numbers are big-endian; a cursor position
//! and a fragment's offset are two's complement.

/// The `N` bytes at `place`, if there are that many.
fn bytes_at<const N: usize>(bytes: &[u8], place: usize) -> Option<[u8; N]> {
    bytes.get(place..)?.first_chunk().copied()
}

/// Puts `value` at `place`, if there is room for all of it; otherwise changes nothing.
fn put_at<const N: usize>(out: &mut [u8], place: usize, value: [u8; N]) -> Option<()> {
    *out.get_mut(place..)?.first_chunk_mut()? = value;
    Some(())
}

/// Reads an unsigned 16-bit number at `place`; `None` if the bytes end before it does.
pub fn read_u16(bytes: &[u8], place: usize) -> Option<u16> {
    bytes_at(bytes, place).map(u16::from_be_bytes)
}

/// Reads an unsigned 32-bit number at `place`; `None` if the bytes end before it does.
pub fn read_u32(bytes: &[u8], place: usize) -> Option<u32> {
    bytes_at(bytes, place).map(u32::from_be_bytes)
}

/// Reads a signed 16-bit number at `place`; `None` if the bytes end before it does.
pub fn read_i16(bytes: &[u8], place: usize) -> Option<i16> {
    bytes_at(bytes, place).map(i16::from_be_bytes)
}

/// Reads a signed 32-bit number at `place`; `None` if the bytes end before it does.
pub fn read_i32(bytes: &[u8], place: usize) -> Option<i32> {
    bytes_at(bytes, place).map(i32::from_be_bytes)
}

/// Writes an unsigned 16-bit number at `place`; `None`, and nothing changed, without room for it.
pub fn write_u16(out: &mut [u8], place: usize, value: u16) -> Option<()> {
    put_at(out, place, value.to_be_bytes())
}

/// Writes an unsigned 32-bit number at `place`; `None`, and nothing changed, without room for it.
pub fn write_u32(out: &mut [u8], place: usize, value: u32) -> Option<()> {
    put_at(out, place, value.to_be_bytes())
}

/// Whether sequence number `new` is newer than `last`.
///
/// Paper 01, "Cursor packets": the distance is new minus last, modulo 65,536, and `new` is newer
/// exactly when the distance is from 1 to 32,767.
pub fn newer(last: u16, new: u16) -> bool {
    (1..=32_767).contains(&new.wrapping_sub(last))
}
