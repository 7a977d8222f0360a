//! The value of the cursor limits parameter, `microsoft_cursor`.
//!
//! The grammar is that of 003 section 1.7: `none`, or xor support (`none` or `full`), width, height
//! and port, single spaces between. Width, height and port are each four hexadecimal digits. Letter
//! case does not matter when reading (RFC 5234); words are written in small letters and digits in
//! capitals (paper 01, "Cursor limits value").

use crate::refusal::{Refusal, Refused};

const NONE: &[u8; 4] = b"none";
const FULL: &[u8; 4] = b"full";

/// Bytes of the value for a sink without cursor support.
pub const SHORT_LENGTH: usize = 4;
/// Bytes of the value with limits: a word, and three times a space and four digits.
pub const LONG_LENGTH: usize = 19;

/// What the value says.
#[derive(Clone, Copy, Debug, PartialEq, Eq, Hash)]
pub enum Limits {
    /// The sink does not support the hardware cursor.
    NotSupported,
    /// The sink supports it within these limits.
    Supported {
        /// Whether the sink can do the XOR blending operations.
        xor: bool,
        /// The largest width of a cursor, in pixels.
        width: u16,
        /// The largest height of a cursor, in pixels.
        height: u16,
        /// The UDP port for the cursor packets.
        port: u16,
    },
}

/// Reads the value. All of it must match the grammar, otherwise it is refused with 16.
pub fn read(text: &[u8]) -> Result<Limits, Refused> {
    parse(text).ok_or_else(|| Refusal::NotOfGrammar.into())
}

fn parse(text: &[u8]) -> Option<Limits> {
    let (word, rest) = text.split_first_chunk::<4>()?;
    let none = word.eq_ignore_ascii_case(NONE);
    if none && rest.is_empty() {
        return Some(Limits::NotSupported);
    }
    let full = word.eq_ignore_ascii_case(FULL);
    if !none && !full {
        return None;
    }
    let (width, rest) = parse_number(rest)?;
    let (height, rest) = parse_number(rest)?;
    let (port, rest) = parse_number(rest)?;
    rest.is_empty().then_some(Limits::Supported { xor: full, width, height, port })
}

/// One space and four hexadecimal digits at the head of `text`: their number and what follows.
fn parse_number(text: &[u8]) -> Option<(u16, &[u8])> {
    let (&[space, ref digits @ ..], rest) = text.split_first_chunk::<5>()?;
    if space != b' ' {
        return None;
    }
    let number = digits.iter().try_fold(0, |number: u16, &digit| {
        let digit = char::from(digit).to_digit(16)?;
        Some(number << 4 | digit as u16)
    })?;
    Some((number, rest))
}

/// Writes the value, and answers with the number of bytes written.
///
/// Refusal 10 if the output is shorter than needed, which then stays as it is; acceptance changes
/// no byte after the value. Any limits can be written, so there is no refusal 18.
pub fn write(limits: Limits, out: &mut [u8]) -> Result<usize, Refused> {
    let Limits::Supported { xor, width, height, port } = limits else {
        let out = out.get_mut(..SHORT_LENGTH).ok_or(Refusal::NoRoom)?;
        out.copy_from_slice(NONE);
        return Ok(SHORT_LENGTH);
    };
    let out = out.get_mut(..LONG_LENGTH).ok_or(Refusal::NoRoom)?;
    let (word, numbers) = out.split_at_mut(SHORT_LENGTH);
    word.copy_from_slice(if xor { FULL } else { NONE });
    for (part, number) in numbers.chunks_exact_mut(5).zip([width, height, port]) {
        part[0] = b' ';
        for (digit, shift) in part[1..].iter_mut().zip([12, 8, 4, 0]) {
            *digit = b"0123456789ABCDEF"[usize::from(number >> shift & 0xF)];
        }
    }
    Ok(LONG_LENGTH)
}
