//! The session listing: recorded messages back to back, one line each (paper 01, "Session
//! listing").

use std::fmt;
use std::io::{self, Read, Write};

use crate::message::{self, HEADER};
use crate::refusal::Refusal;

/// One line of a listing. All but `Message` are last lines.
#[derive(Clone, Copy, Debug, PartialEq, Eq, Hash)]
pub enum Line {
    /// An accepted message, shown as its place, command and size.
    Message {
        /// The place of the message's first byte in the recording.
        place: u64,
        /// The command.
        command: u8,
        /// The size in bytes.
        size: usize,
    },
    /// A refused message, shown as its place, `refused` and the refusal number.
    Refused {
        /// The place of the message's first byte in the recording.
        place: u64,
        /// The refusal number.
        number: Refusal,
    },
    /// The end of a recording without a refusal, shown as `end` and its length.
    End {
        /// The number of bytes of the recording.
        place: u64,
    },
}

impl Line {
    /// The line for the message in `bytes` at this place.
    fn of_message(place: u64, bytes: &[u8]) -> Self {
        match message::read(bytes) {
            Ok(record) => Line::Message { place, command: record.command, size: bytes.len() },
            Err(refused) => Line::Refused { place, number: refused.number },
        }
    }

    /// Whether another line follows.
    fn is_message(&self) -> bool {
        matches!(self, Line::Message { .. })
    }
}

impl fmt::Display for Line {
    fn fmt(&self, f: &mut fmt::Formatter<'_>) -> fmt::Result {
        match self {
            Line::Message { place, command, size } => write!(f, "{place} {command} {size}"),
            Line::Refused { place, number } => write!(f, "{place} refused {}", number.number()),
            Line::End { place } => write!(f, "end {place}"),
        }
    }
}

/// The lines of a recording held in memory, as an iterator.
#[derive(Clone, Debug)]
pub struct Lines<'a> {
    recording: &'a [u8],
    place: usize,
    ended: bool,
}

/// Lists the messages of a recording held in memory. The last line is the end or a refusal.
pub fn lines(recording: &[u8]) -> Lines<'_> {
    Lines { recording, place: 0, ended: false }
}

impl Iterator for Lines<'_> {
    type Item = Line;

    fn next(&mut self) -> Option<Line> {
        if self.ended {
            return None;
        }
        let place = self.place as u64;
        let rest = &self.recording[self.place..];
        let line = if rest.is_empty() {
            Line::End { place }
        } else {
            match message::declared_size(rest) {
                Ok(size) => {
                    let bytes = rest.get(..size).unwrap_or(rest);
                    self.place += bytes.len();
                    Line::of_message(place, bytes)
                }
                Err(refused) => Line::Refused { place, number: refused.number },
            }
        };
        self.ended = !line.is_message();
        Some(line)
    }
}

/// The whole listing of a recording held in memory, each line with its line feed.
pub fn text(recording: &[u8]) -> String {
    lines(recording).map(|line| format!("{line}\n")).collect()
}

/// Lists a recording of any length from `input` to `output`, and answers with the last line.
///
/// Only one message is held at a time. The input is read in small pieces, so a file is best given
/// in a [`std::io::BufReader`].
pub fn list(mut input: impl Read, mut output: impl Write) -> io::Result<Line> {
    let mut bytes = Vec::with_capacity(usize::from(u16::MAX));
    let mut place = 0;
    loop {
        bytes.clear();
        fill(&mut input, &mut bytes, HEADER)?;
        let line = if bytes.is_empty() {
            Line::End { place }
        } else {
            match message::declared_size(&bytes) {
                Ok(size) => {
                    fill(&mut input, &mut bytes, size)?;
                    Line::of_message(place, &bytes)
                }
                Err(refused) => Line::Refused { place, number: refused.number },
            }
        };
        writeln!(output, "{line}")?;
        if !line.is_message() {
            return Ok(line);
        }
        place += bytes.len() as u64;
    }
}

/// Reads on until `bytes` has `length` bytes or the input ends.
fn fill(input: &mut impl Read, bytes: &mut Vec<u8>, length: usize) -> io::Result<()> {
    let wanted = length.saturating_sub(bytes.len()) as u64;
    input.by_ref().take(wanted).read_to_end(bytes).map(drop)
}
