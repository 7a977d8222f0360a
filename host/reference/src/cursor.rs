//! Cursor packets, read and assembled.
//!
//! The layouts are those of 003 sections 2.2 to 2.2.3; the refusals, their order and the rules for
//! the pointer and the picture are those of paper 01, "Cursor packets". Of the RTP header 02 §2
//! judges the first two bytes only; timestamp and SSRC are ignored.

use std::cmp::Ordering;
use std::ops::Range;

use crate::numbers::newer;
use crate::refusal::{Refusal, Refused};

/// The largest picture: 256 by 256 at four bytes (paper 01, "Cursor packets").
pub const LARGEST_PICTURE: u32 = 262_144;

/// MsgType of a position packet (003 section 2.2.2).
pub const POSITION: u8 = 1;
/// MsgType of a start packet (003 section 2.2.3).
pub const START: u8 = 2;
/// MsgType of a continuation packet (003 section 2.2.3).
pub const CONTINUATION: u8 = 3;

/// Bytes of the RTP header (003 section 2.2).
pub const RTP_HEADER: usize = 12;
/// Bytes of MsgType and PacketMsgSize.
const PREFIX: usize = 3;
/// PacketMsgSize of a position packet.
pub const POSITION_SIZE: usize = 7;
/// The least PacketMsgSize of a start packet: all but the data.
pub const START_HEADER: usize = 18;
/// The least PacketMsgSize of a continuation packet: all but the data.
pub const CONTINUATION_HEADER: usize = 13;

/// The pointer record. Any values may stand in it.
///
/// Where no last sequence number is known, `last` is not looked at.
#[derive(Clone, Copy, Debug, Default, PartialEq, Eq, Hash)]
pub struct Pointer {
    /// Whether a last sequence number is known.
    pub known: bool,
    /// The sequence number of the packet that set the position last.
    pub last: u16,
    /// The x position of the pointer's top left corner, in pixels.
    pub x: i16,
    /// The y position of the pointer's top left corner, in pixels.
    pub y: i16,
}

impl Pointer {
    /// A fresh pointer: no last sequence number, position 0, 0.
    pub const fn fresh() -> Self {
        Pointer { known: false, last: 0, x: 0, y: 0 }
    }

    /// The pointer after a packet with this sequence number and position, if it is newer.
    fn moved(self, sequence: u16, x: i16, y: i16) -> Option<Self> {
        let moves = !self.known || newer(self.last, sequence);
        moves.then_some(Pointer { known: true, last: sequence, x, y })
    }
}

/// The picture record. Any values may stand in it.
///
/// Where no picture is open, no other field is looked at; where no start was seen, the start's own
/// fields are not.
#[derive(Clone, Copy, Debug, Default, PartialEq, Eq, Hash)]
pub struct Picture {
    /// Whether a picture is open.
    pub open: bool,
    /// CursorImageId of the opened picture.
    pub id: u16,
    /// TotalImageDataSize of the opened picture.
    pub total: u32,
    /// The sequence number of the packet that opened the picture.
    pub opening_sequence: u16,
    /// Whether a start of the opened picture was seen.
    pub start_seen: bool,
    /// CursorImageType, from the start.
    pub image_type: u8,
    /// HotSpotXPos, from the start.
    pub hot_x: u16,
    /// HotSpotYPos, from the start.
    pub hot_y: u16,
}

impl Picture {
    /// A fresh record: no picture open, all numbers 0.
    pub const fn fresh() -> Self {
        Picture {
            open: false,
            id: 0,
            total: 0,
            opening_sequence: 0,
            start_seen: false,
            image_type: 0,
            hot_x: 0,
            hot_y: 0,
        }
    }

    /// The record of a picture just opened by this fragment, nothing of it stored yet.
    fn opened_by(fragment: &Fragment) -> Self {
        Picture {
            open: true,
            id: fragment.id,
            total: fragment.total,
            opening_sequence: fragment.sequence,
            ..Picture::fresh()
        }
    }

    /// Refusal 17, if a picture is open whose total is too large for what is lent.
    fn check_opened(&self, picture: &[u8], marks: &[u8]) -> Result<(), Refusal> {
        if self.open && !has_room(self.total, picture, marks) {
            return Err(Refusal::OpenedTooLarge);
        }
        Ok(())
    }

    /// What a fragment that the lent picture and marks have room for does: refusals 11, 12 and 13.
    fn judge(&self, fragment: &Fragment, picture: &[u8], marks: &[u8]) -> Result<Effect, Refusal> {
        if !self.open || fragment.id != self.id {
            let opens = !self.open || newer(self.opening_sequence, fragment.sequence);
            return if opens { Ok(Effect::Opens) } else { Err(Refusal::NotNewer) };
        }
        if fragment.total != self.total {
            return Err(Refusal::OtherTotal);
        }
        if self.contradicts(fragment, picture, marks) {
            return Err(Refusal::Conflict);
        }
        Ok(Effect::Adds)
    }

    /// Whether a filled place would get another byte, or a second start differs in its own fields.
    fn contradicts(&self, fragment: &Fragment, picture: &[u8], marks: &[u8]) -> bool {
        if let Some(start) = &fragment.start {
            let seen = (self.image_type, self.hot_x, self.hot_y);
            if self.start_seen && (start.image_type, start.hot_x, start.hot_y) != seen {
                return true;
            }
        }
        // Without an early exit the comparison of a whole fragment is one vectorised loop.
        let held = picture[fragment.range()].iter().zip(&marks[fragment.range()]);
        held.zip(fragment.data)
            .fold(false, |any, ((old, mark), new)| any | ((*mark != 0) & (old != new)))
    }

    /// The record after storing this fragment: the start's own fields, if it is a start.
    fn with_start_of(self, fragment: &Fragment) -> Self {
        match &fragment.start {
            Some(start) => Picture {
                start_seen: true,
                image_type: start.image_type,
                hot_x: start.hot_x,
                hot_y: start.hot_y,
                ..self
            },
            None => self,
        }
    }
}

/// What an accepted fragment does to the picture.
enum Effect {
    /// It opens a picture.
    Opens,
    /// It adds to the opened picture.
    Adds,
}

/// A start or a continuation, as read from a packet.
struct Fragment<'a> {
    sequence: u16,
    total: u32,
    id: u16,
    offset: usize,
    data: &'a [u8],
    start: Option<Start>,
}

/// What only a start has.
struct Start {
    x: i16,
    y: i16,
    image_type: u8,
    hot_x: u16,
    hot_y: u16,
}

impl<'a> Fragment<'a> {
    /// Reads a start or a continuation: refusals 1 to 4 and 9.
    fn read(packet: &'a [u8]) -> Result<Self, Refusal> {
        let header = Header::read(packet)?;
        match header.kind {
            START => Self::read_start(header, packet),
            CONTINUATION => Self::read_continuation(header, packet),
            _ => Err(Refusal::UnknownKind),
        }
    }

    fn read_start(header: Header, packet: &'a [u8]) -> Result<Self, Refusal> {
        if header.size < START_HEADER {
            return Err(Refusal::WrongSize);
        }
        let (fields, data) = header.body::<{ START_HEADER - PREFIX }>(packet)?;
        let &[t3, t2, t1, t0, i1, i0, x1, x0, y1, y0, image_type, hx1, hx0, hy1, hy0] = fields;
        let start = Start {
            x: i16::from_be_bytes([x1, x0]),
            y: i16::from_be_bytes([y1, y0]),
            image_type,
            hot_x: u16::from_be_bytes([hx1, hx0]),
            hot_y: u16::from_be_bytes([hy1, hy0]),
        };
        Fragment {
            sequence: header.sequence,
            total: u32::from_be_bytes([t3, t2, t1, t0]),
            id: u16::from_be_bytes([i1, i0]),
            offset: 0,
            data,
            start: Some(start),
        }
        .within_total()
    }

    fn read_continuation(header: Header, packet: &'a [u8]) -> Result<Self, Refusal> {
        if header.size < CONTINUATION_HEADER {
            return Err(Refusal::WrongSize);
        }
        let (fields, data) = header.body::<{ CONTINUATION_HEADER - PREFIX }>(packet)?;
        let &[t3, t2, t1, t0, i1, i0, o3, o2, o1, o0] = fields;
        let offset = i32::from_be_bytes([o3, o2, o1, o0]);
        Fragment {
            sequence: header.sequence,
            total: u32::from_be_bytes([t3, t2, t1, t0]),
            id: u16::from_be_bytes([i1, i0]),
            offset: usize::try_from(offset).map_err(|_| Refusal::OutsideTotal)?,
            data,
            start: None,
        }
        .within_total()
    }

    /// The fragment, unless its data goes beyond the total (refusal 9).
    fn within_total(self) -> Result<Self, Refusal> {
        // The offset is below 2^31 and the data below 2^16 bytes.
        let end = self.offset as u64 + self.data.len() as u64;
        if end > u64::from(self.total) {
            return Err(Refusal::OutsideTotal);
        }
        Ok(self)
    }

    /// The places that the fragment covers.
    fn range(&self) -> Range<usize> {
        self.offset..self.offset + self.data.len()
    }
}

/// The header that all cursor packets share: RTP (003 section 2.2), MsgType and PacketMsgSize.
struct Header {
    sequence: u16,
    kind: u8,
    size: usize,
}

impl Header {
    /// Reads the header: fewer than 15 bytes is 1; a first byte that is not 80 hex, or a second
    /// that is not 0, is 3. Timestamp and SSRC, bytes 4 to 11, may hold anything (02 §2).
    fn read(packet: &[u8]) -> Result<Self, Refusal> {
        let Some(&[first, second, s1, s0, .., kind, z1, z0]) =
            packet.first_chunk::<{ RTP_HEADER + PREFIX }>()
        else {
            return Err(Refusal::TooFewBytes);
        };
        if first != 0x80 || second != 0 {
            return Err(Refusal::WrongHeader);
        }
        Ok(Header {
            sequence: u16::from_be_bytes([s1, s0]),
            kind,
            size: usize::from(u16::from_be_bytes([z1, z0])),
        })
    }

    /// The `N` bytes of fields after PacketMsgSize, and the data after them.
    ///
    /// Fewer bytes than PacketMsgSize says is 1, more is 2.
    fn body<'a, const N: usize>(
        &self,
        packet: &'a [u8],
    ) -> Result<(&'a [u8; N], &'a [u8]), Refusal> {
        match packet.len().cmp(&(RTP_HEADER + self.size)) {
            Ordering::Less => return Err(Refusal::TooFewBytes),
            Ordering::Greater => return Err(Refusal::WrongSize),
            Ordering::Equal => {}
        }
        packet
            .get(RTP_HEADER + PREFIX..)
            .and_then(<[u8]>::split_first_chunk)
            .ok_or(Refusal::TooFewBytes)
    }
}

/// Whether a picture of this total is within the largest and within the lent picture and marks.
fn has_room(total: u32, picture: &[u8], marks: &[u8]) -> bool {
    let lent = picture.len().min(marks.len()) as u64;
    total <= LARGEST_PICTURE && u64::from(total) <= lent
}

/// Takes a position packet (type 1 only) and answers with the pointer it sets.
///
/// Paper 01's order: fewer than 15 bytes 1; RTP 3; type 4; PacketMsgSize not 7, 2; too few bytes 1;
/// too many 2; not newer than the last pointer sequence 11.
pub fn position(pointer: Pointer, packet: &[u8]) -> Result<Pointer, Refused> {
    let header = Header::read(packet)?;
    if header.kind != POSITION {
        return Err(Refusal::UnknownKind.into());
    }
    if header.size != POSITION_SIZE {
        return Err(Refusal::WrongSize.into());
    }
    let (&[x1, x0, y1, y0], _) = header.body::<{ POSITION_SIZE - PREFIX }>(packet)?;
    let (x, y) = (i16::from_be_bytes([x1, x0]), i16::from_be_bytes([y1, y0]));
    let moved = pointer.moved(header.sequence, x, y).ok_or(Refusal::NotNewer)?;
    Ok(moved)
}

/// Takes a start or a continuation (types 2 and 3 only), stores its data in the lent picture, marks
/// the places it fills, and answers with the records afterwards.
///
/// Paper 01's order: 17; fewer than 15 bytes 1; RTP 3; type 4; PacketMsgSize below its header 2;
/// too few bytes 1; too many 2; 9; 10; then for a fragment of the opened id 12 and 13, for one of
/// another id 11. An accepted start moves the pointer if it is newer than the last pointer
/// sequence. A refusal leaves the picture and the marks as they are; acceptance changes no byte at
/// or beyond the total in either.
pub fn store(
    pointer: Pointer,
    record: Picture,
    packet: &[u8],
    picture: &mut [u8],
    marks: &mut [u8],
) -> Result<(Pointer, Picture), Refused> {
    record.check_opened(picture, marks)?;
    let fragment = Fragment::read(packet)?;
    if !has_room(fragment.total, picture, marks) {
        return Err(Refusal::NoRoom.into());
    }
    let record = match record.judge(&fragment, picture, marks)? {
        Effect::Adds => record,
        Effect::Opens => {
            marks[..fragment.total as usize].fill(0);
            Picture::opened_by(&fragment)
        }
    };

    picture[fragment.range()].copy_from_slice(fragment.data);
    marks[fragment.range()].fill(1);

    let moved = fragment
        .start
        .as_ref()
        .and_then(|start| pointer.moved(fragment.sequence, start.x, start.y));
    Ok((moved.unwrap_or(pointer), record.with_start_of(&fragment)))
}

/// Whether the opened picture is complete: a start was seen and every place is filled.
///
/// Refusal 17 comes first; with no picture open the answer is no.
pub fn complete(record: Picture, picture: &[u8], marks: &[u8]) -> Result<bool, Refused> {
    record.check_opened(picture, marks)?;
    Ok(record.open && record.start_seen && !marks[..record.total as usize].contains(&0))
}
