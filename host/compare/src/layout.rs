//! The library's layouts of records, written down here once more: from bytes to the reference's
//! records and back.

use reference::cursor::{Picture, Pointer};
use reference::limits::Limits;
use reference::message::{Record, Span, Tlv};
use reference::session::{Session, State};

pub const MESSAGE: usize = 64;
pub const SESSION: usize = 19;
pub const LIMITS: usize = 8;
pub const POINTER: usize = 7;
pub const PICTURE: usize = 15;

fn u16_at(bytes: &[u8], place: usize) -> u16 {
    u16::from_le_bytes([bytes[place], bytes[place + 1]])
}

fn u32_at(bytes: &[u8], place: usize) -> u32 {
    u32::from(u16_at(bytes, place)) | u32::from(u16_at(bytes, place + 2)) << 16
}

/// The bytes one after the other.
fn laid<const N: usize>(parts: &[&[u8]]) -> [u8; N] {
    parts.concat().try_into().expect("the length of the layout")
}

pub fn message(record: &Record) -> [u8; MESSAGE] {
    let mut bytes = [0; MESSAGE];
    bytes[0] = record.command;
    for (field, value) in bytes[1..].chunks_exact_mut(9).zip(record.values) {
        if let Some(Span { place, length }) = value {
            field[0] = 1;
            field[1..5].copy_from_slice(&(place as u32).to_le_bytes());
            field[5..].copy_from_slice(&(length as u32).to_le_bytes());
        }
    }
    bytes
}

pub fn message_in(bytes: &[u8; MESSAGE]) -> Record {
    let mut record = Record::new(bytes[0]);
    for (tlv, field) in Tlv::ALL.into_iter().zip(bytes[1..].chunks_exact(9)) {
        let span = Span { place: u32_at(field, 1) as usize, length: u32_at(field, 5) as usize };
        record.set(tlv, (field[0] != 0).then_some(span));
    }
    record
}

pub fn session(session: &Session) -> [u8; SESSION] {
    let state = State::ALL.iter().position(|&state| state == session.state).expect("a state");
    let head = [state as u8, session.options, u8::from(session.id_kept)];
    laid(&[&head, &session.source_id])
}

pub fn session_in(bytes: &[u8; SESSION]) -> Session {
    let &[state, options, kept, source_id @ ..] = bytes;
    Session { state: State::ALL[usize::from(state.min(5))], id_kept: kept != 0, source_id, options }
}

pub fn limits(limits: &Limits) -> [u8; LIMITS] {
    let Limits::Supported { xor, width, height, port } = *limits else { return [0; LIMITS] };
    let numbers = [width, height, port].map(u16::to_le_bytes).concat();
    laid(&[&[1, u8::from(xor)], &numbers])
}

pub fn limits_in(bytes: &[u8; LIMITS]) -> Limits {
    if bytes[0] == 0 {
        return Limits::NotSupported;
    }
    Limits::Supported {
        xor: bytes[1] != 0,
        width: u16_at(bytes, 2),
        height: u16_at(bytes, 4),
        port: u16_at(bytes, 6),
    }
}

pub fn pointer(pointer: &Pointer) -> [u8; POINTER] {
    let sequence = pointer.last.to_le_bytes();
    let place = [pointer.x, pointer.y].map(i16::to_le_bytes).concat();
    laid(&[&[u8::from(pointer.known)], &sequence, &place])
}

pub fn pointer_in(bytes: &[u8; POINTER]) -> Pointer {
    Pointer {
        known: bytes[0] != 0,
        last: u16_at(bytes, 1),
        x: u16_at(bytes, 3) as i16,
        y: u16_at(bytes, 5) as i16,
    }
}

pub fn picture(picture: &Picture) -> [u8; PICTURE] {
    let hot_spot = [picture.hot_x, picture.hot_y].map(u16::to_le_bytes).concat();
    laid(&[
        &[u8::from(picture.open)],
        &picture.id.to_le_bytes(),
        &picture.total.to_le_bytes(),
        &picture.opening_sequence.to_le_bytes(),
        &[u8::from(picture.start_seen), picture.image_type],
        &hot_spot,
    ])
}

pub fn picture_in(bytes: &[u8; PICTURE]) -> Picture {
    Picture {
        open: bytes[0] != 0,
        id: u16_at(bytes, 1),
        total: u32_at(bytes, 3),
        opening_sequence: u16_at(bytes, 7),
        start_seen: bytes[9] != 0,
        image_type: bytes[10],
        hot_x: u16_at(bytes, 11),
        hot_y: u16_at(bytes, 13),
    }
}

/// A record after a call.
#[derive(Clone, Copy)]
pub struct Left<const N: usize> {
    pub bytes: [u8; N],
    /// Whether the call leaves every byte of it as lent.
    pub alone: bool,
    /// Whether it was lent in another form than the usual one. Only such a record shows whether a
    /// call that changes nothing in it writes it.
    pub unusual: bool,
}

/// The record after a call that accepts and leaves the value `after`, or that refuses.
///
/// A refusal changes no byte (demand 1). An accepted call writes a record only where its value
/// changes, and then in the usual form: flags 0 or 1, states 0 to 5.
fn left<const N: usize, T: PartialEq>(
    lent: &[u8; N],
    before: T,
    after: Option<&T>,
    usual: fn(&T) -> [u8; N],
) -> Left<N> {
    let changed = after.filter(|after| **after != before);
    Left {
        bytes: changed.map_or(*lent, usual),
        alone: changed.is_none(),
        unusual: usual(&before) != *lent,
    }
}

pub fn session_left(lent: &[u8; SESSION], after: Option<&Session>) -> Left<SESSION> {
    left(lent, session_in(lent), after, session)
}

pub fn pointer_left(lent: &[u8; POINTER], after: Option<&Pointer>) -> Left<POINTER> {
    left(lent, pointer_in(lent), after, pointer)
}

pub fn picture_left(lent: &[u8; PICTURE], after: Option<&Picture>) -> Left<PICTURE> {
    left(lent, picture_in(lent), after, picture)
}
