//! Connection messages, read and written.
//!
//! The layout is that of 001 section 2.2: Size (2 bytes, the whole message), Version (1), Command
//! (1), then TLVs, each a Type (1), a Length (2) and a Value. The refusals and their order are
//! those of paper 01, "Connection message" and "Refusal numbers".

use std::cmp::Ordering;

use crate::numbers::read_u16;
use crate::refusal::{Refusal, Refused};

/// Command 1, Source Ready (001 section 2.2.1).
pub const SOURCE_READY: u8 = 1;
/// Command 2, Stop Projection (001 section 2.2.2).
pub const STOP_PROJECTION: u8 = 2;
/// Command 3, Security Handshake (001 section 2.2.3).
pub const SECURITY_HANDSHAKE: u8 = 3;
/// Command 4, Session Request (001 section 2.2.4).
pub const SESSION_REQUEST: u8 = 4;
/// Command 5, PIN Challenge (001 section 2.2.5).
pub const PIN_CHALLENGE: u8 = 5;
/// Command 6, PIN Response (001 section 2.2.6).
pub const PIN_RESPONSE: u8 = 6;

/// The only version of the protocol (001 section 2.2).
pub const VERSION: u8 = 1;
/// Bytes of Size, Version and Command (001 section 2.2).
pub const HEADER: usize = 4;
/// Bytes of a TLV's Type and Length (001 section 2.2.7).
pub const TLV_HEADER: usize = 3;
/// Most bytes of a Friendly Name (001 section 2.2.7.1).
pub const LONGEST_FRIENDLY_NAME: usize = 520;
/// Bytes of a Source ID (001 section 2.2.7.3).
pub const SOURCE_ID_LENGTH: usize = 16;

/// The TLV types of 001 section 2.2.7. The discriminant is the Type byte.
#[derive(Clone, Copy, Debug, PartialEq, Eq, PartialOrd, Ord, Hash)]
#[repr(u8)]
pub enum Tlv {
    /// Type 0, the source's name in UTF-16 (001 section 2.2.7.1).
    FriendlyName = 0,
    /// Type 2, the port the source listens on (001 section 2.2.7.2).
    RtspPort = 2,
    /// Type 3, the identifier of the source (001 section 2.2.7.3).
    SourceId = 3,
    /// Type 4, a DTLS handshake payload (001 section 2.2.7.4).
    SecurityToken = 4,
    /// Type 5, the flags for encryption and PIN (001 section 2.2.7.5).
    SecurityOptions = 5,
    /// Type 6, the hash of the salted PIN (001 section 2.2.7.6).
    PinChallenge = 6,
    /// Type 7, the result of the PIN exchange (001 section 2.2.7.7).
    PinResponseReason = 7,
}

/// Whether a command's message carries a TLV (paper 01, table of commands).
#[derive(Clone, Copy, PartialEq, Eq)]
enum Presence {
    Required,
    Optional,
    Foreign,
}

impl Tlv {
    /// Every TLV by rising type, the order in which they are written.
    pub const ALL: [Tlv; 7] = [
        Tlv::FriendlyName,
        Tlv::RtspPort,
        Tlv::SourceId,
        Tlv::SecurityToken,
        Tlv::SecurityOptions,
        Tlv::PinChallenge,
        Tlv::PinResponseReason,
    ];

    /// The TLV with this Type byte, if it is in the list.
    pub const fn from_type(kind: u8) -> Option<Tlv> {
        Some(match kind {
            0 => Tlv::FriendlyName,
            2 => Tlv::RtspPort,
            3 => Tlv::SourceId,
            4 => Tlv::SecurityToken,
            5 => Tlv::SecurityOptions,
            6 => Tlv::PinChallenge,
            7 => Tlv::PinResponseReason,
            _ => return None,
        })
    }

    /// The Type byte.
    pub const fn type_byte(self) -> u8 {
        self as u8
    }

    /// The index in [`Tlv::ALL`] and in [`Record::values`].
    pub const fn index(self) -> usize {
        match self {
            Tlv::FriendlyName => 0,
            other => other as usize - 1,
        }
    }

    /// Whether a value of this type may have `length` bytes.
    ///
    /// Length 0 is never right (001 section 2.2.7). Security Options may be longer than the one
    /// byte that has a meaning (001 section 2.2.7.5), and a Security Token and a PIN Challenge have
    /// no fixed length (001 sections 2.2.7.4 and 2.2.7.6).
    pub const fn takes_length(self, length: usize) -> bool {
        match self {
            Tlv::FriendlyName => {
                length >= 2 && length <= LONGEST_FRIENDLY_NAME && length.is_multiple_of(2)
            }
            Tlv::RtspPort => length == 2,
            Tlv::SourceId => length == SOURCE_ID_LENGTH,
            Tlv::SecurityToken | Tlv::SecurityOptions | Tlv::PinChallenge => length >= 1,
            Tlv::PinResponseReason => length == 1,
        }
    }

    /// Whether this TLV belongs to a message with this command.
    ///
    /// Source Ready goes without a Friendly Name after a Session Request (001 section 2.2.1).
    const fn presence(self, command: u8) -> Presence {
        use Tlv::*;
        match (command, self) {
            (SOURCE_READY, RtspPort | SourceId)
            | (STOP_PROJECTION, FriendlyName | SourceId)
            | (SECURITY_HANDSHAKE, SecurityToken)
            | (SESSION_REQUEST, FriendlyName | SourceId | SecurityOptions)
            | (PIN_CHALLENGE, SourceId | PinChallenge)
            | (PIN_RESPONSE, SourceId | PinChallenge | PinResponseReason) => Presence::Required,
            (SOURCE_READY, FriendlyName) | (SECURITY_HANDSHAKE, SourceId) => Presence::Optional,
            _ => Presence::Foreign,
        }
    }
}

/// Whether paper 01 knows this command.
pub const fn is_command(command: u8) -> bool {
    matches!(command, SOURCE_READY..=PIN_RESPONSE)
}

/// A value's place and length in the lent bytes.
#[derive(Clone, Copy, Debug, Default, PartialEq, Eq, Hash)]
pub struct Span {
    /// The place of the value's first byte, counted from the first lent byte.
    pub place: usize,
    /// The number of bytes of the value.
    pub length: usize,
}

impl Span {
    /// The bytes of the value, if they lie in the lent bytes.
    pub fn of(self, lent: &[u8]) -> Option<&[u8]> {
        lent.get(self.place..)?.get(..self.length)
    }
}

/// What a message says: its command, and each value as a place and a length in the lent bytes.
///
/// A record that the reader gave describes an accepted message. The writer and the accessors take
/// any record.
#[derive(Clone, Copy, Debug, Default, PartialEq, Eq, Hash)]
pub struct Record {
    /// The Command byte.
    pub command: u8,
    /// For each TLV of [`Tlv::ALL`], in that order, its value if it is there.
    pub values: [Option<Span>; 7],
}

impl Record {
    /// A record with this command and no TLV.
    pub const fn new(command: u8) -> Self {
        Record { command, values: [None; 7] }
    }

    /// Where the value of this TLV is, if the TLV is there.
    pub const fn get(&self, tlv: Tlv) -> Option<Span> {
        self.values[tlv.index()]
    }

    /// Sets or takes away the value of this TLV.
    pub fn set(&mut self, tlv: Tlv, value: Option<Span>) {
        self.values[tlv.index()] = value;
    }

    /// The bytes of this TLV's value, if the TLV is there and lies in the lent bytes.
    pub fn value<'a>(&self, lent: &'a [u8], tlv: Tlv) -> Option<&'a [u8]> {
        self.get(tlv)?.of(lent)
    }

    /// The RTSP port (001 section 2.2.7.2), if the TLV is there with two bytes.
    pub fn rtsp_port(&self, lent: &[u8]) -> Option<u16> {
        let value = self.value(lent, Tlv::RtspPort)?;
        value.try_into().ok().map(u16::from_be_bytes)
    }

    /// The option byte, the first of the Security Options (001 section 2.2.7.5), if it is there.
    pub fn option_byte(&self, lent: &[u8]) -> Option<u8> {
        self.value(lent, Tlv::SecurityOptions)?.first().copied()
    }

    /// The Source ID (001 section 2.2.7.3), if the TLV is there with 16 bytes.
    pub fn source_id(&self, lent: &[u8]) -> Option<[u8; SOURCE_ID_LENGTH]> {
        self.value(lent, Tlv::SourceId)?.try_into().ok()
    }

    /// The number of bytes of the message for this record; `None` if it cannot be written.
    fn message_size(&self, lent: &[u8]) -> Option<u16> {
        if !is_command(self.command) {
            return None;
        }
        let mut size = HEADER;
        for tlv in Tlv::ALL {
            match (tlv.presence(self.command), self.get(tlv)) {
                (Presence::Required, None) | (Presence::Foreign, Some(_)) => return None,
                (_, None) => {}
                (_, Some(span)) => {
                    let value = span.of(lent).filter(|value| tlv.takes_length(value.len()))?;
                    size = size.saturating_add(TLV_HEADER).saturating_add(value.len());
                }
            }
        }
        u16::try_from(size).ok()
    }
}

/// Reads one whole message.
///
/// Paper 01's order: fewer than 4 bytes 1; Size below 4, 2; fewer bytes than Size 1; more 2; then
/// 3 and 4; then the TLVs left to right, each 5, 8 (unknown or foreign), 6, 7; last 8 (missing),
/// whose place is the number of bytes of the message.
pub fn read(bytes: &[u8]) -> Result<Record, Refused> {
    let Some(&[_, _, version, command]) = bytes.first_chunk::<HEADER>() else {
        return Err(Refusal::TooFewBytes.into());
    };
    let size = declared_size(bytes)?;
    match bytes.len().cmp(&size) {
        Ordering::Less => return Err(Refusal::TooFewBytes.into()),
        Ordering::Greater => return Err(Refusal::WrongSize.into()),
        Ordering::Equal => {}
    }
    if version != VERSION {
        return Err(Refusal::WrongHeader.into());
    }
    if !is_command(command) {
        return Err(Refusal::UnknownKind.into());
    }

    let mut record = Record::new(command);
    let mut rest = &bytes[HEADER..];
    while !rest.is_empty() {
        let place = size - rest.len();
        let (tlv, length) = read_tlv(rest, &record).map_err(|number| Refused { number, place })?;
        record.set(tlv, Some(Span { place: place + TLV_HEADER, length }));
        rest = &rest[TLV_HEADER + length..];
    }

    let missing =
        |&tlv: &Tlv| tlv.presence(command) == Presence::Required && record.get(tlv).is_none();
    if Tlv::ALL.iter().any(missing) {
        return Err(Refused { number: Refusal::TlvUnexpected, place: size });
    }
    Ok(record)
}

/// The Size field: 1 where fewer than 4 bytes are left, 2 where it is below 4.
///
/// These are the first two checks of a message, and those by which a recording is cut into
/// messages (paper 01, "Session listing").
pub fn declared_size(bytes: &[u8]) -> Result<usize, Refused> {
    if bytes.len() < HEADER {
        return Err(Refusal::TooFewBytes.into());
    }
    match read_u16(bytes, 0).map(usize::from) {
        Some(size) if size >= HEADER => Ok(size),
        _ => Err(Refusal::WrongSize.into()),
    }
}

/// Reads the TLV at the head of `rest` after the TLVs already in `record`: its type and length.
fn read_tlv(rest: &[u8], record: &Record) -> Result<(Tlv, usize), Refusal> {
    let Some((&[kind, high, low], after)) = rest.split_first_chunk::<TLV_HEADER>() else {
        return Err(Refusal::TlvTruncated);
    };
    let length = usize::from(u16::from_be_bytes([high, low]));
    if length > after.len() {
        return Err(Refusal::TlvTruncated);
    }
    let Some(tlv) = Tlv::from_type(kind) else {
        return Err(Refusal::TlvUnexpected);
    };
    if tlv.presence(record.command) == Presence::Foreign {
        return Err(Refusal::TlvUnexpected);
    }
    if !tlv.takes_length(length) {
        return Err(Refusal::TlvLength);
    }
    if record.get(tlv).is_some() {
        return Err(Refusal::TlvRepeated);
    }
    Ok((tlv, length))
}

/// Writes the message of any record, its values taken from the lent bytes, TLVs by rising type.
///
/// The answer is the number of bytes written. Paper 01's order for a writer: 18 (no such command,
/// TLVs not those of the command, a place or length outside the lent bytes, a value of wrong
/// length, a size above 65,535), then 10 (output shorter than needed). A refusal changes no byte of
/// the output; acceptance changes none after the message.
pub fn write(lent: &[u8], record: &Record, out: &mut [u8]) -> Result<usize, Refused> {
    let size = record.message_size(lent).ok_or(Refusal::Unwritable)?;
    let out = out.get_mut(..usize::from(size)).ok_or(Refusal::NoRoom)?;

    let (header, mut rest) = out.split_at_mut(HEADER);
    header[..2].copy_from_slice(&size.to_be_bytes());
    header[2] = VERSION;
    header[3] = record.command;
    for tlv in Tlv::ALL {
        let Some(value) = record.value(lent, tlv) else { continue };
        let (head, after) = rest.split_at_mut(TLV_HEADER);
        let (body, after) = after.split_at_mut(value.len());
        head[0] = tlv.type_byte();
        // A message has at most 65,535 bytes, so the length of a value in it fits.
        head[1..].copy_from_slice(&(value.len() as u16).to_be_bytes());
        body.copy_from_slice(value);
        rest = after;
    }
    Ok(usize::from(size))
}
