//! Connection messages: read, asked for their values, written.

use std::fmt;

use crate::refusal::Refused;
use crate::sys;

/// The command of a message. Any number may stand in a record; 1 to 6 are known.
#[derive(Clone, Copy, Debug, PartialEq, Eq, Hash)]
pub struct Command(pub u8);

impl Command {
    /// 1: the source is ready to project.
    pub const SOURCE_READY: Command = Command(1);
    /// 2: the source stops.
    pub const STOP_PROJECTION: Command = Command(2);
    /// 3: a message of the DTLS handshake.
    pub const SECURITY_HANDSHAKE: Command = Command(3);
    /// 4: the source asks for a session, with its security options.
    pub const SESSION_REQUEST: Command = Command(4);
    /// 5: the hash of the PIN that the source was given.
    pub const PIN_CHALLENGE: Command = Command(5);
    /// 6: the sink's answer to a PIN Challenge.
    pub const PIN_RESPONSE: Command = Command(6);
}

impl fmt::Display for Command {
    fn fmt(&self, f: &mut fmt::Formatter<'_>) -> fmt::Result {
        f.pad(match self.0 {
            1 => "Source Ready",
            2 => "Stop Projection",
            3 => "Security Handshake",
            4 => "Session Request",
            5 => "PIN Challenge",
            6 => "PIN Response",
            other => return write!(f, "command {other}"),
        })
    }
}

/// The types of TLVs. The discriminant is the Type byte.
#[derive(Clone, Copy, Debug, PartialEq, Eq, PartialOrd, Ord, Hash)]
#[repr(u8)]
pub enum Tlv {
    /// 0: the source's name, UTF-16 with the low byte first.
    FriendlyName = 0,
    /// 2: the port on which the source listens for RTSP.
    RtspPort = 2,
    /// 3: the identifier of the source, 16 bytes.
    SourceId = 3,
    /// 4: a message of the DTLS handshake.
    SecurityToken = 4,
    /// 5: the flags for encryption and PIN.
    SecurityOptions = 5,
    /// 6: the hash of the PIN.
    PinChallenge = 6,
    /// 7: how the PIN exchange ended.
    PinReason = 7,
}

impl Tlv {
    /// Every type, by rising Type byte.
    pub const ALL: [Tlv; 7] = [
        Tlv::FriendlyName,
        Tlv::RtspPort,
        Tlv::SourceId,
        Tlv::SecurityToken,
        Tlv::SecurityOptions,
        Tlv::PinChallenge,
        Tlv::PinReason,
    ];

    /// Where the record holds the field of this type.
    const fn at(self) -> usize {
        match self {
            Tlv::FriendlyName => 1,
            Tlv::RtspPort => 10,
            Tlv::SourceId => 19,
            Tlv::SecurityToken => 28,
            Tlv::SecurityOptions => 37,
            Tlv::PinChallenge => 46,
            Tlv::PinReason => 55,
        }
    }
}

/// Where a value stands in the lent bytes. Any numbers may stand in a record.
#[derive(Clone, Copy, Debug, PartialEq, Eq, Hash)]
pub struct Field {
    /// The place of the value's first byte.
    pub place: u32,
    /// The number of bytes of the value.
    pub length: u32,
}

impl Field {
    /// The bytes of the value, if they lie within the lent ones.
    pub fn of(self, bytes: &[u8]) -> Option<&[u8]> {
        bytes.get(self.place as usize..)?.get(..self.length as usize)
    }
}

/// The identifier of a source.
#[derive(Clone, Copy, Debug, PartialEq, Eq, Hash)]
pub struct SourceId(pub [u8; SourceId::LENGTH]);

impl SourceId {
    /// The number of its bytes.
    pub const LENGTH: usize = 16;
}

impl fmt::Display for SourceId {
    /// As 32 hexadecimal digits.
    fn fmt(&self, f: &mut fmt::Formatter<'_>) -> fmt::Result {
        self.0.iter().try_for_each(|byte| write!(f, "{byte:02X}"))
    }
}

/// The record of a message: its command, and where each of its values stands in the lent bytes.
///
/// It is kept in the layout that the library reads and writes, [`Message::LENGTH`] bytes; numbers
/// are little-endian:
///
/// | Place | Bytes | |
/// |---|---|---|
/// | 0 | 1 | the command |
/// | 1 | 9 | Friendly Name: whether it is there (1), its place (4) and its length (4) |
/// | 10 | 9 | RTSP Port |
/// | 19 | 9 | Source ID |
/// | 28 | 9 | Security Token |
/// | 37 | 9 | Security Options |
/// | 46 | 9 | PIN Challenge |
/// | 55 | 9 | PIN Response Reason |
///
/// Two records are equal if they say the same: the place and the length of a value that is not
/// there are not looked at.
#[derive(Clone, Copy)]
pub struct Message {
    record: [u8; Message::LENGTH],
}

impl Message {
    /// The number of bytes of the layout.
    pub const LENGTH: usize = 64;

    /// A record of this command without values.
    pub const fn new(command: Command) -> Self {
        let mut record = [0; Self::LENGTH];
        record[0] = command.0;
        Message { record }
    }

    /// The record in these bytes, whatever they are.
    pub const fn from_bytes(record: [u8; Self::LENGTH]) -> Self {
        Message { record }
    }

    /// The bytes of the record.
    pub const fn as_bytes(&self) -> &[u8; Self::LENGTH] {
        &self.record
    }

    /// The command.
    pub const fn command(&self) -> Command {
        Command(self.record[0])
    }

    /// Where the value of this type stands, if it is there.
    pub fn field(&self, tlv: Tlv) -> Option<Field> {
        let &[present, p0, p1, p2, p3, l0, l1, l2, l3] =
            self.record[tlv.at()..].first_chunk().expect("within the layout");
        (present != 0).then_some(Field {
            place: u32::from_le_bytes([p0, p1, p2, p3]),
            length: u32::from_le_bytes([l0, l1, l2, l3]),
        })
    }

    /// Says where the value of this type stands, or that it is not there.
    pub fn set(&mut self, tlv: Tlv, field: Option<Field>) {
        let part = &mut self.record[tlv.at()..tlv.at() + 9];
        part.fill(0);
        if let Some(Field { place, length }) = field {
            part[0] = 1;
            part[1..5].copy_from_slice(&place.to_le_bytes());
            part[5..].copy_from_slice(&length.to_le_bytes());
        }
    }

    /// The bytes of the value of this type, if it is there and lies within the lent bytes.
    pub fn value<'a>(&self, bytes: &'a [u8], tlv: Tlv) -> Option<&'a [u8]> {
        self.field(tlv)?.of(bytes)
    }

    /// Reads a message, which is all of `bytes`. Refusals: 1 to 8.
    ///
    /// ```
    /// use ashlarsilk::{Command, Message, Refusal, Tlv};
    ///
    /// // A Source Ready with the name "A" and the RTSP port 7236.
    /// let mut bytes = vec![0, 33, 1, 1, 0, 0, 2, 0x41, 0, 2, 0, 2, 0x1C, 0x44, 3, 0, 16];
    /// bytes.extend([7; 16]);
    /// let message = Message::read(&bytes)?;
    /// assert_eq!(message.command(), Command::SOURCE_READY);
    /// assert_eq!(message.value(&bytes, Tlv::FriendlyName), Some(&[0x41, 0][..]));
    /// assert_eq!(message.field(Tlv::SecurityToken), None);
    ///
    /// // One byte is missing at the end.
    /// let refused = Message::read(&bytes[..32]).unwrap_err();
    /// assert_eq!((refused.refusal, refused.place), (Refusal::Truncated, 0));
    /// # Ok::<(), ashlarsilk::Refused>(())
    /// ```
    #[inline]
    pub fn read(bytes: &[u8]) -> Result<Message, Refused> {
        let mut record = [0; Self::LENGTH];
        let answer = sys::message_read(bytes, &mut record);
        Refused::check(answer.status, answer.place)?;
        Ok(Message { record })
    }

    /// Reads a message, which is all of `bytes`, into this record, which a refusal leaves as it was.
    ///
    /// For a host that keeps one record: nothing is copied, where [`Message::read`] copies the record
    /// once.
    ///
    /// ```
    /// use ashlarsilk::{Command, Message, Refusal};
    ///
    /// let mut bytes = vec![0, 33, 1, 1, 0, 0, 2, 0x41, 0, 2, 0, 2, 0x1C, 0x44, 3, 0, 16];
    /// bytes.extend([7; 16]);
    /// let mut message = Message::new(Command(0));
    /// message.read_into(&bytes)?;
    /// assert_eq!(message.command(), Command(1));
    ///
    /// // Another version.
    /// bytes[2] = 2;
    /// let refused = message.read_into(&bytes).unwrap_err();
    /// assert_eq!(refused.refusal, Refusal::WrongHeader);
    /// assert_eq!(message.command(), Command(1));
    /// # Ok::<(), ashlarsilk::Refused>(())
    /// ```
    #[inline]
    pub fn read_into(&mut self, bytes: &[u8]) -> Result<(), Refused> {
        let answer = sys::message_read(bytes, &mut self.record);
        Refused::check(answer.status, answer.place)
    }

    /// Writes the message to `out`, its values taken from `bytes`, and answers the number of bytes
    /// written. Refusals: 18, then 10; they change no byte of `out`. No byte after the message is
    /// changed.
    ///
    /// ```
    /// use ashlarsilk::{Command, Field, Message, Refusal, Tlv};
    ///
    /// // A Security Handshake whose token is the four bytes from place 2 on.
    /// let bytes = [0, 0, 0x16, 0xFE, 0xFD, 0x00];
    /// let mut message = Message::new(Command::SECURITY_HANDSHAKE);
    /// message.set(Tlv::SecurityToken, Some(Field { place: 2, length: 4 }));
    /// let mut out = [0xAA; 12];
    /// assert_eq!(message.write(&bytes, &mut out), Ok(11));
    /// assert_eq!(out, [0, 11, 1, 3, 4, 0, 4, 0x16, 0xFE, 0xFD, 0x00, 0xAA]);
    ///
    /// let refused = message.write(&bytes, &mut out[..10]).unwrap_err();
    /// assert_eq!(refused.refusal, Refusal::NoRoom);
    /// let refused = message.write(&bytes[..5], &mut out).unwrap_err();
    /// assert_eq!(refused.refusal, Refusal::NotWritable);
    /// ```
    #[inline]
    pub fn write(&self, bytes: &[u8], out: &mut [u8]) -> Result<usize, Refused> {
        let written = sys::message_write(bytes, &self.record, out);
        // Where the library refuses, the size is 0, and so is the place of a writer's refusal.
        Refused::check(written.status, written.size)?;
        Ok(written.size)
    }

    /// The RTSP port, if there is one. `bytes` are those that the record was read from; of others
    /// a byte past the end counts as 0.
    ///
    /// ```
    /// use ashlarsilk::Message;
    ///
    /// let mut bytes = vec![0, 28, 1, 1, 2, 0, 2, 0x1C, 0x44, 3, 0, 16];
    /// bytes.extend([7; 16]);
    /// assert_eq!(Message::read(&bytes)?.rtsp_port(&bytes), Some(7236));
    ///
    /// let handshake = [0, 8, 1, 3, 4, 0, 1, 0x16];
    /// assert_eq!(Message::read(&handshake)?.rtsp_port(&handshake), None);
    /// # Ok::<(), ashlarsilk::Refused>(())
    /// ```
    #[inline]
    pub fn rtsp_port(&self, bytes: &[u8]) -> Option<u16> {
        let answer = sys::message_rtsp_port(bytes, &self.record);
        self.field(Tlv::RtspPort).map(|_| answer.value)
    }

    /// The option byte, the first of the Security Options, if there are any. `bytes` are those
    /// that the record was read from; of others a byte past the end counts as 0.
    ///
    /// ```
    /// use ashlarsilk::Message;
    ///
    /// // A Session Request that asks for encryption and a PIN.
    /// let mut bytes = vec![0, 32, 1, 4, 0, 0, 2, 0x41, 0, 5, 0, 1, 3, 3, 0, 16];
    /// bytes.extend([7; 16]);
    /// assert_eq!(Message::read(&bytes)?.security_options(&bytes), Some(3));
    /// # Ok::<(), ashlarsilk::Refused>(())
    /// ```
    #[inline]
    pub fn security_options(&self, bytes: &[u8]) -> Option<u8> {
        let answer = sys::message_security_options(bytes, &self.record);
        // The number of a byte is below 256.
        self.field(Tlv::SecurityOptions).map(|_| answer.value as u8)
    }

    /// The Source ID, if there is one and its 16 bytes lie within `bytes`, which are those that
    /// the record was read from.
    ///
    /// ```
    /// use ashlarsilk::{Message, SourceId};
    ///
    /// let mut bytes = vec![0, 28, 1, 2, 0, 0, 2, 0x41, 0, 3, 0, 16];
    /// bytes.extend([7; 16]);
    /// assert_eq!(Message::read(&bytes)?.source_id(&bytes), Some(SourceId([7; 16])));
    /// # Ok::<(), ashlarsilk::Refused>(())
    /// ```
    #[inline]
    pub fn source_id(&self, bytes: &[u8]) -> Option<SourceId> {
        let mut id = [0; SourceId::LENGTH];
        let answer = sys::message_source_id(bytes, &self.record, &mut id);
        (answer.yes != 0).then_some(SourceId(id))
    }

    fn fields(&self) -> [Option<Field>; 7] {
        Tlv::ALL.map(|tlv| self.field(tlv))
    }
}

impl PartialEq for Message {
    fn eq(&self, other: &Self) -> bool {
        self.command() == other.command() && self.fields() == other.fields()
    }
}

impl Eq for Message {}

impl fmt::Debug for Message {
    fn fmt(&self, f: &mut fmt::Formatter<'_>) -> fmt::Result {
        let mut shown = f.debug_struct("Message");
        shown.field("command", &self.command());
        for tlv in Tlv::ALL {
            if let Some(field) = self.field(tlv) {
                shown.field(&format!("{tlv:?}"), &field);
            }
        }
        shown.finish()
    }
}
