//! Why a call refuses.

use std::fmt;

/// The reasons to refuse, by the numbers 1 to 18 of paper 01, "Refusal numbers".
#[derive(Clone, Copy, Debug, PartialEq, Eq, PartialOrd, Ord, Hash)]
#[repr(u8)]
pub enum Refusal {
    /// 1: the bytes end before the fixed header or the declared size.
    Truncated = 1,
    /// 2: declared size below the header, not 7 for a position, or bytes left over after it.
    WrongSize = 2,
    /// 3: Version not 1, or a packet whose first byte is not 80 hex or whose second is not 0.
    WrongHeader = 3,
    /// 4: unknown command, message type or session event, or a packet type not taken by the call.
    UnknownKind = 4,
    /// 5: fewer than 3 bytes left for a TLV, or its value runs past the message.
    TlvTruncated = 5,
    /// 6: TLV length wrong for its type.
    TlvLength = 6,
    /// 7: a TLV for the second time.
    TlvRepeated = 7,
    /// 8: unknown TLV, one foreign to the command, or one missing.
    TlvUnexpected = 8,
    /// 9: negative offset, or offset plus data beyond the total.
    OutsideImage = 9,
    /// 10: no room: output shorter than needed, or total above 262,144 or above the lent picture
    /// or marks.
    NoRoom = 10,
    /// 11: sequence number not newer.
    NotNewer = 11,
    /// 12: total differs from the opened picture's.
    TotalDiffers = 12,
    /// 13: a filled place would get another byte, or a second start differs in its own fields.
    Conflict = 13,
    /// 14: unexpected in this session state.
    UnexpectedEvent = 14,
    /// 15: message from another source.
    OtherSource = 15,
    /// 16: text not of the grammar.
    NotGrammar = 16,
    /// 17: opened picture's total above 262,144 or above the lent picture or marks.
    ImageNotHeld = 17,
    /// 18: a record that can't be written.
    NotWritable = 18,
}

impl Refusal {
    /// Every reason, by rising number.
    pub const ALL: [Refusal; 18] = [
        Refusal::Truncated,
        Refusal::WrongSize,
        Refusal::WrongHeader,
        Refusal::UnknownKind,
        Refusal::TlvTruncated,
        Refusal::TlvLength,
        Refusal::TlvRepeated,
        Refusal::TlvUnexpected,
        Refusal::OutsideImage,
        Refusal::NoRoom,
        Refusal::NotNewer,
        Refusal::TotalDiffers,
        Refusal::Conflict,
        Refusal::UnexpectedEvent,
        Refusal::OtherSource,
        Refusal::NotGrammar,
        Refusal::ImageNotHeld,
        Refusal::NotWritable,
    ];

    /// The paper's number, 1 to 18.
    pub const fn number(self) -> u8 {
        self as u8
    }

    /// The reason with this number; there is none for 0 and above 18.
    ///
    /// ```
    /// use ashlarsilk::Refusal;
    /// assert_eq!(Refusal::from_number(11), Some(Refusal::NotNewer));
    /// assert_eq!(Refusal::from_number(0), None);
    /// assert_eq!(Refusal::from_number(19), None);
    /// ```
    #[inline]
    pub const fn from_number(number: u8) -> Option<Refusal> {
        Some(match number {
            1 => Refusal::Truncated,
            2 => Refusal::WrongSize,
            3 => Refusal::WrongHeader,
            4 => Refusal::UnknownKind,
            5 => Refusal::TlvTruncated,
            6 => Refusal::TlvLength,
            7 => Refusal::TlvRepeated,
            8 => Refusal::TlvUnexpected,
            9 => Refusal::OutsideImage,
            10 => Refusal::NoRoom,
            11 => Refusal::NotNewer,
            12 => Refusal::TotalDiffers,
            13 => Refusal::Conflict,
            14 => Refusal::UnexpectedEvent,
            15 => Refusal::OtherSource,
            16 => Refusal::NotGrammar,
            17 => Refusal::ImageNotHeld,
            18 => Refusal::NotWritable,
            _ => return None,
        })
    }

    /// What happened, in words.
    pub const fn words(self) -> &'static str {
        match self {
            Refusal::Truncated => "the message ends before its header or its declared size",
            Refusal::WrongSize => "the message's declared size does not fit it",
            Refusal::WrongHeader => "the header has an unknown version or a wrong fixed value",
            Refusal::UnknownKind => "the kind of message, packet or event is not known here",
            Refusal::TlvTruncated => "an entry of the message runs past its end",
            Refusal::TlvLength => "an entry of the message has a wrong length for its type",
            Refusal::TlvRepeated => "an entry of the message comes a second time",
            Refusal::TlvUnexpected => {
                "an entry of the message is unknown, does not belong to its command, or is missing"
            }
            Refusal::OutsideImage => "the piece of the cursor picture lies outside the picture",
            Refusal::NoRoom => "there is not enough room for what is to be written or stored",
            Refusal::NotNewer => "the sender's sequence number is not newer",
            Refusal::TotalDiffers => {
                "the piece gives another size for the cursor picture than the pieces before it"
            }
            Refusal::Conflict => "the piece contradicts what is already known of the picture",
            Refusal::UnexpectedEvent => "this was not expected at this point of the session",
            Refusal::OtherSource => "the message comes from another sender",
            Refusal::NotGrammar => "the text is not a cursor limits value",
            Refusal::ImageNotHeld => {
                "the opened cursor picture is larger than the room lent for it"
            }
            Refusal::NotWritable => "the record does not describe a message that can be written",
        }
    }
}

impl fmt::Display for Refusal {
    fn fmt(&self, f: &mut fmt::Formatter<'_>) -> fmt::Result {
        write!(f, "{} (refusal {})", self.words(), self.number())
    }
}

/// A refusal with its place.
///
/// The place is counted in bytes from the first byte lent. For 5 to 8 it is the first byte of the
/// TLV at fault, or the number of bytes of the whole message where a TLV is missing. For every
/// other refusal it is 0.
///
/// ```
/// use ashlarsilk::{Message, Refusal, Refused};
///
/// // A Stop Projection without its Source ID.
/// let refused = Message::read(&[0, 9, 1, 2, 0, 0, 2, 0x41, 0]).unwrap_err();
/// assert_eq!(refused, Refused { refusal: Refusal::TlvUnexpected, place: 9 });
/// assert_eq!(
///     refused.to_string(),
///     "an entry of the message is unknown, does not belong to its command, or is missing \
///      (refusal 8, at byte 9)"
/// );
///
/// let refused = Message::read(&[0, 9, 1]).unwrap_err();
/// assert_eq!(
///     refused.to_string(),
///     "the message ends before its header or its declared size (refusal 1)"
/// );
/// ```
#[derive(Clone, Copy, Debug, PartialEq, Eq, Hash)]
pub struct Refused {
    /// The reason.
    pub refusal: Refusal,
    /// The place of the fault.
    pub place: usize,
}

impl Refused {
    /// Nothing for status 0, otherwise the refusal with this number.
    #[inline]
    pub(crate) fn check(status: u8, place: usize) -> Result<(), Refused> {
        // First, so that the compiled code has no other test where both are handed on as they are.
        if status > Refusal::NotWritable.number() {
            no_refusal(status);
        }
        match Refusal::from_number(status) {
            Some(refusal) => Err(Refused { refusal, place }),
            None if status == 0 => Ok(()),
            None => no_refusal(status),
        }
    }
}

/// Ends a call whose status is no refusal's number. The number comes by value, so that a status is
/// stored for the text here only.
#[cold]
fn no_refusal(number: u8) -> ! {
    panic!("libashlarsilk.a answered with the number {number}, which is none")
}

impl fmt::Display for Refused {
    fn fmt(&self, f: &mut fmt::Formatter<'_>) -> fmt::Result {
        let Refused { refusal, place } = self;
        match refusal {
            Refusal::TlvTruncated
            | Refusal::TlvLength
            | Refusal::TlvRepeated
            | Refusal::TlvUnexpected => {
                write!(f, "{} (refusal {}, at byte {place})", refusal.words(), refusal.number())
            }
            _ => refusal.fmt(f),
        }
    }
}

impl std::error::Error for Refused {}
