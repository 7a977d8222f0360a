//! The refusal numbers of paper 01, "Refusal numbers".

use std::fmt;

/// A refusal number, 0 (accepted) to 18. The discriminant is the paper's number.
#[derive(Clone, Copy, Debug, PartialEq, Eq, PartialOrd, Ord, Hash)]
#[repr(u8)]
pub enum Refusal {
    /// 0: accepted.
    Accepted = 0,
    /// 1: the bytes end before the fixed header or the declared size.
    TooFewBytes = 1,
    /// 2: declared size below the header, not 7 for a position, or bytes left over after it.
    WrongSize = 2,
    /// 3: Version not 1, or a packet whose first byte is not 80 hex or whose second is not 0.
    WrongHeader = 3,
    /// 4: unknown command, message type or session event, or a packet type not taken by the call.
    UnknownKind = 4,
    /// 5: fewer than 3 bytes left for a TLV, or its value runs past the message.
    TlvTruncated = 5,
    /// 6: TLV length wrong for its type.
    TlvLength = 6,
    /// 7: a TLV for the second time.
    TlvRepeated = 7,
    /// 8: unknown TLV, one foreign to the command, or one missing.
    TlvUnexpected = 8,
    /// 9: negative offset, or offset plus data beyond the total.
    OutsideTotal = 9,
    /// 10: output shorter than needed, or total above 262,144 or above the lent picture or marks.
    /// Also a message's Source ID that is lent with 1 to 15 bytes.
    NoRoom = 10,
    /// 11: sequence number not newer.
    NotNewer = 11,
    /// 12: total differs from the opened picture's.
    OtherTotal = 12,
    /// 13: a filled place would get another byte, or a second start differs in its own fields.
    Conflict = 13,
    /// 14: unexpected in this session state.
    Unexpected = 14,
    /// 15: message from another source.
    OtherSource = 15,
    /// 16: text not of the grammar.
    NotOfGrammar = 16,
    /// 17: opened picture's total above 262,144 or above the lent picture or marks.
    OpenedTooLarge = 17,
    /// 18: a record that cannot be written.
    Unwritable = 18,
}

impl Refusal {
    /// Every refusal number in rising order, so that `ALL[n]` has the number `n`.
    pub const ALL: [Refusal; 19] = [
        Refusal::Accepted,
        Refusal::TooFewBytes,
        Refusal::WrongSize,
        Refusal::WrongHeader,
        Refusal::UnknownKind,
        Refusal::TlvTruncated,
        Refusal::TlvLength,
        Refusal::TlvRepeated,
        Refusal::TlvUnexpected,
        Refusal::OutsideTotal,
        Refusal::NoRoom,
        Refusal::NotNewer,
        Refusal::OtherTotal,
        Refusal::Conflict,
        Refusal::Unexpected,
        Refusal::OtherSource,
        Refusal::NotOfGrammar,
        Refusal::OpenedTooLarge,
        Refusal::Unwritable,
    ];

    /// The number of paper 01's table.
    pub const fn number(self) -> u8 {
        self as u8
    }

    /// The refusal with this number, if there is one.
    pub fn from_number(number: u8) -> Option<Refusal> {
        Self::ALL.get(usize::from(number)).copied()
    }

    /// What the number says, in one short sentence.
    pub const fn sentence(self) -> &'static str {
        match self {
            Refusal::Accepted => "Accepted.",
            Refusal::TooFewBytes => "The bytes end before the fixed header or the declared size.",
            Refusal::WrongSize => "The declared size does not fit the header or the bytes.",
            Refusal::WrongHeader => "The version or an RTP header field has a wrong value.",
            Refusal::UnknownKind => {
                "The command, message type or event is unknown or not taken here."
            }
            Refusal::TlvTruncated => "A TLV runs past the end of the message.",
            Refusal::TlvLength => "A TLV's length is wrong for its type.",
            Refusal::TlvRepeated => "A TLV comes for the second time.",
            Refusal::TlvUnexpected => "A TLV is unknown, foreign to the command, or missing.",
            Refusal::OutsideTotal => "The fragment lies outside the image's total size.",
            Refusal::NoRoom => "There is no room for what is to be written or stored.",
            Refusal::NotNewer => "The sequence number is not newer.",
            Refusal::OtherTotal => "The total differs from that of the opened picture.",
            Refusal::Conflict => "The fragment contradicts what is already stored.",
            Refusal::Unexpected => "The event is unexpected in this session state.",
            Refusal::OtherSource => "The message comes from another source.",
            Refusal::NotOfGrammar => "The text does not match the grammar.",
            Refusal::OpenedTooLarge => "The opened picture's total is too large for what is lent.",
            Refusal::Unwritable => "The record cannot be written as a message.",
        }
    }
}

/// A refusal with its place.
///
/// Paper 01, "Connection message": the place is the first byte of the TLV at fault for refusals 5
/// to 8, the number of bytes of the whole message for a missing TLV, and otherwise 0.
#[derive(Clone, Copy, Debug, PartialEq, Eq, Hash)]
pub struct Refused {
    /// The refusal number, never [`Refusal::Accepted`] in an answer of this crate.
    pub number: Refusal,
    /// The place of the fault, in bytes from the first byte read.
    pub place: usize,
}

impl From<Refusal> for Refused {
    /// The refusal at place 0, as all but the TLV refusals are.
    fn from(number: Refusal) -> Self {
        Refused { number, place: 0 }
    }
}

impl fmt::Display for Refused {
    fn fmt(&self, f: &mut fmt::Formatter<'_>) -> fmt::Result {
        let Refused { number, place } = self;
        write!(f, "refused {} at place {place}: {}", number.number(), number.sentence())
    }
}

impl std::error::Error for Refused {}
