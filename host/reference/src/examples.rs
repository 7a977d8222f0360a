//! The examples of the source documents' section 4, and those for 02 §2, as bytes.
//!
//! The bytes of section 4 are those printed in the documents. Where a document leaves something out
//! (a size, a payload, an RTP header), the note says what stands in its place.

use crate::refusal::Refusal;

/// One example message.
#[derive(Clone, Copy, Debug, PartialEq, Eq)]
pub struct Example {
    /// The number of the source document.
    pub document: &'static str,
    /// The section of that document.
    pub section: &'static str,
    /// What the example shows.
    pub title: &'static str,
    /// What was added to or changed in the printed bytes; empty if nothing was.
    pub note: &'static str,
    /// The bytes.
    pub bytes: &'static [u8],
    /// What the message reader answers.
    pub number: Refusal,
    /// The place it answers with.
    pub place: usize,
}

/// The Source ID of all examples in 000 and 001.
pub const SOURCE_ID: [u8; 16] = [
    0x91, 0xF4, 0xAB, 0xE9, 0xEF, 0xF5, 0x46, 0x4A, 0xAE, 0xE2, 0x69, 0x72, 0x2A, 0xED, 0x11, 0xB5,
];

/// The Source Ready message of 000 section 4.2; 001 section 4.2 prints the same bytes.
#[rustfmt::skip]
pub const SOURCE_READY: [u8; 61] = [
    0x00, 0x3D, // Length (61 bytes)
    0x01, // Version
    0x01, // SOURCE_READY
    0x00, // Friendly Name TLV
    0x00, 0x1E, // Length (30 bytes)
    0x44, 0x00, 0x75, 0x00, 0x6D, 0x00, 0x6D, 0x00, 0x79, 0x00, 0x31, 0x00, 0x2D, 0x00, 0x4B, 0x00,
    0x61, 0x00, 0x62, 0x00, 0x79, 0x00, 0x6C, 0x00, 0x61, 0x00, 0x6B, 0x00, 0x65, 0x00,
    0x02, // RTSP Port TLV
    0x00, 0x02, // Length (2 bytes)
    0x1C, 0x44, // Port (7236)
    0x03, // Source ID TLV
    0x00, 0x10, // Length (16 bytes)
    0x91, 0xF4, 0xAB, 0xE9, 0xEF, 0xF5, 0x46, 0x4A, 0xAE, 0xE2, 0x69, 0x72, 0x2A, 0xED, 0x11, 0xB5,
];

/// The Stop Projection message of 000 section 4.3; 001 section 4.3 prints the same bytes.
#[rustfmt::skip]
pub const STOP_PROJECTION: [u8; 56] = [
    0x00, 0x38, // Size (56 bytes)
    0x01, // Version
    0x02, // STOP_PROJECTION
    0x00, // Friendly Name TLV
    0x00, 0x1E, // Length (30 bytes)
    0x44, 0x00, 0x75, 0x00, 0x6D, 0x00, 0x6D, 0x00, 0x79, 0x00, 0x31, 0x00, 0x2D, 0x00, 0x4B, 0x00,
    0x61, 0x00, 0x62, 0x00, 0x79, 0x00, 0x6C, 0x00, 0x61, 0x00, 0x6B, 0x00, 0x65, 0x00,
    0x03, // Source ID TLV
    0x00, 0x10, // Length (16 bytes)
    0x91, 0xF4, 0xAB, 0xE9, 0xEF, 0xF5, 0x46, 0x4A, 0xAE, 0xE2, 0x69, 0x72, 0x2A, 0xED, 0x11, 0xB5,
];

/// The Security Handshake message of 001 section 4.4, where both sizes and the payload are open.
#[rustfmt::skip]
pub const SECURITY_HANDSHAKE: [u8; 11] = [
    0x00, 0x0B, // Size = ?? bytes
    0x01, // Version = 0x1
    0x03, // Security Handshake
    0x04, // Security Token TLV
    0x00, 0x04, // Size = ?? bytes
    0x16, 0xFE, 0xFD, 0x00, // DTLS Handshake Payload
];

/// The Session Request message of 001 section 4.5 as printed: Size 003A over 60 bytes.
#[rustfmt::skip]
pub const SESSION_REQUEST_AS_PRINTED: [u8; 60] = [
    0x00, 0x3A, // Length (58 bytes)
    0x01, // Version = 0x1
    0x04, // SESSION_REQUEST
    0x05, // Security Options TLV
    0x00, 0x01, // Length (1 byte)
    0x03, // Both bits set
    0x00, // Friendly Name TLV
    0x00, 0x1E, // Length (30 bytes)
    0x44, 0x00, 0x75, 0x00, 0x6D, 0x00, 0x6D, 0x00, 0x79, 0x00, 0x31, 0x00, 0x2D, 0x00, 0x4B, 0x00,
    0x61, 0x00, 0x62, 0x00, 0x79, 0x00, 0x6C, 0x00, 0x61, 0x00, 0x6B, 0x00, 0x65, 0x00,
    0x03, // Source ID TLV
    0x00, 0x10, // Length (16 bytes)
    0x91, 0xF4, 0xAB, 0xE9, 0xEF, 0xF5, 0x46, 0x4A, 0xAE, 0xE2, 0x69, 0x72, 0x2A, 0xED, 0x11, 0xB5,
];

/// The Session Request message of 001 section 4.5 with the Size that its bytes have, 003C.
pub const SESSION_REQUEST: [u8; 60] = {
    let mut bytes = SESSION_REQUEST_AS_PRINTED;
    bytes[1] = 0x3C;
    bytes
};

/// The PIN Challenge message of 001 section 4.6.
#[rustfmt::skip]
pub const PIN_CHALLENGE: [u8; 58] = [
    0x00, 0x3A, // Length (58 bytes)
    0x01, // Version = 0x1
    0x05, // PIN_CHALLENGE
    0x06, // Hashed PIN TLV
    0x00, 0x20, // Length (32 bytes)
    0x60, 0x54, 0x09, 0xF8, 0x32, 0x30, 0x8A, 0xD0, 0xB8, 0x93, 0xA7, 0xF9, 0x1B, 0xE4, 0x2B, 0x26,
    0x4C, 0x73, 0x72, 0xB3, 0x6E, 0x90, 0x77, 0x50, 0x6E, 0x1B, 0x4C, 0xC1, 0x83, 0xDE, 0x79, 0xDA,
    0x03, // Source ID TLV
    0x00, 0x10, // Length (16 bytes)
    0x91, 0xF4, 0xAB, 0xE9, 0xEF, 0xF5, 0x46, 0x4A, 0xAE, 0xE2, 0x69, 0x72, 0x2A, 0xED, 0x11, 0xB5,
];

/// The PIN Response message of 001 section 4.7, which has no Source ID.
#[rustfmt::skip]
pub const PIN_RESPONSE: [u8; 43] = [
    0x00, 0x2B, // Length (43 bytes)
    0x01, // Version = 0x1
    0x06, // PIN_RESPONSE
    0x06, // Hashed PIN TLV
    0x00, 0x20, // Length (32 bytes)
    0x18, 0xD8, 0xD8, 0xAF, 0xDB, 0xD0, 0xD0, 0x2B, 0x0C, 0x0D, 0x5D, 0x27, 0xED, 0x05, 0x8F, 0x8D,
    0xF3, 0xAF, 0xD8, 0x60, 0xA4, 0x5E, 0xF1, 0x37, 0xED, 0x25, 0x79, 0x15, 0xA8, 0xBB, 0x2D, 0xF7,
    0x07, // PIN Response Reason TLV
    0x00, 0x01, // Length (1 byte)
    0x00, // Success
];

/// Every message of section 4 of 000 and 001, and the two whose printed bytes need a change.
pub const MESSAGES: &[Example] = &[
    Example {
        document: "000",
        section: "4.2",
        title: "Source Ready",
        note: "",
        bytes: &SOURCE_READY,
        number: Refusal::Accepted,
        place: 0,
    },
    Example {
        document: "000",
        section: "4.3",
        title: "Stop Projection",
        note: "",
        bytes: &STOP_PROJECTION,
        number: Refusal::Accepted,
        place: 0,
    },
    Example {
        document: "001",
        section: "4.2",
        title: "Source Ready",
        note: "",
        bytes: &SOURCE_READY,
        number: Refusal::Accepted,
        place: 0,
    },
    Example {
        document: "001",
        section: "4.3",
        title: "Stop Projection",
        note: "",
        bytes: &STOP_PROJECTION,
        number: Refusal::Accepted,
        place: 0,
    },
    Example {
        document: "001",
        section: "4.4",
        title: "Security Handshake",
        note:
            "The document leaves both sizes and the payload open; the payload here is four bytes.",
        bytes: &SECURITY_HANDSHAKE,
        number: Refusal::Accepted,
        place: 0,
    },
    Example {
        document: "001",
        section: "4.5",
        title: "Session Request",
        note: "",
        bytes: &SESSION_REQUEST_AS_PRINTED,
        number: Refusal::WrongSize,
        place: 0,
    },
    Example {
        document: "001",
        section: "4.5",
        title: "Session Request",
        note: "Size 003C, the number of its bytes, instead of the printed 003A.",
        bytes: &SESSION_REQUEST,
        number: Refusal::Accepted,
        place: 0,
    },
    Example {
        document: "001",
        section: "4.6",
        title: "PIN Challenge",
        note: "",
        bytes: &PIN_CHALLENGE,
        number: Refusal::Accepted,
        place: 0,
    },
    Example {
        document: "001",
        section: "4.7",
        title: "PIN Response",
        note: "",
        bytes: &PIN_RESPONSE,
        number: Refusal::TlvUnexpected,
        place: 43,
    },
];

/// The cursor limits value of 003 section 4 as printed; it does not match section 1.7's grammar.
pub const LIMITS_AS_PRINTED: &[u8] = b"full 0x0200 0x0200 50001";
/// The cursor limits value of 003 section 4 brought into section 1.7's grammar (50001 is C351 hex).
pub const LIMITS: &[u8] = b"full 0200 0200 C351";
/// The cursor limits value of 003 section 4 for a sink without cursor support.
pub const LIMITS_NOT_SUPPORTED: &[u8] = b"none";

/// The position packet of 003 section 4, with an RTP header of sequence number 0.
///
/// The document's text says (13, 10) beside a table with 12 and 10; these are the table's numbers.
#[rustfmt::skip]
pub const POSITION: [u8; 19] = [
    0x80, 0x00, 0x00, 0x00, 0x00, 0x00, 0x00, 0x00, 0x00, 0x00, 0x00, 0x00, // RTP
    0x01, // MsgType
    0x00, 0x07, // PacketMsgSize
    0x00, 0x0C, // Xpos 12
    0x00, 0x0A, // Ypos 10
];

/// P9 of paper 01 with timestamp and SSRC filled, which 02 §2 lets through.
#[rustfmt::skip]
pub const FIELDS_FILLED: [u8; 19] = [
    0x80, 0x00, 0x00, 0x05, 0x11, 0x22, 0x33, 0x44, 0xAA, 0xBB, 0xCC, 0xDD, // RTP
    0x01, // MsgType
    0x00, 0x07, // PacketMsgSize
    0xFF, 0xFE, // Xpos -2
    0x00, 0x0A, // Ypos 10
];

/// The packets for 02 §2, each with a name and with what the call for positions answers.
pub const UNUSED_FIELDS: [(&str, &[u8], Refusal); 4] = [
    ("fields-filled", &FIELDS_FILLED, Refusal::Accepted),
    ("first-byte-81", &filled_with(0, 0x81), Refusal::WrongHeader),
    ("first-14-bytes", FIELDS_FILLED.split_at(14).0, Refusal::TooFewBytes),
    ("second-byte-01", &filled_with(1, 0x01), Refusal::WrongHeader),
];

/// [`FIELDS_FILLED`] with another byte at this place.
const fn filled_with(place: usize, byte: u8) -> [u8; 19] {
    let mut packet = FIELDS_FILLED;
    packet[place] = byte;
    packet
}

/// TotalImageDataSize of the example image in 003 section 4.
pub const IMAGE_TOTAL: usize = 0x200;

/// An image for the packets of 003 section 4, which prints none.
pub const IMAGE: [u8; IMAGE_TOTAL] = {
    let mut image = [0; IMAGE_TOTAL];
    let mut place = 0;
    while place < IMAGE_TOTAL {
        image[place] = (place * 7 % 251) as u8;
        place += 1;
    }
    image
};

/// The start packet of 003 section 4, with an RTP header of sequence number 1 and the first 0x100
/// bytes of [`IMAGE`].
#[rustfmt::skip]
pub const START: [u8; 0x11E] = with_data([
    0x80, 0x00, 0x00, 0x01, 0x00, 0x00, 0x00, 0x00, 0x00, 0x00, 0x00, 0x00, // RTP
    0x02, // MsgType
    0x01, 0x12, // PacketMsgSize
    0x00, 0x00, 0x02, 0x00, // TotalImageDataSize
    0x12, 0x34, // CursorImageID
    0x00, 0x0C, // Xpos 12
    0x00, 0x0A, // Ypos 10
    0x03, // CursorImageType
    0x00, 0x12, // HotSpotXPos 18
    0x00, 0x0F, // HotSpotYPos 15
], 0);

/// The continuation packet of 003 section 4, with an RTP header of sequence number 2 and the next
/// 0x100 bytes of [`IMAGE`].
#[rustfmt::skip]
pub const CONTINUATION: [u8; 0x119] = with_data([
    0x80, 0x00, 0x00, 0x02, 0x00, 0x00, 0x00, 0x00, 0x00, 0x00, 0x00, 0x00, // RTP
    0x03, // MsgType
    0x01, 0x0D, // PacketMsgSize
    0x00, 0x00, 0x02, 0x00, // TotalImageDataSize
    0x12, 0x34, // CursorImageID
    0x00, 0x00, 0x01, 0x00, // PacketPayloadOffset
], 0x100);

/// A packet of these header bytes and then bytes of [`IMAGE`] from `from` on.
const fn with_data<const H: usize, const N: usize>(header: [u8; H], from: usize) -> [u8; N] {
    let mut packet = [0; N];
    let mut place = 0;
    while place < N {
        packet[place] = if place < H { header[place] } else { IMAGE[from + place - H] };
        place += 1;
    }
    packet
}
