//! Cursor packets with one fault each. The receiver has to refuse them and to change nothing.

use std::fmt;
use std::ops::Range;

use ashlarsilk::cursor::LARGEST_PICTURE;

use crate::packets::{self, Picture, RTP};

/// The faults.
#[derive(Clone, Copy, Debug, PartialEq, Eq)]
pub enum Damage {
    /// The last byte is not there.
    LastByteMissing,
    /// The packet ends within the first fields.
    Only14Bytes,
    /// A byte follows that PacketMsgSize doesn't count.
    ByteTooMany,
    /// PacketMsgSize is one below the header of a continuation.
    SizeBelowHeader,
    /// PacketMsgSize of a position is not 7.
    PositionOfSize8,
    /// The first byte of the RTP header is not 80 hex.
    FirstByte81,
    /// The second byte of the RTP header is not 0.
    SecondByte1,
    /// MsgType is none of the three.
    Type4,
    /// The offset is negative.
    OffsetMinus1,
    /// Offset plus data is one beyond the total.
    BeyondTotal,
    /// The total is one above the largest.
    TotalTooLarge,
    /// The total is not that of the opened picture.
    OtherTotal,
    /// A place that is filled already would get another byte.
    OtherByte,
    /// A second start has another hot spot.
    OtherHotSpot,
}

impl Damage {
    /// Every fault.
    pub const ALL: [Damage; 14] = [
        Damage::LastByteMissing,
        Damage::Only14Bytes,
        Damage::ByteTooMany,
        Damage::SizeBelowHeader,
        Damage::PositionOfSize8,
        Damage::FirstByte81,
        Damage::SecondByte1,
        Damage::Type4,
        Damage::OffsetMinus1,
        Damage::BeyondTotal,
        Damage::TotalTooLarge,
        Damage::OtherTotal,
        Damage::OtherByte,
        Damage::OtherHotSpot,
    ];

    /// A packet with this fault, of a picture whose start was sent, as were its bytes `sent`: at
    /// least one.
    pub fn packet(self, sequence: u16, picture: &Picture, sent: Range<usize>) -> Vec<u8> {
        let (total, id, data) = (picture.total(), picture.id, &picture.bytes[sent.clone()]);
        let offset = sent.start as i32;
        let mut packet = packets::continuation(sequence, total, id, offset, data);
        match self {
            Damage::LastByteMissing => packet.truncate(packet.len() - 1),
            Damage::Only14Bytes => packet.truncate(14),
            Damage::ByteTooMany => packet.push(0),
            Damage::SizeBelowHeader => packet[RTP + 1..RTP + 3].copy_from_slice(&[0, 12]),
            Damage::PositionOfSize8 => {
                packet = packets::position(sequence, (0, 0));
                packet[RTP + 2] = 8;
                packet.push(0);
            }
            Damage::FirstByte81 => packet[0] = 0x81,
            Damage::SecondByte1 => packet[1] = 1,
            Damage::Type4 => packet[RTP] = 4,
            Damage::OffsetMinus1 => {
                packet = packets::continuation(sequence, total, id, -1, data);
            }
            Damage::BeyondTotal => {
                let offset = total as i32 - data.len() as i32 + 1;
                packet = packets::continuation(sequence, total, id, offset, data);
            }
            Damage::TotalTooLarge => {
                let total = LARGEST_PICTURE as u32 + 1;
                packet = packets::continuation(sequence, total, id, offset, data);
            }
            Damage::OtherTotal => {
                packet = packets::continuation(sequence, total - 1, id, 0, &picture.bytes[..1]);
            }
            Damage::OtherByte => *packet.last_mut().expect("there is data") ^= 1,
            Damage::OtherHotSpot => {
                let (x, y) = picture.hot_spot;
                let bytes = picture.bytes.clone();
                let other = Picture { hot_spot: (x, y ^ 1), bytes, ..*picture };
                packet = packets::start(sequence, &other, (0, 0), &picture.bytes[..1]);
            }
        }
        packet
    }
}

impl fmt::Display for Damage {
    fn fmt(&self, f: &mut fmt::Formatter<'_>) -> fmt::Result {
        f.pad(match self {
            Damage::LastByteMissing => "the last byte is missing",
            Damage::Only14Bytes => "only 14 bytes",
            Damage::ByteTooMany => "one byte too many",
            Damage::SizeBelowHeader => "a continuation of size 12",
            Damage::PositionOfSize8 => "a position of size 8",
            Damage::FirstByte81 => "the first byte is 81 hex",
            Damage::SecondByte1 => "the second byte is 1",
            Damage::Type4 => "the type is 4",
            Damage::OffsetMinus1 => "the offset is -1",
            Damage::BeyondTotal => "the data go beyond the total",
            Damage::TotalTooLarge => "the total is 262145",
            Damage::OtherTotal => "the total is another",
            Damage::OtherByte => "another byte for a filled place",
            Damage::OtherHotSpot => "a second start with another hot spot",
        })
    }
}
