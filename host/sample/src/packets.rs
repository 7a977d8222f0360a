//! Writes cursor packets: an RTP header, then the message of MS-WDHCE, section 2.2. A sender's half
//! of the cursor stream is not part of the library, so the sample has its own.
//!
//! Timestamp and SSRC are filled freely, as two laptop models do, and a receiver ignores them
//! (02 §2).

use crate::random::Random;

/// The number of bytes of the RTP header.
pub const RTP: usize = 12;

/// A cursor picture to be sent.
pub struct Picture {
    /// CursorImageId.
    pub id: u16,
    /// CursorImageType.
    pub image_type: u8,
    /// HotSpotXPos and HotSpotYPos.
    pub hot_spot: (u16, u16),
    /// All of its bytes.
    pub bytes: Vec<u8>,
}

impl Picture {
    /// TotalImageDataSize.
    pub fn total(&self) -> u32 {
        u32::try_from(self.bytes.len()).expect("a picture's length has four bytes")
    }
}

/// Timestamp and SSRC, which go by the sequence number.
fn unused(sequence: u16) -> [u8; 8] {
    let mut random = Random::with_seed(sequence.into());
    std::array::from_fn(|_| random.below(256) as u8)
}

/// A packet of this MsgType, its PacketMsgSize as it must be.
fn packet(sequence: u16, kind: u8, parts: &[&[u8]]) -> Vec<u8> {
    let mut packet = vec![0x80, 0];
    packet.extend(sequence.to_be_bytes());
    packet.extend(unused(sequence));
    packet.push(kind);
    let size = 3 + parts.iter().map(|part| part.len()).sum::<usize>();
    packet.extend(u16::try_from(size).expect("a packet's size has two bytes").to_be_bytes());
    parts.iter().for_each(|part| packet.extend_from_slice(part));
    packet
}

/// A position (type 1).
pub fn position(sequence: u16, (x, y): (i16, i16)) -> Vec<u8> {
    packet(sequence, 1, &[&x.to_be_bytes(), &y.to_be_bytes()])
}

/// A start (type 2) with the pointer's position and the picture's first bytes.
pub fn start(sequence: u16, picture: &Picture, (x, y): (i16, i16), data: &[u8]) -> Vec<u8> {
    let parts: [&[u8]; 8] = [
        &picture.total().to_be_bytes(),
        &picture.id.to_be_bytes(),
        &x.to_be_bytes(),
        &y.to_be_bytes(),
        &[picture.image_type],
        &picture.hot_spot.0.to_be_bytes(),
        &picture.hot_spot.1.to_be_bytes(),
        data,
    ];
    packet(sequence, 2, &parts)
}

/// A continuation (type 3) of the picture with this id and total.
pub fn continuation(sequence: u16, total: u32, id: u16, offset: i32, data: &[u8]) -> Vec<u8> {
    let parts: [&[u8]; 4] = [&total.to_be_bytes(), &id.to_be_bytes(), &offset.to_be_bytes(), data];
    packet(sequence, 3, &parts)
}

/// The sequence number of a packet, if it is long enough to have one.
pub fn sequence(packet: &[u8]) -> Option<u16> {
    let &[_, _, s1, s0, ..] = packet else { return None };
    Some(u16::from_be_bytes([s1, s0]))
}

/// MsgType of a packet, if it is long enough to have one.
pub fn kind(packet: &[u8]) -> Option<u8> {
    packet.get(RTP).copied()
}

#[cfg(test)]
mod tests {
    use super::*;

    /// Paper 01, P9, but for timestamp and SSRC.
    #[test]
    fn the_position_of_the_paper() {
        let packet = position(5, (-2, 10));
        assert_eq!(packet[..4], [0x80, 0, 0, 5]);
        assert_eq!(packet[12..], [1, 0, 7, 0xFF, 0xFE, 0, 10]);
        assert_eq!((sequence(&packet), kind(&packet)), (Some(5), Some(1)));
    }

    /// 02 §2: neither is 0 in any packet, and both differ from packet to packet.
    #[test]
    fn timestamp_and_ssrc_are_filled() {
        let mut last = [0; 8];
        for sequence in 0..=u16::MAX {
            let packet = position(sequence, (0, 0));
            let (timestamp, ssrc) = (&packet[4..8], &packet[8..12]);
            assert!(timestamp != [0; 4] && ssrc != [0; 4], "{sequence}");
            assert!(*timestamp != last[..4] && *ssrc != last[4..], "{sequence}");
            last.copy_from_slice(&packet[4..12]);
        }
    }

    /// Header 18 for a start, 13 for a continuation.
    #[test]
    fn fragments_of_a_picture() {
        let bytes = b"abcd".to_vec();
        let picture = Picture { id: 9, image_type: 3, hot_spot: (5, 6), bytes };
        let start = start(0x0102, &picture, (-2, 10), b"ab");
        assert_eq!(start[..4], [0x80, 0, 1, 2]);
        assert_eq!(start[12..15], [2, 0, 20]);
        assert_eq!(start[15..30], [0, 0, 0, 4, 0, 9, 0xFF, 0xFE, 0, 10, 3, 0, 5, 0, 6]);
        assert_eq!(start[30..], *b"ab");
        let continuation = continuation(0x0103, 4, 9, 2, b"cd");
        assert_eq!(continuation[12..25], [3, 0, 15, 0, 0, 0, 4, 0, 9, 0, 0, 0, 2]);
        assert_eq!(continuation[25..], *b"cd");
    }
}
