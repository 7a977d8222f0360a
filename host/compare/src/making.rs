//! Builders of messages and packets, from the layouts of 001 section 2.2 and 003 section 2.2.

use std::ops::Range;

use crate::random::Random;

/// Where timestamp and SSRC stand in a packet. No call looks at them (02 §2).
const UNUSED: Range<usize> = 4..12;

/// A TLV: Type, Length, Value.
pub fn tlv(kind: u8, value: &[u8]) -> Vec<u8> {
    let mut bytes = vec![kind];
    bytes.extend((value.len() as u16).to_be_bytes());
    bytes.extend(value);
    bytes
}

/// A message: Size, Version 1, Command, TLVs.
pub fn message(command: u8, tlvs: &[Vec<u8>]) -> Vec<u8> {
    let mut bytes = vec![0, 0, 1, command];
    bytes.extend(tlvs.concat());
    set_size(&mut bytes);
    bytes
}

/// Gives a message the Size that it has.
pub fn set_size(message: &mut [u8]) {
    let size = (message.len() as u16).to_be_bytes();
    if let Some(field) = message.first_chunk_mut() {
        *field = size;
    }
}

/// Timestamp and SSRC: mostly any bytes, at times zeros or one bit alone.
fn unused(random: &mut Random) -> [u8; UNUSED.end - UNUSED.start] {
    match random.below(8) {
        0 => [0; 8],
        1 => (1u64 << random.below(64)).to_be_bytes(),
        _ => random.array(),
    }
}

/// The packet with another timestamp and SSRC, as far as it has them; now and then one bit of them
/// is another. A packet that ends before them has no such other.
pub fn with_other_unused(random: &mut Random, packet: &[u8]) -> Option<Vec<u8>> {
    let places = UNUSED.start..packet.len().min(UNUSED.end);
    if places.is_empty() {
        return None;
    }
    let mut other = packet.to_vec();
    other[places.clone()].copy_from_slice(&unused(random)[..places.len()]);
    if other == packet || random.once_in(4) {
        other.copy_from_slice(packet);
        other[places.start + random.below(places.len())] ^= 1 << random.below(8);
    }
    Some(other)
}

/// A packet: the RTP header with any timestamp and SSRC, MsgType, PacketMsgSize, then the body.
pub fn packet(random: &mut Random, sequence: u16, kind: u8, body: &[u8]) -> Vec<u8> {
    let mut bytes = vec![0x80, 0];
    bytes.extend(sequence.to_be_bytes());
    bytes.extend(unused(random));
    bytes.push(kind);
    bytes.extend((body.len() as u16 + 3).to_be_bytes());
    bytes.extend(body);
    bytes
}

pub fn position(random: &mut Random, sequence: u16, x: i16, y: i16) -> Vec<u8> {
    packet(random, sequence, 1, &[x.to_be_bytes(), y.to_be_bytes()].concat())
}

/// What a start or a continuation says, but for its data.
#[derive(Clone, Copy)]
pub struct Fragment {
    pub sequence: u16,
    pub id: u16,
    pub total: u32,
    pub kind: Kind,
}

#[derive(Clone, Copy)]
pub enum Kind {
    Start { x: i16, y: i16, image_type: u8, hot_x: u16, hot_y: u16 },
    Continuation { offset: i32 },
}

pub fn fragment(random: &mut Random, fragment: Fragment, data: &[u8]) -> Vec<u8> {
    let mut body = Vec::with_capacity(15 + data.len());
    body.extend(fragment.total.to_be_bytes());
    body.extend(fragment.id.to_be_bytes());
    let kind = match fragment.kind {
        Kind::Start { x, y, image_type, hot_x, hot_y } => {
            body.extend(x.to_be_bytes());
            body.extend(y.to_be_bytes());
            body.push(image_type);
            body.extend(hot_x.to_be_bytes());
            body.extend(hot_y.to_be_bytes());
            2
        }
        Kind::Continuation { offset } => {
            body.extend(offset.to_be_bytes());
            3
        }
    };
    body.extend(data);
    packet(random, fragment.sequence, kind, &body)
}
