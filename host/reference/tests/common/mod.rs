//! What several tests share: builders of messages and packets, and a small random generator.
#![allow(dead_code)]

pub mod sink;

use reference::{Refusal, Refused};

/// Message A of paper 01, "Proved table of small examples".
pub const A: [u8; 33] = [
    0x00, 0x21, 0x01, 0x01, 0x00, 0x00, 0x02, 0x41, 0x00, 0x02, 0x00, 0x02, 0x1C, 0x44, 0x03, 0x00,
    0x10, 7, 7, 7, 7, 7, 7, 7, 7, 7, 7, 7, 7, 7, 7, 7, 7,
];

/// One TLV.
pub fn tlv(kind: u8, value: &[u8]) -> Vec<u8> {
    let length = u16::try_from(value.len()).unwrap().to_be_bytes();
    [&[kind], &length[..], value].concat()
}

/// A message with this command and these TLVs, its Size as it must be.
pub fn message(command: u8, tlvs: &[Vec<u8>]) -> Vec<u8> {
    let body = tlvs.concat();
    let size = u16::try_from(body.len() + 4).unwrap().to_be_bytes();
    [&size[..], &[1, command], &body].concat()
}

pub fn name() -> Vec<u8> {
    tlv(0, b"A\0")
}

pub fn port() -> Vec<u8> {
    tlv(2, &[0x1C, 0x44])
}

pub fn id(byte: u8) -> Vec<u8> {
    tlv(3, &[byte; 16])
}

/// One accepted message for each command 1 to 6, TLVs by rising type.
pub fn accepted_messages() -> Vec<Vec<u8>> {
    vec![
        message(1, &[name(), port(), id(7)]),
        message(2, &[name(), id(7)]),
        message(3, &[id(7), tlv(4, b"token")]),
        message(4, &[name(), id(7), tlv(5, &[3])]),
        message(5, &[id(7), tlv(6, &[9; 32])]),
        message(6, &[id(7), tlv(6, &[9; 32]), tlv(7, &[0])]),
    ]
}

/// The RTP header with this sequence number, timestamp and SSRC 0.
pub fn rtp(sequence: u16) -> Vec<u8> {
    let mut header = vec![0; 12];
    header[0] = 0x80;
    header[2..4].copy_from_slice(&sequence.to_be_bytes());
    header
}

/// The packet with these bytes for timestamp and SSRC, as far as it has them.
pub fn with_unused(packet: &[u8], unused: [u8; 8]) -> Vec<u8> {
    let mut packet = packet.to_vec();
    for (byte, unused) in packet.iter_mut().skip(4).zip(unused) {
        *byte = unused;
    }
    packet
}

/// Timestamps and SSRCs: those of the examples, all bits, and each bit alone.
pub fn unused_fields() -> impl Iterator<Item = [u8; 8]> {
    let filled = [0x11, 0x22, 0x33, 0x44, 0xAA, 0xBB, 0xCC, 0xDD];
    [filled, [0xFF; 8]].into_iter().chain((0..64).map(|bit| (1u64 << bit).to_be_bytes()))
}

/// A packet of this type and these bytes after PacketMsgSize.
pub fn packet(sequence: u16, kind: u8, body: &[u8]) -> Vec<u8> {
    let size = u16::try_from(body.len() + 3).unwrap().to_be_bytes();
    [&rtp(sequence)[..], &[kind], &size, body].concat()
}

pub fn position(sequence: u16, x: i16, y: i16) -> Vec<u8> {
    packet(sequence, 1, &[x.to_be_bytes(), y.to_be_bytes()].concat())
}

/// A start's fields but for id, total and data.
#[derive(Clone, Copy, Debug, PartialEq, Eq)]
pub struct Start {
    pub x: i16,
    pub y: i16,
    pub image_type: u8,
    pub hot_x: u16,
    pub hot_y: u16,
}

pub const START: Start = Start { x: 12, y: -10, image_type: 3, hot_x: 18, hot_y: 15 };

pub fn start(sequence: u16, id: u16, total: u32, fields: Start, data: &[u8]) -> Vec<u8> {
    let mut body = Vec::new();
    body.extend(total.to_be_bytes());
    body.extend(id.to_be_bytes());
    body.extend(fields.x.to_be_bytes());
    body.extend(fields.y.to_be_bytes());
    body.push(fields.image_type);
    body.extend(fields.hot_x.to_be_bytes());
    body.extend(fields.hot_y.to_be_bytes());
    body.extend(data);
    packet(sequence, 2, &body)
}

pub fn continuation(sequence: u16, id: u16, total: u32, offset: i32, data: &[u8]) -> Vec<u8> {
    let mut body = Vec::new();
    body.extend(total.to_be_bytes());
    body.extend(id.to_be_bytes());
    body.extend(offset.to_be_bytes());
    body.extend(data);
    packet(sequence, 3, &body)
}

/// The refusal number and place of an answer, (0, 0) if it is accepted.
pub fn outcome<T>(answer: Result<T, Refused>) -> (u8, usize) {
    match answer {
        Ok(_) => (0, 0),
        Err(Refused { number, place }) => {
            assert_ne!(number, Refusal::Accepted);
            (number.number(), place)
        }
    }
}

/// A small random generator (xorshift), the same numbers in every run.
pub struct Random(u64);

impl Random {
    pub fn new(seed: u64) -> Self {
        Random(seed.wrapping_mul(0x9E37_79B9_7F4A_7C15) | 1)
    }

    pub fn next(&mut self) -> u64 {
        self.0 ^= self.0 << 13;
        self.0 ^= self.0 >> 7;
        self.0 ^= self.0 << 17;
        self.0.wrapping_mul(0x2545_F491_4F6C_DD1D) >> 16
    }

    /// A number below `end`.
    pub fn below(&mut self, end: usize) -> usize {
        (self.next() % end as u64) as usize
    }

    pub fn byte(&mut self) -> u8 {
        self.next() as u8
    }

    pub fn flag(&mut self) -> bool {
        self.next() & 1 == 1
    }

    /// One of these.
    pub fn pick<T: Copy>(&mut self, choices: &[T]) -> T {
        choices[self.below(choices.len())]
    }

    pub fn bytes(&mut self, length: usize) -> Vec<u8> {
        (0..length).map(|_| self.byte()).collect()
    }

    pub fn shuffle<T>(&mut self, list: &mut [T]) {
        for end in (1..list.len()).rev() {
            list.swap(end, self.below(end + 1));
        }
    }
}
