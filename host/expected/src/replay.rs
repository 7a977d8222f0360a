//! The stream of calls that `replay` plays, made by a seeded generator, and what it must print.
//!
//! The stream has pictures under a few ids, their fragments in any order and repeated, sequence
//! numbers that wrap, conflicts, damaged and cut packets, positions and completeness questions.
//! Some packets have timestamp and SSRC filled, which changes no line (02 §2).

use std::fmt::Write;

use reference::cursor::{self, Picture, Pointer};

use crate::packets::{continuation, position, start, with_unused, Start};

const CALLS: usize = 8192;
/// A frame: the call, the packet's length, the packet and zeros.
const FRAME: usize = 40;
/// The places of the picture and of its marks.
const PLACES: usize = 40;

/// A linear congruential generator (Knuth's MMIX constants), its upper bits.
struct Generator(u64);

impl Generator {
    /// A number below `n`.
    fn below(&mut self, n: u32) -> u32 {
        self.0 =
            self.0.wrapping_mul(6_364_136_223_846_793_005).wrapping_add(1_442_695_040_888_963_407);
        ((self.0 >> 33) as u32) % n
    }

    /// True once in `n` times.
    fn once_in(&mut self, n: u32) -> bool {
        self.below(n) == 0
    }
}

/// The byte of a picture at a place.
fn byte(id: u16, place: u32) -> u8 {
    (place * 7 + u32::from(id) * 13 + 1) as u8
}

/// The total of a picture: some are empty, one is as large as there are places, one is too large.
fn total(id: u16) -> u32 {
    [0, 9, 40, 17, 41][usize::from(id) % 5]
}

struct Stream {
    random: Generator,
    sequence: u16,
    id: u16,
}

impl Stream {
    fn start(&mut self, sequence: u16, id: u16) -> Vec<u8> {
        let total = total(id);
        let len = self.random.below(total.min(7) + 1);
        let data: Vec<u8> = (0..len).map(|place| byte(id, place)).collect();
        let hot_x = if self.random.once_in(20) { 99 } else { id };
        start(sequence, total, id, Start(self.random.below(100) as i16 - 50, 7, 3, hot_x, 2), &data)
    }

    fn continuation(&mut self, sequence: u16, id: u16) -> Vec<u8> {
        let total = total(id);
        let offset = self.random.below(total + 1);
        let most = (total - offset).min(12);
        let len = self.random.below(most + 1);
        let mut data: Vec<u8> = (offset..offset + len).map(|place| byte(id, place)).collect();
        if self.random.once_in(12) {
            data.iter_mut().for_each(|byte| *byte ^= 0x20);
        }
        let total = if self.random.once_in(25) { total + 1 } else { total };
        let offset = if self.random.once_in(30) { -1 } else { offset as i32 };
        continuation(sequence, total, id, offset, &data)
    }

    /// A sequence number near the present one: mostly it or a later one, now and then an old one.
    fn number(&mut self) -> u16 {
        match self.random.below(8) {
            0 => self.sequence.wrapping_sub(self.random.below(40) as u16),
            1 => self.sequence.wrapping_add(32_760 + self.random.below(16) as u16),
            _ => {
                self.sequence = self.sequence.wrapping_add(self.random.below(900) as u16);
                self.sequence
            }
        }
    }

    /// Cut, lengthened, or with one byte changed.
    fn damaged(&mut self, mut packet: Vec<u8>) -> Vec<u8> {
        match self.random.below(3) {
            0 => packet.truncate(self.random.below(packet.len() as u32 + 1) as usize),
            1 => packet.push(0),
            _ => {
                let place = self.random.below(packet.len() as u32) as usize;
                packet[place] ^= 1 << self.random.below(8);
            }
        }
        packet
    }

    /// One call: 1 a position, 2 a start or a continuation, 3 the completeness question.
    fn call(&mut self) -> Call {
        if self.random.once_in(40) {
            self.id = self.random.below(10) as u16;
        }
        let id = if self.random.once_in(15) { self.id.wrapping_sub(1) } else { self.id };
        let sequence = self.number();
        let kind = [1, 2, 2, 2, 2, 2, 3][self.random.below(7) as usize];
        let packet = match (kind, self.random.below(4)) {
            (3, _) => return (3, Vec::new()),
            (1, _) => position(
                sequence,
                self.random.below(65_536) as i16,
                self.random.below(65_536) as i16,
            ),
            (_, 0) => self.start(sequence, id),
            _ => self.continuation(sequence, id),
        };
        let packet = if self.random.once_in(10) { self.damaged(packet) } else { packet };
        let kind = if self.random.once_in(50) { 3 - kind } else { kind };
        (kind, packet)
    }
}

/// A call with its packet.
type Call = (u8, Vec<u8>);

/// The calls, timestamp and SSRC 0 but where a packet is damaged there.
fn calls_unfilled() -> Vec<Call> {
    let mut stream = Stream { random: Generator(20_261_115), sequence: 64_000, id: 1 };
    (0..CALLS).map(|_| stream.call()).collect()
}

/// The calls, with timestamp and SSRC filled in one packet of three. The bytes have a generator of
/// their own, so that all else is the same.
fn calls() -> Vec<Call> {
    let mut random = Generator(2);
    let mut fill = |packet| match random.once_in(3) {
        true => with_unused(packet, &[0; 8].map(|_: u8| random.below(256) as u8)),
        false => packet,
    };
    calls_unfilled().into_iter().map(|(kind, packet)| (kind, fill(packet))).collect()
}

/// The file that `replay` reads.
pub fn stream() -> Vec<u8> {
    let mut bytes = Vec::new();
    for (kind, packet) in calls() {
        let mut frame = vec![kind, packet.len() as u8];
        frame.extend(packet);
        assert!(frame.len() <= FRAME);
        frame.resize(FRAME, 0);
        bytes.extend(frame);
    }
    bytes
}

fn sum(pointer: Pointer, record: Picture, image: &[u8], marks: &[u8]) -> u64 {
    let numbers = [
        pointer.known as u64,
        pointer.last.into(),
        (pointer.x as u16).into(),
        (pointer.y as u16).into(),
        record.open as u64,
        record.id.into(),
        record.total.into(),
        record.opening_sequence.into(),
        record.start_seen as u64,
        record.image_type.into(),
        record.hot_x.into(),
        record.hot_y.into(),
    ];
    let bytes = image.iter().chain(marks).map(|&byte| u64::from(byte));
    numbers.into_iter().chain(bytes).fold(0, |sum, n| (sum * 31 + n % 65_521) % 65_521)
}

pub fn lines() -> String {
    lines_of(&calls())
}

fn lines_of(calls: &[Call]) -> String {
    let mut text = String::new();
    let mut pointer = Pointer::fresh();
    let mut record = Picture::fresh();
    let mut image = [46; PLACES];
    let mut marks = [7; PLACES];
    for (k, (kind, packet)) in calls.iter().enumerate() {
        let answer = match kind {
            1 => cursor::position(pointer, packet).map(|moved| {
                pointer = moved;
                0
            }),
            2 => cursor::store(pointer, record, packet, &mut image, &mut marks).map(|records| {
                (pointer, record) = records;
                0
            }),
            _ => cursor::complete(record, &image, &marks).map(|yes| 100 + yes as u8),
        };
        write!(text, "{} ", answer.unwrap_or_else(|refused| refused.number as u8)).unwrap();
        if k % 16 == 15 {
            writeln!(text, "{} ", sum(pointer, record, &image, &marks)).unwrap();
        }
    }
    text
}

#[cfg(test)]
mod tests {
    use super::*;

    /// 02 §2: packets that differ only in timestamp and SSRC give the same answers and state.
    #[test]
    fn filled_packets_change_no_line() {
        assert_eq!(lines(), lines_of(&calls_unfilled()));
    }

    /// Each call takes many filled packets, some of them cut within timestamp and SSRC; and nothing
    /// else of them is filled.
    #[test]
    fn packets_are_filled_for_each_call() {
        for kind in [1, 2] {
            let (mut filled, mut cut) = (0, 0);
            for (call, before) in calls().into_iter().zip(calls_unfilled()) {
                if call.0 == kind && call != before {
                    filled += 1;
                    cut += u32::from(call.1.len() < 12);
                    let zeros = |packet| with_unused(packet, &[0; 8]);
                    assert_eq!(zeros(call.1), zeros(before.1));
                }
            }
            assert!(filled > 300 && cut > 0, "call {kind}: {filled} filled, {cut} cut");
        }
    }
}
