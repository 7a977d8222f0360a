//! Positions: the order of sequence numbers, and damaged packets.

use super::checking::{any_packet, check_position, TURNS};
use crate::layout::POINTER;
use crate::making::position;
use crate::random::Random;
use crate::tally::Tally;

/// Every sequence number after several last ones, known and not.
pub fn distances_of_positions(tally: &mut Tally, random: &mut Random) {
    for last in TURNS.into_iter().chain([random.number() as u16]) {
        for sequence in 0..=u16::MAX {
            let (x, y) = (random.number() as i16, random.number() as i16);
            let bytes = position(random, sequence, x, y);
            let mut pointer: [u8; POINTER] = random.array();
            pointer[0] = random.pick(&[0, 1, 1, 1, 2, 255]);
            pointer[1..3].copy_from_slice(&last.to_le_bytes());
            check_position(tally, random, &mut pointer, &bytes);
        }
    }
}

/// A position packet with any pointer.
fn check(tally: &mut Tally, random: &mut Random, packet: &[u8]) {
    let mut pointer: [u8; POINTER] = random.array();
    pointer[0] = random.pick(&[0, 1, 7]);
    check_position(tally, random, &mut pointer, packet);
}

/// Position packets truncated at every length, longer, with each byte damaged in every way, and of
/// every size.
pub fn damaged_positions(tally: &mut Tally, random: &mut Random) {
    for x in [i16::MIN, -1, 0, 1, i16::MAX] {
        let mut bytes = position(random, 5, x, -x.max(-32_767));
        for length in 0..=bytes.len() {
            check(tally, random, &bytes[..length]);
        }
        for place in 0..bytes.len() {
            let kept = bytes[place];
            for byte in 0..=255 {
                bytes[place] = byte;
                check(tally, random, &bytes);
            }
            bytes[place] = kept;
        }
        for _ in 0..3 {
            bytes.push(random.byte());
            check(tally, random, &bytes);
        }
    }
    for size in 0..=u16::MAX {
        let sequence = random.number() as u16;
        let mut bytes = position(random, sequence, 1, 2);
        bytes[13..15].copy_from_slice(&size.to_be_bytes());
        check(tally, random, &bytes);
    }
}

/// So many packets of any kind, with several faults.
pub fn any_packets(tally: &mut Tally, random: &mut Random, times: usize) {
    for _ in 0..times {
        let bytes = any_packet(random);
        check(tally, random, &bytes);
    }
}
