//! Position packets: every refusal, the order of checks and the order of sequence numbers.

mod common;

use common::{continuation, outcome, packet, position, start, START};
use reference::cursor::{self, Pointer};

fn refusal(pointer: Pointer, packet: &[u8]) -> u8 {
    let (number, place) = outcome(cursor::position(pointer, packet));
    assert_eq!(place, 0);
    number
}

fn fresh(packet: &[u8]) -> u8 {
    refusal(Pointer::fresh(), packet)
}

#[test]
fn a_position_is_set_with_its_sequence_number() {
    for (x, y) in [(0, 0), (-1, 1), (i16::MIN, i16::MAX), (12, 10)] {
        let moved = cursor::position(Pointer::fresh(), &position(9, x, y)).unwrap();
        assert_eq!(moved, Pointer { known: true, last: 9, x, y });
    }
}

#[test]
fn fewer_than_15_bytes_is_1() {
    let whole = position(1, 2, 3);
    for length in 0..19 {
        assert_eq!(fresh(&whole[..length]), 1);
    }
    assert_eq!(fresh(&[0xFF; 14]), 1, "1 comes before 3");
}

#[test]
fn every_type_but_1_is_4() {
    for kind in 0..=255 {
        let mut bytes = position(1, 2, 3);
        bytes[12] = kind;
        assert_eq!(fresh(&bytes), if kind == 1 { 0 } else { 4 });
    }
    assert_eq!(fresh(&start(1, 1, 0, START, &[])), 4);
    assert_eq!(fresh(&continuation(1, 1, 0, 0, &[])), 4);
    assert_eq!(fresh(&packet(1, 2, &[])), 4, "4 comes before 2");
}

#[test]
fn every_size_but_7_is_2() {
    for size in 0..=u16::MAX {
        let mut bytes = position(1, 2, 3);
        bytes[13..15].copy_from_slice(&size.to_be_bytes());
        assert_eq!(fresh(&bytes), if size == 7 { 0 } else { 2 });
        // 2 for the size comes before 1 for the missing bytes.
        assert_eq!(fresh(&bytes[..15]), if size == 7 { 1 } else { 2 });
    }
    for length in 0..20 {
        let answer = fresh(&packet(1, 1, &vec![0; length]));
        assert_eq!(answer, if length == 4 { 0 } else { 2 });
    }
}

#[test]
fn bytes_left_over_are_2() {
    let mut bytes = position(1, 2, 3);
    bytes.push(0);
    assert_eq!(fresh(&bytes), 2);
    bytes.extend([0; 70_000]);
    assert_eq!(fresh(&bytes), 2);
}

#[test]
fn not_newer_is_11() {
    for (last, new, number) in [
        (5, 5, 11),
        (5, 4, 11),
        (5, 6, 0),
        (65_535, 0, 0),
        (0, 65_535, 11),
        (0, 32_767, 0),
        (0, 32_768, 11),
        (40_000, 7_231, 0),
        (40_000, 7_232, 11),
    ] {
        let pointer = Pointer { known: true, last, x: 1, y: 2 };
        assert_eq!(refusal(pointer, &position(new, 3, 4)), number, "{last} {new}");
    }
}

#[test]
fn without_a_last_everything_is_newer() {
    for last in [0, 5, 65_535] {
        for new in [0, 5, 32_768, 65_535] {
            let pointer = Pointer { known: false, last, x: 1, y: 2 };
            let moved = cursor::position(pointer, &position(new, 3, 4)).unwrap();
            assert_eq!(moved, Pointer { known: true, last: new, x: 3, y: 4 });
        }
    }
}

#[test]
fn faults_of_the_packet_come_before_11() {
    let pointer = Pointer { known: true, last: 5, x: 0, y: 0 };
    let old = position(5, 0, 0);
    assert_eq!(refusal(pointer, &old), 11);
    assert_eq!(refusal(pointer, &old[..18]), 1);
    assert_eq!(refusal(pointer, &[&old[..], &[0]].concat()), 2);
}
