//! The RTP header of cursor packets, in both calls that take packets (02 §2): the first two bytes
//! are judged, the next two are the sequence number, timestamp and SSRC are ignored.

mod common;

use common::sink::{opened, Sink};
use common::{continuation, position, start, unused_fields, with_unused, START};
use reference::cursor::Pointer;

/// A call that takes a packet, and answers with its number.
type Call = fn(&mut Sink, &[u8]) -> u8;

/// The packet with this byte at this place.
fn with(packet: &[u8], place: usize, byte: u8) -> Vec<u8> {
    let mut packet = packet.to_vec();
    packet[place] = byte;
    packet
}

/// "The first two are judged as before".
#[test]
fn every_other_pair_of_first_bytes_is_3() {
    let packets: [(Call, Vec<u8>); 3] = [
        (Sink::position, position(1, 2, 3)),
        (Sink::store, start(1, 1, 8, START, b"AB")),
        (Sink::store, continuation(1, 1, 8, 0, b"AB")),
    ];
    for (call, mut packet) in packets {
        let take = |packet: &[u8]| call(&mut Sink::fresh(10), packet);
        for pair in 0..=u16::MAX {
            packet[..2].copy_from_slice(&pair.to_be_bytes());
            let right = pair == 0x8000;
            assert_eq!(take(&packet), if right { 0 } else { 3 }, "{pair:04X}");
            assert_eq!(take(&packet[..14]), 1, "1 comes before 3");
            let other_type = with(&packet, 12, 9);
            assert_eq!(take(&other_type), if right { 4 } else { 3 }, "3 comes before 4");
        }
    }
}

/// "Two packets that differ only there give the same answer and state": for each answer of a call.
fn check_ignored(call: Call, cases: &[(&Sink, Vec<u8>, u8)]) {
    for (before, packet, number) in cases {
        let take = |packet: &[u8]| {
            let mut sink = Sink::clone(before);
            (call(&mut sink, packet), sink)
        };
        let answer = take(packet);
        assert_eq!(answer.0, *number);
        for unused in unused_fields() {
            let other = with_unused(packet, unused);
            assert_eq!(take(&other), answer, "{other:02X?}");
        }
    }
}

#[test]
fn timestamp_and_ssrc_of_a_position_are_ignored() {
    let mut sink = opened();
    sink.pointer = Pointer { known: true, last: 5, x: 1, y: 2 };
    let newer = position(6, -2, 10);
    check_ignored(
        Sink::position,
        &[
            (&sink, newer.clone(), 0),
            (&sink, newer[..7].to_vec(), 1),
            (&sink, newer[..14].to_vec(), 1),
            (&sink, newer[..18].to_vec(), 1),
            (&sink, with(&newer, 14, 8), 2),
            (&sink, [&newer[..], &[0]].concat(), 2),
            (&sink, with(&newer, 0, 0x81), 3),
            (&sink, with(&newer, 1, 1), 3),
            (&sink, with(&newer, 12, 2), 4),
            (&sink, with(&newer, 3, 5), 11),
        ],
    );
}

#[test]
fn timestamp_and_ssrc_of_a_fragment_are_ignored() {
    let sink = opened();
    let mut not_held = opened();
    not_held.record.total = 11;
    let adds = continuation(101, 1, 8, 5, b"FG");
    check_ignored(
        Sink::store,
        &[
            (&sink, adds.clone(), 0),
            (&sink, start(101, 1, 8, START, b"AB"), 0),
            (&sink, start(101, 2, 4, START, b"AB"), 0),
            (&sink, continuation(101, 2, 4, 1, b"B"), 0),
            (&sink, adds[..7].to_vec(), 1),
            (&sink, adds[..14].to_vec(), 1),
            (&sink, adds[..20].to_vec(), 1),
            (&sink, with(&adds, 14, 12), 2),
            (&sink, [&adds[..], &[0]].concat(), 2),
            (&sink, with(&adds, 0, 0x81), 3),
            (&sink, with(&adds, 1, 1), 3),
            (&sink, with(&adds, 12, 1), 4),
            (&sink, continuation(101, 1, 8, -1, b""), 9),
            (&sink, continuation(101, 2, 11, 0, b""), 10),
            (&sink, start(100, 2, 4, START, b"AB"), 11),
            (&sink, start(101, 1, 9, START, b"AB"), 12),
            (&sink, continuation(101, 1, 8, 5, b"XG"), 13),
            (&not_held, adds.clone(), 17),
        ],
    );
}

#[test]
fn the_sequence_number_of_a_position_stands_in_bytes_2_and_3() {
    for sequence in 0..=u16::MAX {
        // Where timestamp and SSRC have the last sequence number, and where they have the next one.
        for unused in [0x9C40_9C40_9C40_9C40u64, 0x9C41_9C41_9C41_9C41] {
            let packet = with_unused(&position(sequence, 3, 4), unused.to_be_bytes());
            let mut sink = Sink::fresh(10);
            assert_eq!(sink.position(&packet), 0);
            assert_eq!(sink.pointer, Pointer { known: true, last: sequence, x: 3, y: 4 });
            sink.pointer.last = 40_000;
            let newer = (40_001..=65_535).contains(&sequence) || sequence <= 7_231;
            assert_eq!(sink.position(&packet), if newer { 0 } else { 11 }, "{sequence}");
        }
    }
}

#[test]
fn the_sequence_number_of_a_fragment_stands_in_bytes_2_and_3() {
    // The next sequence number after the opening one stands in timestamp and SSRC.
    let unused = [0, 101, 0, 101, 0, 101, 0, 101];
    for sequence in 0..=u16::MAX {
        let mut sink = Sink::fresh(10);
        assert_eq!(sink.store(&with_unused(&start(sequence, 2, 8, START, b"AB"), unused)), 0);
        assert_eq!((sink.record.opening_sequence, sink.pointer.last), (sequence, sequence));
        let newer = (101..=32_867).contains(&sequence);
        let answer = opened().store(&with_unused(&continuation(sequence, 2, 8, 0, b"x"), unused));
        assert_eq!(answer, if newer { 0 } else { 11 }, "{sequence}");
    }
}
