//! Reading messages: every refusal, and the order of checks.

mod common;

use common::{accepted_messages, id, message, name, outcome, port, tlv, A};
use reference::message::{read, Record, Span, Tlv};

fn refusal(bytes: &[u8]) -> (u8, usize) {
    outcome(read(bytes))
}

#[test]
fn every_command_has_an_accepted_message() {
    for (command, bytes) in (1..).zip(accepted_messages()) {
        assert_eq!(read(&bytes).unwrap().command, command);
    }
}

#[test]
fn the_record_has_places_and_lengths_of_the_values() {
    let record = read(&A).unwrap();
    let mut expected = Record::new(1);
    expected.set(Tlv::FriendlyName, Some(Span { place: 7, length: 2 }));
    expected.set(Tlv::RtspPort, Some(Span { place: 12, length: 2 }));
    expected.set(Tlv::SourceId, Some(Span { place: 17, length: 16 }));
    assert_eq!(record, expected);
    assert_eq!(record.source_id(&A), Some([7; 16]));
    assert_eq!(record.option_byte(&A), None);
}

#[test]
fn tlvs_come_in_any_order() {
    let tlvs = [name(), port(), id(7)];
    for order in [[0, 1, 2], [0, 2, 1], [1, 0, 2], [1, 2, 0], [2, 0, 1], [2, 1, 0]] {
        let bytes = message(1, &order.map(|index| tlvs[index].clone()));
        let record = read(&bytes).unwrap();
        assert_eq!(record.value(&bytes, Tlv::FriendlyName), Some(&b"A\0"[..]));
        assert_eq!(record.rtsp_port(&bytes), Some(7236));
        assert_eq!(record.source_id(&bytes), Some([7; 16]));
    }
}

#[test]
fn too_few_bytes_is_1() {
    for length in 0..4 {
        assert_eq!(refusal(&[0; 4][..length]), (1, 0));
    }
    for length in 0..33 {
        assert_eq!(refusal(&A[..length]), (1, 0));
    }
}

#[test]
fn size_below_4_or_bytes_left_over_is_2() {
    for size in 0..4 {
        assert_eq!(refusal(&[0, size, 1, 1]), (2, 0));
        assert_eq!(refusal(&[0, size, 9, 9, 9]), (2, 0));
    }
    assert_eq!(refusal(&[0, 4, 9, 9, 0]), (2, 0));
}

#[test]
fn every_version_but_1_is_3() {
    for version in (0..=255).filter(|&version| version != 1) {
        let mut bytes = A;
        bytes[2] = version;
        assert_eq!(refusal(&bytes), (3, 0));
        bytes[3] = 0;
        assert_eq!(refusal(&bytes), (3, 0), "3 comes before 4");
    }
}

#[test]
fn every_command_but_1_to_6_is_4() {
    for command in (0..=255).filter(|command| !(1..=6).contains(command)) {
        let mut bytes = A;
        bytes[3] = command;
        assert_eq!(refusal(&bytes), (4, 0));
        assert_eq!(refusal(&message(command, &[])), (4, 0));
        assert_eq!(refusal(&message(command, &[vec![9]])), (4, 0), "4 comes before 5");
    }
}

#[test]
fn a_tlv_that_ends_too_early_is_5() {
    for rest in [&[0][..], &[0, 0], &[9], &[9, 9]] {
        assert_eq!(refusal(&message(1, &[rest.to_vec()])), (5, 4));
        assert_eq!(refusal(&message(1, &[port(), rest.to_vec()])), (5, 9));
    }
    assert_eq!(refusal(&message(1, &[port(), vec![0, 0, 1]])), (5, 9));
    assert_eq!(refusal(&message(1, &[port(), vec![0, 0xFF, 0xFF, 1, 2]])), (5, 9));
}

#[test]
fn unknown_and_foreign_tlvs_are_8_at_their_place() {
    let types = [
        &[0, 2, 3][..], // Source Ready
        &[0, 3],        // Stop Projection
        &[3, 4],        // Security Handshake
        &[0, 3, 5],     // Session Request
        &[3, 6],        // PIN Challenge
        &[3, 6, 7],     // PIN Response
    ];
    for (command, own) in (1..).zip(types) {
        for kind in 0..=255 {
            // With length 0 a known type of the command is 6; every other is 8.
            let bytes = message(command, &[tlv(kind, &[])]);
            let expected = if own.contains(&kind) { 6 } else { 8 };
            assert_eq!(refusal(&bytes), (expected, 4), "command {command} type {kind}");
        }
    }
}

#[test]
fn lengths() {
    let first = |command, kind, length: usize| {
        let (number, place) = refusal(&message(command, &[tlv(kind, &vec![1; length])]));
        // A right length leads on to the missing TLVs, or to acceptance where there are none.
        if number == 6 {
            assert_eq!(place, 4);
        }
        number != 6
    };
    for length in 0..600 {
        assert_eq!(first(1, 0, length), (2..=520).contains(&length) && length % 2 == 0);
        assert_eq!(first(1, 2, length), length == 2);
        assert_eq!(first(1, 3, length), length == 16);
        assert_eq!(first(3, 4, length), length >= 1);
        assert_eq!(first(4, 5, length), length >= 1);
        assert_eq!(first(5, 6, length), length >= 1);
        assert_eq!(first(6, 7, length), length == 1);
    }
    assert!(first(3, 4, 65_528));
}

#[test]
fn the_longest_message_is_accepted() {
    let bytes = message(3, &[tlv(4, &vec![5; 65_528])]);
    assert_eq!(bytes.len(), 65_535);
    assert_eq!(
        read(&bytes).unwrap().get(Tlv::SecurityToken),
        Some(Span { place: 7, length: 65_528 })
    );
}

#[test]
fn a_second_tlv_is_7() {
    assert_eq!(refusal(&message(1, &[name(), port(), id(7), port()])), (7, 33));
    assert_eq!(refusal(&message(1, &[id(7), id(7)])), (7, 23));
    assert_eq!(refusal(&message(4, &[tlv(5, &[1]), tlv(5, &[1])])), (7, 8));
}

#[test]
fn a_missing_tlv_is_8_at_the_end() {
    for (command, whole) in (1..=6u8).zip(accepted_messages()) {
        let record = read(&whole).unwrap();
        for tlv in Tlv::ALL {
            let Some(span) = record.get(tlv) else { continue };
            let mut bytes = whole.clone();
            bytes.drain(span.place - 3..span.place + span.length);
            let size = (bytes.len() as u16).to_be_bytes();
            bytes[..2].copy_from_slice(&size);
            let optional = matches!((command, tlv), (1, Tlv::FriendlyName) | (3, Tlv::SourceId));
            let expected = if optional { (0, 0) } else { (8, bytes.len()) };
            assert_eq!(refusal(&bytes), expected, "command {command} without {tlv:?}");
        }
        assert_eq!(refusal(&[0, 4, 1, command]), (8, 4));
    }
}

#[test]
fn security_options_keep_further_bytes() {
    let bytes = message(4, &[name(), id(7), tlv(5, &[0xFF, 1, 2])]);
    let record = read(&bytes).unwrap();
    assert_eq!(record.option_byte(&bytes), Some(0xFF));
    assert_eq!(record.value(&bytes, Tlv::SecurityOptions), Some(&[0xFF, 1, 2][..]));
}

#[test]
fn order_of_checks_in_the_header() {
    // Fewer than 4 bytes and Size below 4: 1.
    assert_eq!(refusal(&[0, 0, 9]), (1, 0));
    // Size below 4, bytes left over, wrong version and command: 2.
    assert_eq!(refusal(&[0, 3, 9, 9, 0]), (2, 0));
    // Fewer bytes than Size, wrong version and command: 1.
    assert_eq!(refusal(&[0, 5, 9, 9]), (1, 0));
    // More bytes than Size, wrong version and command: 2.
    assert_eq!(refusal(&[0, 5, 9, 9, 0, 0]), (2, 0));
    // Wrong version, command and TLV: 3.
    assert_eq!(refusal(&[0, 5, 9, 9, 0]), (3, 0));
    // Wrong command and TLV: 4.
    assert_eq!(refusal(&[0, 5, 1, 9, 0]), (4, 0));
}

#[test]
fn order_of_checks_in_a_tlv() {
    // An unknown type that runs past the message: 5.
    assert_eq!(refusal(&message(1, &[vec![9, 0, 1]])), (5, 4));
    // A known type of wrong length that runs past the message: 5.
    assert_eq!(refusal(&message(1, &[vec![2, 0, 9, 0]])), (5, 4));
    // A foreign type of wrong length: 8.
    assert_eq!(refusal(&message(2, &[tlv(2, &[1])])), (8, 4));
    // A foreign type for the second time is 8 at the first.
    assert_eq!(refusal(&message(2, &[port(), port()])), (8, 4));
    // A second TLV of wrong length: 6.
    assert_eq!(refusal(&message(1, &[port(), tlv(2, &[1])])), (6, 9));
    // A fault in an earlier TLV before a fault in a later one.
    assert_eq!(refusal(&message(1, &[tlv(2, &[1]), vec![0]])), (6, 4));
    assert_eq!(refusal(&message(1, &[port(), port(), tlv(9, &[])])), (7, 9));
    // A fault in a TLV before a missing one.
    assert_eq!(refusal(&message(1, &[port(), tlv(9, &[])])), (8, 9));
    assert_eq!(refusal(&message(1, &[port()])), (8, 9));
}
