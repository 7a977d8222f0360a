//! Records: conversion from and to their bytes, and equality by what they say.

use std::collections::HashSet;

use ashlarsilk::cursor::{Opened, Picture, Pointer, Start};
use ashlarsilk::{Command, Event, Field, Limits, Message, Refusal, Refused};
use ashlarsilk::{Session, SourceId, State, Supported, Tlv};

#[test]
fn a_message_record_holds_each_field_at_its_place() {
    let mut message = Message::new(Command::PIN_CHALLENGE);
    for (count, tlv) in (0..).zip(Tlv::ALL) {
        assert_eq!(message.field(tlv), None);
        let field = Field { place: 0x0102_0304 + count, length: 0x0506_0708 + count };
        message.set(tlv, Some(field));
        assert_eq!(message.field(tlv), Some(field));
    }
    let bytes = message.as_bytes();
    assert_eq!(bytes[..10], [5, 1, 4, 3, 2, 1, 8, 7, 6, 5]);
    assert_eq!(bytes[55..], [1, 10, 3, 2, 1, 14, 7, 6, 5]);
    assert_eq!(Message::from_bytes(*bytes), message);

    message.set(Tlv::RtspPort, None);
    assert_eq!(message.field(Tlv::RtspPort), None);
    assert_eq!(message.as_bytes()[10..19], [0; 9]);
}

#[test]
fn a_value_outside_the_bytes_is_none() {
    let field = |place, length| Field { place, length };
    assert_eq!(field(1, 2).of(b"abc"), Some(&b"bc"[..]));
    assert_eq!(field(3, 0).of(b"abc"), Some(&b""[..]));
    assert_eq!(field(2, 2).of(b"abc"), None);
    assert_eq!(field(4, 0).of(b"abc"), None);
    assert_eq!(field(u32::MAX, u32::MAX).of(b"abc"), None);
}

#[test]
fn records_that_say_the_same_are_equal() {
    let mut bytes = *Message::new(Command(3)).as_bytes();
    // The place of a value that is not there.
    bytes[2] = 9;
    assert_eq!(Message::from_bytes(bytes), Message::new(Command(3)));
    bytes[1] = 1;
    assert_ne!(Message::from_bytes(bytes), Message::new(Command(3)));

    let closed = |state, kept, id| {
        let mut bytes = [id; Session::LENGTH];
        (bytes[0], bytes[1], bytes[2]) = (state, 3, kept);
        Session::from_bytes(bytes)
    };
    assert_eq!(closed(5, 0, 1), closed(99, 0, 2));
    assert_eq!(closed(5, 1, 1), closed(5, 7, 1));
    assert_ne!(closed(5, 1, 1), closed(5, 1, 2));
    assert_ne!(closed(4, 0, 1), closed(5, 0, 1));

    assert_eq!(Pointer::from_bytes([0, 1, 2, 3, 4, 5, 6]), Pointer::fresh());
    assert_eq!(
        Pointer::from_bytes([1, 1, 2, 3, 4, 5, 6]),
        Pointer::from_bytes([2, 1, 2, 3, 4, 5, 6])
    );
    assert_ne!(Pointer::from_bytes([1, 1, 2, 3, 4, 5, 6]), Pointer::fresh());
    let pointer = Pointer::from_bytes([1, 2, 1, 4, 3, 0xFE, 0xFF]);
    assert_eq!((pointer.sequence(), pointer.position()), (Some(0x0102), Some((0x0304, -2))));

    let mut bytes = [1, 9, 0, 0, 1, 0, 0, 5, 0, 0, 1, 3, 2, 5, 4];
    let picture = Picture::from_bytes(bytes);
    bytes[10] = 77;
    assert_eq!(Picture::from_bytes(bytes), picture);
    bytes[9] = 1;
    assert_ne!(Picture::from_bytes(bytes), picture);
    let start = Start { image_type: 77, hot_x: 0x0203, hot_y: 0x0405 };
    let opened = Opened { id: 9, total: 256, sequence: 5, start: Some(start) };
    assert_eq!(Picture::from_bytes(bytes).opened(), Some(opened));
    bytes[0] = 0;
    assert_eq!(Picture::from_bytes(bytes), Picture::default());

    let full = Limits::from_bytes([9, 7, 2, 1, 4, 3, 6, 5]);
    assert_eq!(full, Limits::from_bytes([1, 1, 2, 1, 4, 3, 6, 5]));
    assert_ne!(full, Limits::from_bytes([1, 0, 2, 1, 4, 3, 6, 5]));
    assert_ne!(full, Limits::from_bytes([1, 1, 2, 1, 4, 3, 6, 6]));
    assert_ne!(full, Limits::not_supported());
    assert_eq!(Limits::from_bytes([0, 7, 1, 2, 3, 4, 5, 6]), Limits::not_supported());
}

#[test]
fn limits_go_to_their_bytes_and_back() {
    let full = Supported { xor: true, width: 0x0102, height: 0x0304, port: 0x0506 };
    assert_eq!(*Limits::new(full).as_bytes(), [1, 1, 2, 1, 4, 3, 6, 5]);
    assert_eq!(Limits::new(full).supported(), Some(full));
    let none = Supported { xor: false, ..full };
    assert_eq!(*Limits::new(none).as_bytes(), [1, 0, 2, 1, 4, 3, 6, 5]);
    assert_eq!(Limits::new(none).supported(), Some(none));
    assert_eq!(*Limits::not_supported().as_bytes(), [0; 8]);
    assert_eq!(Limits::not_supported().supported(), None);

    // Any bytes are kept as they are; a flag other than 0 means yes.
    let limits = Limits::from_bytes([9, 7, 2, 1, 4, 3, 6, 5]);
    assert_eq!(*limits.as_bytes(), [9, 7, 2, 1, 4, 3, 6, 5]);
    assert_eq!(limits.supported(), Some(full));
    let limits = Limits::from_bytes([0, 7, 1, 2, 3, 4, 5, 6]);
    assert_eq!(*limits.as_bytes(), [0, 7, 1, 2, 3, 4, 5, 6]);
    assert_eq!(limits.supported(), None);
}

#[test]
fn each_refusal_has_its_number_and_words() {
    let mut texts = HashSet::new();
    for (number, refusal) in (1..).zip(Refusal::ALL) {
        assert_eq!(refusal.number(), number);
        assert_eq!(Refusal::from_number(number), Some(refusal));
        let text = Refused { refusal, place: 0 }.to_string();
        assert!(text.contains(&format!("(refusal {number}")), "{text}");
        // Only refusals of TLVs have a place.
        assert_eq!(text.contains("at byte 0)"), (5..=8).contains(&number), "{text}");
        assert!(texts.insert(refusal.words()));
    }
    assert_eq!(Refusal::from_number(255), None);
}

#[test]
fn names_are_shown() {
    assert_eq!(Command::SOURCE_READY.to_string(), "Source Ready");
    assert_eq!(Command(9).to_string(), "command 9");
    assert_eq!(Event::from(Command::PIN_RESPONSE).to_string(), "PIN Response");
    assert_eq!(Event::CONNECTION_LOST.to_string(), "connection lost");
    assert_eq!(Event(0).to_string(), "event 0");
    assert_eq!(State::ALL.map(|state| State::from_number(state as u8)), State::ALL);
    assert_eq!(format!("{:>10}", State::Closed), "    Closed");
    let id = SourceId([0x0A; 16]);
    assert_eq!(id.to_string(), "0A".repeat(16));
    assert_eq!(format!("{:?}", Pointer::fresh()), "Pointer { position: None, sequence: None }");
    assert_eq!(format!("{:?}", Limits::not_supported()), "Limits { supported: None }");
}
