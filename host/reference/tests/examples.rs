//! The examples of section 4 of the source documents 000, 001 and 003, and those for 02 §2.

mod common;

use common::outcome;
use reference::cursor::{self, Picture, Pointer};
use reference::examples::{self, MESSAGES, UNUSED_FIELDS};
use reference::limits::{self, Limits};
use reference::message::{self, Span, Tlv};
use reference::session::{self, Session, State};
use reference::Refusal;

#[test]
fn every_message_gets_its_answer() {
    for example in MESSAGES {
        let expected = (example.number.number(), example.place);
        assert_eq!(outcome(message::read(example.bytes)), expected, "{example:?}");
    }
}

#[test]
fn source_ready() {
    let bytes = &examples::SOURCE_READY;
    let record = message::read(bytes).unwrap();
    assert_eq!(record.command, 1);
    assert_eq!(record.get(Tlv::FriendlyName), Some(Span { place: 7, length: 30 }));
    assert_eq!(record.get(Tlv::RtspPort), Some(Span { place: 40, length: 2 }));
    assert_eq!(record.get(Tlv::SourceId), Some(Span { place: 45, length: 16 }));
    assert_eq!(record.rtsp_port(bytes), Some(7236));
    assert_eq!(record.source_id(bytes), Some(examples::SOURCE_ID));
    let name = record.value(bytes, Tlv::FriendlyName).unwrap();
    let units = name.chunks(2).map(|unit| u16::from_le_bytes([unit[0], unit[1]]));
    assert_eq!(String::from_utf16(&units.collect::<Vec<_>>()).unwrap(), "Dummy1-Kabylake");
}

#[test]
fn stop_projection() {
    let bytes = &examples::STOP_PROJECTION;
    let record = message::read(bytes).unwrap();
    assert_eq!(record.command, 2);
    assert_eq!(record.get(Tlv::FriendlyName), Some(Span { place: 7, length: 30 }));
    assert_eq!(record.get(Tlv::SourceId), Some(Span { place: 40, length: 16 }));
    assert_eq!(record.source_id(bytes), Some(examples::SOURCE_ID));
}

#[test]
fn security_handshake() {
    let record = message::read(&examples::SECURITY_HANDSHAKE).unwrap();
    assert_eq!(record.command, 3);
    assert_eq!(record.get(Tlv::SecurityToken), Some(Span { place: 7, length: 4 }));
    assert_eq!(record.get(Tlv::SourceId), None);
}

#[test]
fn session_request_as_printed_and_with_its_size() {
    assert_eq!(outcome(message::read(&examples::SESSION_REQUEST_AS_PRINTED)), (2, 0));
    let bytes = &examples::SESSION_REQUEST;
    let record = message::read(bytes).unwrap();
    assert_eq!(record.command, 4);
    assert_eq!(record.option_byte(bytes), Some(3));
    assert_eq!(record.get(Tlv::SecurityOptions), Some(Span { place: 7, length: 1 }));
    assert_eq!(record.get(Tlv::FriendlyName), Some(Span { place: 11, length: 30 }));
    assert_eq!(record.get(Tlv::SourceId), Some(Span { place: 44, length: 16 }));
}

#[test]
fn pin_challenge() {
    let bytes = &examples::PIN_CHALLENGE;
    let record = message::read(bytes).unwrap();
    assert_eq!(record.command, 5);
    assert_eq!(record.get(Tlv::PinChallenge), Some(Span { place: 7, length: 32 }));
    assert_eq!(record.get(Tlv::SourceId), Some(Span { place: 42, length: 16 }));
}

#[test]
fn pin_response_needs_a_source_id() {
    assert_eq!(outcome(message::read(&examples::PIN_RESPONSE)), (8, 43));
    let mut bytes = examples::PIN_RESPONSE.to_vec();
    bytes.extend([3, 0, 16]);
    bytes.extend(examples::SOURCE_ID);
    bytes[1] = 0x3E;
    assert_eq!(bytes.len(), 0x3E);
    let record = message::read(&bytes).unwrap();
    assert_eq!(record.get(Tlv::PinResponseReason), Some(Span { place: 42, length: 1 }));
}

#[test]
fn accepted_examples_are_written_with_rising_types() {
    for example in MESSAGES.iter().filter(|example| example.number == Refusal::Accepted) {
        let record = message::read(example.bytes).unwrap();
        let mut out = [0; 80];
        let size = message::write(example.bytes, &record, &mut out).unwrap();
        assert_eq!(size, example.bytes.len());
        let rising = !matches!(record.command, message::SESSION_REQUEST | message::PIN_CHALLENGE);
        assert_eq!(out[..size] == *example.bytes, rising, "{example:?}");
        let again = message::read(&out[..size]).unwrap();
        for tlv in Tlv::ALL {
            assert_eq!(again.value(&out, tlv), record.value(example.bytes, tlv));
        }
    }
}

#[test]
fn a_pin_session_of_the_examples() {
    enum Event {
        Message(&'static [u8]),
        Host(u8),
    }
    use Event::*;

    let mut session = Session::fresh();
    for (event, number, check_pin, state) in [
        (Message(&examples::SESSION_REQUEST_AS_PRINTED), 2, false, State::Waiting),
        (Message(&examples::SESSION_REQUEST), 0, false, State::Handshake),
        (Message(&examples::SECURITY_HANDSHAKE), 0, false, State::Handshake),
        (Host(session::HANDSHAKE_DONE), 0, false, State::PinWait),
        (Message(&examples::PIN_CHALLENGE), 0, true, State::PinWait),
        (Message(&examples::PIN_RESPONSE), 8, false, State::PinWait),
        (Host(session::PIN_RIGHT), 0, false, State::ReadyWait),
        (Message(&examples::SOURCE_READY), 0, false, State::Projecting),
        (Message(&examples::STOP_PROJECTION), 0, false, State::Closed),
    ] {
        let answer = match event {
            Message(bytes) => session::on_message(session, bytes),
            Host(event) => session::step(session, event, None, 0),
        };
        session = answer.session;
        let seen = (answer.number.number(), answer.check_pin, session.state);
        assert_eq!(seen, (number, check_pin, state));
    }
    assert_eq!((session.id_kept, session.source_id), (true, examples::SOURCE_ID));
    assert_eq!(session.options, 3);
}

#[test]
fn cursor_limits() {
    assert_eq!(outcome(limits::read(examples::LIMITS_AS_PRINTED)), (16, 0));
    assert_eq!(limits::read(examples::LIMITS_NOT_SUPPORTED), Ok(Limits::NotSupported));
    let read = limits::read(examples::LIMITS).unwrap();
    assert_eq!(read, Limits::Supported { xor: true, width: 512, height: 512, port: 50001 });
}

#[test]
fn cursor_packets() {
    let pointer = cursor::position(Pointer::fresh(), &examples::POSITION).unwrap();
    assert_eq!(pointer, Pointer { known: true, last: 0, x: 12, y: 10 });

    let mut picture = [0; examples::IMAGE_TOTAL];
    let mut marks = [0; examples::IMAGE_TOTAL];
    let store = |pointer, record, packet: &[u8], picture: &mut [u8], marks: &mut [u8]| {
        cursor::store(pointer, record, packet, picture, marks).unwrap()
    };

    let (pointer, record) =
        store(pointer, Picture::fresh(), &examples::START, &mut picture, &mut marks);
    assert_eq!(pointer, Pointer { known: true, last: 1, x: 12, y: 10 });
    let expected = Picture {
        open: true,
        id: 0x1234,
        total: 0x200,
        opening_sequence: 1,
        start_seen: true,
        image_type: 3,
        hot_x: 18,
        hot_y: 15,
    };
    assert_eq!(record, expected);
    assert_eq!(cursor::complete(record, &picture, &marks), Ok(false));

    let (pointer, record) =
        store(pointer, record, &examples::CONTINUATION, &mut picture, &mut marks);
    assert_eq!(pointer.last, 1);
    assert_eq!(record, expected);
    assert_eq!(cursor::complete(record, &picture, &marks), Ok(true));
    assert_eq!(picture, examples::IMAGE);
    assert_eq!(marks, [1; examples::IMAGE_TOTAL]);
}

/// The first two bytes of a packet are judged; timestamp and SSRC are not.
#[test]
fn unused_fields_of_02_2() {
    for (name, packet, number) in UNUSED_FIELDS {
        let answer = outcome(cursor::position(Pointer::fresh(), packet));
        assert_eq!(answer, (number.number(), 0), "{name}");
    }
    let pointer = cursor::position(Pointer::fresh(), &examples::FIELDS_FILLED).unwrap();
    assert_eq!(pointer, Pointer { known: true, last: 5, x: -2, y: 10 });
}

#[test]
fn cursor_packets_in_the_other_order() {
    let mut picture = [0xAA; examples::IMAGE_TOTAL];
    let mut marks = [0xAA; examples::IMAGE_TOTAL];
    let (pointer, record) = cursor::store(
        Pointer::fresh(),
        Picture::fresh(),
        &examples::CONTINUATION,
        &mut picture,
        &mut marks,
    )
    .unwrap();
    assert_eq!(pointer, Pointer::fresh());
    assert_eq!(record.opening_sequence, 2);
    assert!(!record.start_seen);
    assert_eq!(marks[..0x100], [0; 0x100]);
    let (pointer, record) =
        cursor::store(pointer, record, &examples::START, &mut picture, &mut marks).unwrap();
    assert_eq!(pointer, Pointer { known: true, last: 1, x: 12, y: 10 });
    assert_eq!(record.opening_sequence, 2);
    assert_eq!(cursor::complete(record, &picture, &marks), Ok(true));
    assert_eq!(picture, examples::IMAGE);
}
