//! The twelve examples P1 to P12 of paper 01, "Proved table of small examples".

mod common;

use common::{continuation, outcome, A};
use reference::cursor::{self, Picture, Pointer};
use reference::limits::{self, Limits};
use reference::session::{self, Session, State};
use reference::{message, numbers, Refusal};

#[test]
fn p1_message_a_is_accepted_with_port_7236() {
    let record = message::read(&A).unwrap();
    assert_eq!(record.command, message::SOURCE_READY);
    assert_eq!(record.rtsp_port(&A), Some(7236));
}

#[test]
fn p2_a_larger_size_is_1() {
    let mut bytes = A;
    bytes[1] = 0x22;
    assert_eq!(outcome(message::read(&bytes)), (1, 0));
}

#[test]
fn p3_one_byte_more_is_2() {
    assert_eq!(outcome(message::read(&[&A[..], &[0]].concat())), (2, 0));
}

#[test]
fn p4_no_bytes_is_1() {
    assert_eq!(outcome(message::read(&[])), (1, 0));
}

#[test]
fn p5_size_3_is_2() {
    assert_eq!(outcome(message::read(&[0, 3, 1, 1])), (2, 0));
}

#[test]
fn p6_no_port_is_8_at_28() {
    assert_eq!(A[9..14], [0x02, 0x00, 0x02, 0x1C, 0x44]);
    let mut bytes = [&A[..9], &A[14..]].concat();
    bytes[1] = 0x1C;
    assert_eq!(bytes.len(), 28);
    assert_eq!(outcome(message::read(&bytes)), (8, 28));
}

#[test]
fn p7_0_after_65535_is_newer() {
    assert!(numbers::newer(65_535, 0));
}

#[test]
fn p8_newer_than_0() {
    assert!(numbers::newer(0, 32_767));
    assert!(!numbers::newer(0, 32_768));
    assert!(!numbers::newer(0, 0));
}

#[test]
fn p9_position() {
    let packet =
        [0x80, 0x00, 0x00, 0x05, 0, 0, 0, 0, 0, 0, 0, 0, 0x01, 0x00, 0x07, 0xFF, 0xFE, 0x00, 0x0A];
    let pointer = cursor::position(Pointer::fresh(), &packet).unwrap();
    assert_eq!(pointer, Pointer { known: true, last: 5, x: -2, y: 10 });
}

#[test]
fn p10_offsets_in_a_total_of_8() {
    let store = |offset, data: &[u8]| {
        let packet = continuation(1, 1, 8, offset, data);
        let (mut picture, mut marks) = ([0; 8], [0; 8]);
        let answer =
            cursor::store(Pointer::fresh(), Picture::fresh(), &packet, &mut picture, &mut marks);
        outcome(answer)
    };
    assert_eq!(store(8, &[]), (0, 0));
    assert_eq!(store(7, &[1, 2]), (9, 0));
    assert_eq!(store(-1, &[]), (9, 0));
    assert_eq!((-1i32).to_be_bytes(), [0xFF; 4]);
}

#[test]
fn p11_0100_is_256() {
    assert_eq!(numbers::read_u16(&[0x01, 0x00], 0), Some(256));
    let read = limits::read(b"full 0100 0100 0100").unwrap();
    assert_eq!(read, Limits::Supported { xor: true, width: 256, height: 256, port: 256 });
}

#[test]
fn p12_stop_projection_in_waiting_closes() {
    let answer = session::step(Session::fresh(), 2, None, 0);
    assert_eq!(answer.number, Refusal::Accepted);
    assert_eq!(answer.session.state, State::Closed);
}
