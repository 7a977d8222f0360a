//! Big-endian numbers, the order of sequence numbers, and the refusal numbers.

use reference::numbers::*;
use reference::{Refusal, Refused};

#[test]
fn numbers_are_big_endian() {
    let bytes = [0x01, 0x02, 0x03, 0x04, 0xFF, 0xFE, 0x80, 0x00];
    assert_eq!(read_u16(&bytes, 0), Some(0x0102));
    assert_eq!(read_u32(&bytes, 0), Some(0x0102_0304));
    assert_eq!(read_i16(&bytes, 4), Some(-2));
    assert_eq!(read_i32(&bytes, 4), Some(-98_304));
    assert_eq!(read_u16(&bytes, 6), Some(0x8000));
    assert_eq!(read_i16(&bytes, 6), Some(i16::MIN));
}

#[test]
fn numbers_beyond_the_bytes_are_not_there() {
    let bytes = [0; 4];
    for place in [3, 4, 5, usize::MAX - 1, usize::MAX] {
        assert_eq!(read_u16(&bytes, place), None);
        assert_eq!(read_i16(&bytes, place), None);
        assert_eq!(read_u32(&bytes, place), None);
        assert_eq!(read_i32(&bytes, place), None);
        let mut out = bytes;
        assert_eq!(write_u16(&mut out, place, 0xFFFF), None);
        assert_eq!(write_u32(&mut out, place, 0xFFFF_FFFF), None);
        assert_eq!(out, bytes);
    }
    assert_eq!(read_u32(&bytes, 1), None);
}

#[test]
fn what_is_written_reads_back() {
    for number in 0..=u16::MAX {
        let mut out = [0xAA; 4];
        write_u16(&mut out, 1, number).unwrap();
        assert_eq!(read_u16(&out, 1), Some(number));
        assert_eq!((out[0], out[3]), (0xAA, 0xAA));
    }
    let mut out = [0xAA; 6];
    write_u32(&mut out, 1, 0x8001_0203).unwrap();
    assert_eq!(out, [0xAA, 0x80, 0x01, 0x02, 0x03, 0xAA]);
}

#[test]
fn newer_goes_by_distance() {
    for last in [0, 1, 5, 32_767, 32_768, 65_534, 65_535] {
        for distance in 0..=u16::MAX {
            let new = (u32::from(last) + u32::from(distance)) % 65_536;
            let expected = distance != 0 && distance < 32_768;
            assert_eq!(newer(last, new as u16), expected, "{last} {new}");
        }
    }
}

#[test]
fn refusal_numbers_are_those_of_the_paper() {
    for (number, refusal) in Refusal::ALL.into_iter().enumerate() {
        assert_eq!(usize::from(refusal.number()), number);
        assert_eq!(Refusal::from_number(refusal.number()), Some(refusal));
        assert!(refusal.sentence().ends_with('.'));
    }
    assert_eq!(Refusal::from_number(19), None);
    assert_eq!(Refusal::from_number(255), None);
    let shown = Refused { number: Refusal::TlvLength, place: 9 }.to_string();
    assert_eq!(shown, "refused 6 at place 9: A TLV's length is wrong for its type.");
}
