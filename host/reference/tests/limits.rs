//! The cursor limits value: grammar, letter case and writing.

mod common;

use common::outcome;
use reference::limits::{read, write, Limits};

const FULL: Limits = Limits::Supported { xor: true, width: 0x0100, height: 0x00AF, port: 0xC351 };
const NONE: Limits = Limits::Supported { xor: false, width: 0x0100, height: 0x00AF, port: 0xC351 };

#[test]
fn accepted_values() {
    assert_eq!(read(b"none"), Ok(Limits::NotSupported));
    assert_eq!(read(b"full 0100 00AF C351"), Ok(FULL));
    assert_eq!(read(b"none 0100 00AF C351"), Ok(NONE));
    let zero = Limits::Supported { xor: true, width: 0, height: 0, port: 0 };
    assert_eq!(read(b"full 0000 0000 0000"), Ok(zero));
    let most = Limits::Supported { xor: true, width: 65_535, height: 65_535, port: 65_535 };
    assert_eq!(read(b"full FFFF ffff FfFf"), Ok(most));
}

#[test]
fn letter_case_does_not_matter() {
    for text in ["NONE", "None", "nOnE"] {
        assert_eq!(read(text.as_bytes()), Ok(Limits::NotSupported));
    }
    for text in ["FULL 0100 00af c351", "fUlL 0100 00aF C351", "full 0100 00Af c351"] {
        assert_eq!(read(text.as_bytes()), Ok(FULL));
    }
    assert_eq!(read(b"NoNe 0100 00aF c351"), Ok(NONE));
}

#[test]
fn all_else_is_16() {
    for text in [
        "",
        "n",
        "non",
        "nones",
        "none ",
        " none",
        "full",
        "full ",
        "half 0100 0100 0100",
        "full 0100",
        "full 0100 0100",
        "full 0100 0100 ",
        "full 0100 0100 010",
        "full 0100 0100 01000",
        "full 0100 0100 0100 ",
        "full 0100 0100 0100\n",
        "full  0100 0100 0100",
        "full 0100  0100 0100",
        "full\t0100 0100 0100",
        "full 0100,0100 0100",
        " full 0100 0100 0100",
        "full 100 0100 01000",
        "full 0x10 0100 0100",
        "full 0x0200 0x0200 50001",
        "full +100 0100 0100",
        "full -100 0100 0100",
        "full 0_00 0100 0100",
        "full 010G 0100 0100",
        "full 0100 01:0 0100",
        "full 0100 0100 01/0",
        "full 0100 0100 01@0",
        "full 0100 0100 01`0",
        "none none",
        "full none none none",
        "none 0100 0100",
    ] {
        assert_eq!(outcome(read(text.as_bytes())), (16, 0), "{text:?}");
    }
    assert_eq!(outcome(read(b"full 0100 0100 01\xB00")), (16, 0));
    assert_eq!(outcome(read(b"none\0")), (16, 0));
    assert_eq!(outcome(read(&[b'n'; 100_000])), (16, 0));
}

#[test]
fn every_single_byte_change() {
    let good = b"full 0100 00AF C351";
    for place in 0..good.len() {
        for byte in 0..=255u8 {
            let mut text = *good;
            text[place] = byte;
            let fits = match place {
                0..=3 => byte.eq_ignore_ascii_case(&good[place]),
                4 | 9 | 14 => byte == b' ',
                _ => byte.is_ascii_hexdigit(),
            };
            assert_eq!(read(&text).is_ok(), fits, "{place} {byte}");
        }
    }
}

#[test]
fn written_values() {
    for (limits, text) in [
        (Limits::NotSupported, "none"),
        (FULL, "full 0100 00AF C351"),
        (NONE, "none 0100 00AF C351"),
    ] {
        for room in 0..30 {
            let mut out = vec![0xAA; room];
            let answer = write(limits, &mut out);
            if room < text.len() {
                assert_eq!(outcome(answer), (10, 0));
                assert_eq!(out, vec![0xAA; room]);
            } else {
                assert_eq!(answer, Ok(text.len()));
                assert_eq!(&out[..text.len()], text.as_bytes());
                assert!(out[text.len()..].iter().all(|&byte| byte == 0xAA));
            }
        }
    }
}

#[test]
fn every_number_reads_back() {
    for number in 0..=u16::MAX {
        let limits = Limits::Supported {
            xor: number % 2 == 0,
            width: number,
            height: number.rotate_left(4),
            port: !number,
        };
        let mut out = [0; 19];
        assert_eq!(write(limits, &mut out), Ok(19));
        assert_eq!(read(&out), Ok(limits));
        assert_eq!(&out[5..9], format!("{number:04X}").as_bytes());
        assert_eq!(&out[15..], format!("{:04X}", !number).as_bytes());
    }
}
