//! Writing messages: acceptance, refusals 18 and 10, and what stays as it is.

mod common;

use common::{accepted_messages, id, message, name, outcome, port, tlv, A};
use reference::message::{read, write, Record, Span, Tlv};

/// Writes into `room` bytes of AA; checks that a refusal changes none and acceptance none after.
fn try_write(lent: &[u8], record: &Record, room: usize) -> Result<Vec<u8>, u8> {
    let mut out = vec![0xAA; room];
    match write(lent, record, &mut out) {
        Ok(size) => {
            assert!(out[size..].iter().all(|&byte| byte == 0xAA));
            out.truncate(size);
            Ok(out)
        }
        Err(refused) => {
            assert_eq!(refused.place, 0);
            assert!(out.iter().all(|&byte| byte == 0xAA));
            Err(refused.number.number())
        }
    }
}

fn with(record: &Record, tlv: Tlv, place: usize, length: usize) -> Record {
    let mut record = *record;
    record.set(tlv, Some(Span { place, length }));
    record
}

#[test]
fn messages_of_rising_types_come_back() {
    for bytes in accepted_messages() {
        let record = read(&bytes).unwrap();
        assert_eq!(try_write(&bytes, &record, bytes.len()).as_ref(), Ok(&bytes));
        assert_eq!(try_write(&bytes, &record, bytes.len() + 9).as_ref(), Ok(&bytes));
    }
}

#[test]
fn tlvs_are_written_by_rising_type() {
    let bytes = message(1, &[id(7), port(), name()]);
    let record = read(&bytes).unwrap();
    assert_eq!(try_write(&bytes, &record, 40), Ok(A.to_vec()));
}

#[test]
fn optional_tlvs_may_be_absent() {
    for bytes in [message(1, &[port(), id(7)]), message(3, &[tlv(4, &[1])])] {
        let record = read(&bytes).unwrap();
        assert_eq!(try_write(&bytes, &record, 40), Ok(bytes));
    }
}

#[test]
fn reserved_bits_and_further_option_bytes_are_written() {
    let bytes = message(4, &[name(), id(7), tlv(5, &[0xFC, 1, 2])]);
    let record = read(&bytes).unwrap();
    assert_eq!(try_write(&bytes, &record, 60), Ok(bytes));
}

#[test]
fn values_may_lie_anywhere_and_share_bytes() {
    let lent = [0x55; 16];
    let mut record = Record::new(1);
    record.set(Tlv::SourceId, Some(Span { place: 0, length: 16 }));
    record.set(Tlv::RtspPort, Some(Span { place: 14, length: 2 }));
    let expected = message(1, &[tlv(2, &[0x55; 2]), id(0x55)]);
    assert_eq!(try_write(&lent, &record, 28), Ok(expected));
}

#[test]
fn too_little_room_is_10() {
    for bytes in accepted_messages() {
        let record = read(&bytes).unwrap();
        for room in 0..bytes.len() {
            assert_eq!(try_write(&bytes, &record, room), Err(10));
        }
    }
}

#[test]
fn unknown_commands_are_18() {
    let record = read(&A).unwrap();
    for command in 0..=255 {
        let answer = try_write(&A, &Record { command, ..record }, 99);
        assert_eq!(answer.is_ok(), command == 1, "command {command}");
        assert_eq!(answer.err().unwrap_or(18), 18);
        assert_eq!(try_write(&A, &Record::new(command), 0), Err(18));
    }
}

#[test]
fn missing_and_foreign_tlvs_are_18() {
    for bytes in accepted_messages() {
        let record = read(&bytes).unwrap();
        for tlv in Tlv::ALL {
            let mut other = record;
            let there = record.get(tlv).is_some();
            other.set(tlv, if there { None } else { Some(Span { place: 0, length: 2 }) });
            let optional =
                matches!((record.command, tlv), (1, Tlv::FriendlyName) | (3, Tlv::SourceId));
            assert_eq!(try_write(&bytes, &other, 99).is_ok(), optional, "{record:?} {tlv:?}");
        }
    }
}

#[test]
fn places_outside_the_lent_bytes_are_18() {
    let record = read(&A).unwrap();
    for (place, length) in [
        (32, 2),
        (33, 2),
        (34, 2),
        (usize::MAX, 2),
        (usize::MAX - 1, 2),
        (usize::MAX - 2, 2),
        (0, usize::MAX),
        (usize::MAX, usize::MAX),
        (1, usize::MAX),
        (usize::MAX, 1),
        (usize::MAX, 0),
        (0, 0),
        (33, 0),
    ] {
        assert_eq!(try_write(&A, &with(&record, Tlv::RtspPort, place, length), 99), Err(18));
        assert_eq!(try_write(&A, &with(&record, Tlv::FriendlyName, place, length), 99), Err(18));
    }
    assert!(try_write(&A, &with(&record, Tlv::RtspPort, 31, 2), 99).is_ok());
}

#[test]
fn values_of_wrong_length_are_18() {
    let lent = vec![1; 600];
    let written = |whole: &[u8], tlv, length| {
        let mut record = read(whole).unwrap();
        for own in Tlv::ALL {
            if let Some(span) = record.get(own) {
                record.set(own, Some(Span { place: 0, ..span }));
            }
        }
        record.set(tlv, Some(Span { place: 0, length }));
        try_write(&lent, &record, 2000).map_err(|number| assert_eq!(number, 18)).is_ok()
    };
    let whole = accepted_messages();
    for length in 0..600 {
        let even = (2..=520).contains(&length) && length % 2 == 0;
        assert_eq!(written(&whole[0], Tlv::FriendlyName, length), even);
        assert_eq!(written(&whole[0], Tlv::RtspPort, length), length == 2);
        assert_eq!(written(&whole[1], Tlv::SourceId, length), length == 16);
        assert_eq!(written(&whole[2], Tlv::SecurityToken, length), length >= 1);
        assert_eq!(written(&whole[3], Tlv::SecurityOptions, length), length >= 1);
        assert_eq!(written(&whole[4], Tlv::PinChallenge, length), length >= 1);
        assert_eq!(written(&whole[5], Tlv::PinResponseReason, length), length == 1);
    }
}

#[test]
fn a_size_above_65535_is_18() {
    let lent = vec![1; 70_000];
    let token = |length| with(&Record::new(3), Tlv::SecurityToken, 0, length);
    assert_eq!(try_write(&lent, &token(65_528), 70_000).unwrap().len(), 65_535);
    assert_eq!(try_write(&lent, &token(65_529), 70_000), Err(18));
    assert_eq!(try_write(&lent, &token(70_000), 70_000), Err(18));
    let both = with(&token(65_509), Tlv::SourceId, 0, 16);
    assert_eq!(try_write(&lent, &both, 70_000).unwrap().len(), 65_535);
    let both = with(&token(65_510), Tlv::SourceId, 0, 16);
    assert_eq!(try_write(&lent, &both, 70_000), Err(18));
}

#[test]
fn refusal_18_comes_before_10() {
    let record = read(&A).unwrap();
    assert_eq!(try_write(&A, &record, 0), Err(10));
    assert_eq!(try_write(&A, &Record { command: 7, ..record }, 0), Err(18));
    assert_eq!(try_write(&A, &with(&record, Tlv::RtspPort, 40, 2), 0), Err(18));
    assert_eq!(try_write(&A, &with(&record, Tlv::RtspPort, 0, 3), 0), Err(18));
    assert_eq!(try_write(&A, &with(&record, Tlv::PinChallenge, 0, 3), 0), Err(18));
    assert_eq!(try_write(&A[..20], &record, 0), Err(18));
    assert_eq!(try_write(&[], &record, 0), Err(18));
}

#[test]
fn accessors_take_any_record() {
    let mut record = Record::new(200);
    assert_eq!(record.rtsp_port(&A), None);
    for span in [
        Span { place: usize::MAX, length: 2 },
        Span { place: 0, length: usize::MAX },
        Span { place: 33, length: 1 },
        Span { place: 0, length: 0 },
        Span { place: 0, length: 3 },
    ] {
        record.set(Tlv::RtspPort, Some(span));
        record.set(Tlv::SourceId, Some(span));
        record.set(Tlv::SecurityOptions, Some(span));
        assert_eq!(record.rtsp_port(&A), None);
        assert_eq!(record.source_id(&A), None);
        assert_eq!(record.option_byte(&A).is_some(), span.length == 3);
    }
    assert_eq!(outcome(write(&A, &record, &mut [])), (18, 0));
}
