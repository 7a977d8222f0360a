//! Random inputs: nothing panics, refusals change nothing, and what is written reads back.

mod common;

use common::{continuation, message, position, start, tlv, with_unused, Random, Start, START};
use reference::cursor::{self, Picture, Pointer};
use reference::message::{read, write, Record, Span, Tlv};
use reference::session::{on_message, Session, State};
use reference::{limits, listing};

/// The bytes, once in `one_in` times with one of the first `places` changed; then now and then cut
/// or lengthened.
fn damaged(random: &mut Random, mut bytes: Vec<u8>, one_in: usize, places: usize) -> Vec<u8> {
    if random.below(one_in) == 0 {
        let place = random.below(places);
        bytes[place] = random.byte();
    }
    match random.below(16) {
        0 => bytes.truncate(random.below(bytes.len() + 1)),
        1 => bytes.push(random.byte()),
        _ => {}
    }
    bytes
}

/// A message with few faults, or none.
fn random_message(random: &mut Random) -> Vec<u8> {
    let own: [&[u8]; 6] = [&[0, 2, 3], &[0, 3], &[3, 4], &[0, 3, 5], &[3, 6], &[3, 6, 7]];
    let command = 1 + random.below(6) as u8;
    let mut kinds = own[usize::from(command) - 1].to_vec();
    random.shuffle(&mut kinds);
    if random.below(8) == 0 {
        kinds.push(random.below(9) as u8);
    }
    if random.below(8) == 0 {
        kinds.pop();
    }
    let tlvs: Vec<Vec<u8>> = kinds
        .into_iter()
        .map(|kind| {
            let length = match kind {
                _ if random.below(16) == 0 => random.below(40),
                0 => 2 * random.below(30),
                2 => 2,
                3 => 16,
                7 => 1,
                _ => 1 + random.below(40),
            };
            tlv(kind, &random.bytes(length))
        })
        .collect();
    let bytes = message(command, &tlvs);
    let places = bytes.len();
    damaged(random, bytes, 4, places)
}

#[test]
fn messages_read_and_written() {
    let mut random = Random::new(1);
    let mut counts = [0; 9];
    for _ in 0..200_000 {
        let bytes = random_message(&mut random);
        match read(&bytes) {
            Ok(record) => {
                counts[0] += 1;
                let mut out = vec![0xAA; bytes.len() + random.below(3)];
                assert_eq!(write(&bytes, &record, &mut out), Ok(bytes.len()));
                assert!(out[bytes.len()..].iter().all(|&byte| byte == 0xAA));
                let written = &out[..bytes.len()];
                let again = read(written).unwrap();
                assert_eq!(again.command, record.command);
                for tlv in Tlv::ALL {
                    assert_eq!(again.value(written, tlv), record.value(&bytes, tlv));
                }
                let places: Vec<_> =
                    record.values.iter().flatten().map(|span| span.place).collect();
                assert_eq!(written == bytes, places.is_sorted());
                assert_eq!(record.rtsp_port(&bytes).is_some(), record.command == 1);
                assert_eq!(record.option_byte(&bytes).is_some(), record.command == 4);
            }
            Err(refused) => {
                counts[usize::from(refused.number.number())] += 1;
                assert!(refused.place <= bytes.len());
                assert!(refused.place == 0 || refused.number.number() >= 5);
            }
        }
    }
    assert!(counts.iter().all(|&count| count > 0), "{counts:?}");
}

#[test]
fn random_bytes_as_messages_limits_and_packets() {
    let mut random = Random::new(2);
    for _ in 0..100_000 {
        let length = random.below(40);
        let bytes = random.bytes(length);
        let _ = read(&bytes);
        let _ = limits::read(&bytes);
        let _ = cursor::position(Pointer::fresh(), &bytes);
        let _ = cursor::store(Pointer::fresh(), Picture::fresh(), &bytes, &mut [], &mut []);
        let mut output = Vec::new();
        listing::list(&bytes[..], &mut output).unwrap();
        assert_eq!(output, listing::text(&bytes).into_bytes());
    }
}

#[test]
fn random_recordings() {
    let mut random = Random::new(3);
    for _ in 0..3_000 {
        let count = random.below(8);
        let recording: Vec<u8> = (0..count).flat_map(|_| random_message(&mut random)).collect();
        let mut output = Vec::new();
        listing::list(&recording[..], &mut output).unwrap();
        assert_eq!(output, listing::text(&recording).into_bytes());
    }
}

#[test]
fn any_record_to_the_writer() {
    let mut random = Random::new(4);
    let lent = random.bytes(60);
    let (mut accepted, mut without_room, mut unwritable) = (0, 0, 0);
    for _ in 0..200_000 {
        let own: [&[u8]; 6] = [&[0, 2, 3], &[0, 3], &[3, 4], &[0, 3, 5], &[3, 6], &[3, 6, 7]];
        let mut record = Record::new(random.below(8) as u8);
        for tlv in Tlv::ALL {
            let fits = (1..=6).contains(&record.command)
                && own[usize::from(record.command) - 1].contains(&tlv.type_byte());
            if fits != (random.below(20) == 0) {
                let length = match tlv {
                    _ if random.below(20) == 0 => random.pick(&[0, 3, 61, usize::MAX]),
                    Tlv::RtspPort => 2,
                    Tlv::SourceId => 16,
                    Tlv::PinResponseReason => 1,
                    _ => 2 + 2 * random.below(4),
                };
                let place = match random.below(20) {
                    0 => random.pick(&[usize::MAX, usize::MAX - 1, usize::MAX - 16, 60, 61]),
                    _ => random.below(45),
                };
                record.set(tlv, Some(Span { place, length }));
            }
        }
        let room = random.below(100);
        let mut out = vec![0xAA; room];
        match write(&lent, &record, &mut out) {
            Ok(size) => {
                accepted += 1;
                assert!(out[size..].iter().all(|&byte| byte == 0xAA));
                let again = read(&out[..size]).unwrap();
                assert_eq!(again.command, record.command);
                for tlv in Tlv::ALL {
                    assert_eq!(again.value(&out, tlv), record.value(&lent, tlv));
                }
            }
            Err(refused) => {
                assert!(out.iter().all(|&byte| byte == 0xAA));
                match refused.number.number() {
                    10 => without_room += 1,
                    18 => unwritable += 1,
                    other => panic!("{other}"),
                }
            }
        }
    }
    assert!(accepted > 1000 && without_room > 1000 && unwritable > 1000);
}

#[test]
fn sessions_take_any_message() {
    let mut random = Random::new(5);
    for _ in 0..50_000 {
        let before = Session {
            state: random.pick(&State::ALL),
            id_kept: random.flag(),
            source_id: [random.byte(); 16],
            options: random.byte(),
        };
        let bytes = random_message(&mut random);
        let answer = on_message(before, &bytes);
        match answer.number.number() {
            0 => assert_ne!(before.state, State::Closed),
            14 => assert_eq!(answer.session, Session { state: State::Closed, ..before }),
            _ => assert_eq!(answer.session, before),
        }
    }
}

/// A packet for small pictures, with few faults or none.
fn random_packet(random: &mut Random) -> Vec<u8> {
    let sequence = random.pick(&[0, 1, 2, 32_767, 32_768, 65_535]);
    let id = random.below(3) as u16;
    let total = random.pick(&[0, 3, 4, 5, 300_000, u32::MAX]);
    let length = random.below(4);
    let data: Vec<u8> = (0..length).map(|_| random.below(2) as u8).collect();
    let fields = Start { image_type: random.below(2) as u8, ..START };
    let bytes = match random.below(8) {
        0 => position(sequence, 1, 2),
        1..=3 => start(sequence, id, total, fields, &data),
        _ => {
            let offset = random.pick(&[-1, 0, 1, 2, 3, 4, i32::MAX, i32::MIN]);
            continuation(sequence, id, total, offset, &data)
        }
    };
    damaged(random, bytes, 8, 16)
}

#[test]
fn any_packet_with_any_records_and_lent_bytes() {
    let mut random = Random::new(6);
    let mut counts = [0; 19];
    for _ in 0..300_000 {
        let pointer = Pointer {
            known: random.flag(),
            last: random.pick(&[0, 1, 32_768, 65_535]),
            x: random.byte().into(),
            y: -i16::from(random.byte()),
        };
        let record = Picture {
            open: random.flag(),
            id: random.below(3) as u16,
            total: random.pick(&[0, 3, 3, 4, 4, 4, 5, 262_145, u32::MAX]),
            opening_sequence: random.pick(&[0, 1, 32_768, 65_535]),
            start_seen: random.flag(),
            image_type: random.below(2) as u8,
            hot_x: START.hot_x,
            hot_y: START.hot_y,
        };
        let (length, marked) = (random.below(3) + 4, random.below(3) + 4);
        let picture: Vec<u8> = (0..length).map(|_| random.below(2) as u8).collect();
        let marks: Vec<u8> = (0..marked).map(|_| random.pick(&[0, 0, 1, 9])).collect();
        let packet = random_packet(&mut random);

        // The same packet with another timestamp and SSRC (02 §2).
        let other = with_unused(&packet, std::array::from_fn(|_| random.byte()));

        let answer = cursor::position(pointer, &packet);
        assert_eq!(cursor::position(pointer, &other), answer);
        if let Err(refused) = answer {
            assert!([1, 2, 3, 4, 11].contains(&refused.number.number()));
        }
        let (mut stored, mut marks_after) = (picture.clone(), marks.clone());
        let answer = cursor::store(pointer, record, &packet, &mut stored, &mut marks_after);
        let (mut stored_too, mut marks_too) = (picture.clone(), marks.clone());
        let other = cursor::store(pointer, record, &other, &mut stored_too, &mut marks_too);
        assert_eq!((other, &stored_too, &marks_too), (answer, &stored, &marks_after));
        match answer {
            Ok((_, after)) => {
                counts[0] += 1;
                assert!(after.open);
                let total = after.total as usize;
                assert_eq!(stored[total..], picture[total..]);
                assert_eq!(marks_after[total..], marks[total..]);
                assert!(cursor::complete(after, &stored, &marks_after).is_ok());
            }
            Err(refused) => {
                counts[usize::from(refused.number.number())] += 1;
                assert_eq!((stored, marks_after), (picture, marks));
                assert_eq!(refused.place, 0);
            }
        }
    }
    for number in [0, 1, 2, 3, 4, 9, 10, 11, 12, 13, 17] {
        assert!(counts[number] > 100, "{number}: {counts:?}");
    }
}

/// Demand 3: any order and any repeats of a picture's fragments, with refused calls among them.
#[test]
fn fragments_in_any_order_with_refused_calls_among_them() {
    let mut random = Random::new(7);
    for _ in 0..3_000 {
        let total = random.below(40);
        let whole = random.bytes(total);
        let fragments: Vec<(Vec<u8>, std::ops::Range<usize>, bool)> = (0..1 + random.below(8))
            .map(|_| {
                let sequence = random.next() as u16;
                let is_start = random.below(3) == 0;
                let from = if is_start { 0 } else { random.below(total + 1) };
                let to = from + random.below(total - from + 1);
                let data = &whole[from..to];
                let packet = if is_start {
                    start(sequence, 5, total as u32, START, data)
                } else {
                    continuation(sequence, 5, total as u32, from as i32, data)
                };
                (packet, from..to, is_start)
            })
            .collect();
        let opener = continuation(1000, 5, total as u32, 0, &[]);
        let lent = total + random.below(3);
        let (blank_picture, blank_marks) = (random.bytes(lent), random.bytes(lent));

        let mut results = Vec::new();
        for _ in 0..2 {
            let mut order: Vec<usize> = (0..fragments.len()).collect();
            for _ in 0..random.below(5) {
                order.push(random.below(fragments.len()));
            }
            random.shuffle(&mut order);

            let (mut picture, mut marks) = (blank_picture.clone(), blank_marks.clone());
            let (mut pointer, mut record) = cursor::store(
                Pointer::fresh(),
                Picture::fresh(),
                &opener,
                &mut picture,
                &mut marks,
            )
            .unwrap();
            for index in order {
                if random.flag() {
                    let late = continuation(1000, 6, 0, 0, &[]);
                    let other = start(1001, 5, total as u32 + 1, START, &[]);
                    for bad in [&late[..], &late[..9], &other] {
                        assert!(
                            cursor::store(pointer, record, bad, &mut picture, &mut marks).is_err()
                        );
                    }
                }
                (pointer, record) =
                    cursor::store(pointer, record, &fragments[index].0, &mut picture, &mut marks)
                        .unwrap();
            }
            for place in 0..total {
                let covered = fragments.iter().any(|(_, range, _)| range.contains(&place));
                assert_eq!(marks[place] != 0, covered);
                assert_eq!(
                    picture[place],
                    if covered { whole[place] } else { blank_picture[place] }
                );
            }
            let started = fragments.iter().any(|fragment| fragment.2);
            let filled = marks[..total].iter().all(|&mark| mark != 0);
            assert_eq!(cursor::complete(record, &picture, &marks), Ok(started && filled));
            results.push((picture, marks, record));
        }
        assert_eq!(results[0], results[1]);
    }
}
