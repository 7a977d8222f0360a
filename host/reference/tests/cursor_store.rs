//! Starts and continuations: every refusal, the order of checks, the rules for storing.

mod common;

use common::sink::{opened, Sink};
use common::{continuation, packet, position, start, Start, START};
use reference::cursor::{Picture, Pointer, LARGEST_PICTURE};

#[test]
fn a_continuation_opens_and_stores() {
    let sink = opened();
    assert_eq!(sink.picture, [0xEE, 0xEE, b'C', b'D', b'E', b'F', 0xEE, 0xEE, 0xEE, 0xEE]);
    assert_eq!(sink.marks, [0, 0, 1, 1, 1, 1, 0, 0, 0x77, 0x77]);
    assert_eq!(sink.pointer, Pointer::fresh());
    let expected =
        Picture { open: true, id: 1, total: 8, opening_sequence: 100, ..Picture::fresh() };
    assert_eq!(sink.record, expected);
    assert_eq!(sink.complete(), Ok(false));
}

#[test]
fn a_start_opens_stores_and_moves_the_pointer() {
    let mut sink = Sink::fresh(10);
    assert_eq!(sink.store(&start(100, 1, 8, START, b"AB")), 0);
    assert_eq!(sink.picture[..3], [b'A', b'B', 0xEE]);
    assert_eq!(sink.marks, [1, 1, 0, 0, 0, 0, 0, 0, 0x77, 0x77]);
    assert_eq!(sink.pointer, Pointer { known: true, last: 100, x: 12, y: -10 });
    let expected = Picture {
        open: true,
        id: 1,
        total: 8,
        opening_sequence: 100,
        start_seen: true,
        image_type: 3,
        hot_x: 18,
        hot_y: 15,
    };
    assert_eq!(sink.record, expected);
}

#[test]
fn opening_unsees_the_start_and_clears_the_marks_of_its_places_only() {
    let mut sink = Sink::fresh(10);
    assert_eq!(sink.store(&start(1, 1, 4, START, b"ABCD")), 0);
    assert_eq!(sink.complete(), Ok(true));
    sink.marks = vec![9; 10];
    assert_eq!(sink.store(&continuation(2, 2, 3, 1, b"x")), 0);
    assert_eq!(sink.marks, [0, 1, 0, 9, 9, 9, 9, 9, 9, 9]);
    let expected = Picture { open: true, id: 2, total: 3, opening_sequence: 2, ..Picture::fresh() };
    assert_eq!(sink.record, expected);
    assert_eq!(sink.pointer.last, 1);
    assert_eq!(sink.picture[..4], *b"AxCD");
}

#[test]
fn refusals_1_to_4() {
    let whole = continuation(1, 1, 8, 0, b"AB");
    for length in 0..whole.len() {
        assert_eq!(Sink::fresh(10).store(&whole[..length]), 1);
    }
    assert_eq!(Sink::fresh(10).store(&[&whole[..], &[0]].concat()), 2);
    for kind in (0..=255).filter(|kind| ![2, 3].contains(kind)) {
        let mut bytes = whole.clone();
        bytes[12] = kind;
        assert_eq!(Sink::fresh(10).store(&bytes), 4);
    }
    assert_eq!(Sink::fresh(10).store(&position(1, 2, 3)), 4);
}

#[test]
fn a_size_below_the_header_is_2() {
    for size in 0..30 {
        let mut body = packet(1, 3, &[0; 30]);
        body[14] = size;
        let expected = if size < 13 { 2 } else { 0 };
        body.truncate(12 + usize::from(size.max(3)));
        assert_eq!(Sink::fresh(10).store(&body), if size > 13 { 9 } else { expected }, "{size}");
        let mut body = packet(1, 2, &[0; 30]);
        body[14] = size;
        let expected = if size < 18 { 2 } else { 0 };
        body.truncate(12 + usize::from(size.max(3)));
        assert_eq!(Sink::fresh(10).store(&body), if size > 18 { 9 } else { expected }, "{size}");
    }
    // Below the header comes before too few bytes.
    let mut short = packet(1, 2, &[0; 15]);
    short[14] = 17;
    assert_eq!(Sink::fresh(10).store(&short[..15]), 2);
    short[14] = 18;
    assert_eq!(Sink::fresh(10).store(&short[..15]), 1);
}

#[test]
fn outside_the_total_is_9() {
    for (offset, data, number) in [
        (0, &b""[..], 0),
        (8, b"", 0),
        (9, b"", 9),
        (7, b"H", 0),
        (7, b"HI", 9),
        (-1, b"", 9),
        (-1, b"A", 9),
        (i32::MIN, b"", 9),
        (i32::MAX, b"A", 9),
        (0, b"ABCDEFGH", 0),
        (0, b"ABCDEFGHI", 9),
    ] {
        assert_eq!(Sink::fresh(20).store(&continuation(1, 1, 8, offset, data)), number);
    }
    assert_eq!(Sink::fresh(20).store(&start(1, 1, 8, START, b"ABCDEFGH")), 0);
    assert_eq!(Sink::fresh(20).store(&start(1, 1, 8, START, b"ABCDEFGHI")), 9);
    assert_eq!(Sink::fresh(20).store(&start(1, 1, 0, START, b"A")), 9);
}

#[test]
fn no_room_is_10() {
    for (picture, marks, total, number) in [
        (8, 8, 8, 0),
        (7, 8, 8, 10),
        (8, 7, 8, 10),
        (0, 0, 0, 0),
        (0, 0, 1, 10),
        (262_144, 262_144, 262_144, 0),
        (262_145, 262_145, 262_145, 10),
        (300_000, 300_000, u32::MAX, 10),
    ] {
        let mut sink = Sink::fresh(0);
        sink.picture = vec![0; picture];
        sink.marks = vec![0; marks];
        assert_eq!(sink.clone().store(&continuation(1, 1, total, 0, &[])), number);
        assert_eq!(sink.store(&start(1, 1, total, START, &[])), number);
    }
}

#[test]
fn the_opened_picture_too_large_is_17_first() {
    for (picture, marks, total, number) in [
        (8, 8, 8, 0),
        (7, 8, 8, 17),
        (8, 7, 8, 17),
        (262_144, 262_144, LARGEST_PICTURE, 0),
        (262_145, 262_145, LARGEST_PICTURE + 1, 17),
        (10, 10, u32::MAX, 17),
    ] {
        let mut sink = Sink::fresh(0);
        sink.picture = vec![0; picture];
        sink.marks = vec![0; marks];
        sink.record = Picture { open: true, id: 1, total, opening_sequence: 5, ..Picture::fresh() };
        assert_eq!(sink.clone().store(&continuation(6, 2, 0, 0, &[])), number);
        assert_eq!(sink.clone().store(&[]), if number == 17 { 17 } else { 1 });
        assert_eq!(sink.complete().err().unwrap_or(0), number);
        // Where no picture is open, the total is not looked at.
        sink.record.open = false;
        sink.record.start_seen = true;
        assert_eq!(sink.store(&[]), 1);
        assert_eq!(sink.complete(), Ok(false));
        assert_eq!(sink.store(&continuation(5, 1, 0, 0, &[])), 0);
    }
}

#[test]
fn another_id_that_is_not_newer_is_11() {
    for (sequence, number) in
        [(100, 11), (99, 11), (0, 11), (101, 0), (32_867, 0), (32_868, 11), (65_535, 11)]
    {
        assert_eq!(opened().store(&continuation(sequence, 2, 8, 0, b"x")), number);
        assert_eq!(opened().store(&start(sequence, 2, 8, START, b"x")), number);
    }
    let mut sink = opened();
    sink.record.opening_sequence = 65_535;
    assert_eq!(sink.store(&start(0, 2, 8, START, b"x")), 0);
}

#[test]
fn a_late_fragment_of_the_former_picture_is_11() {
    let mut sink = opened();
    assert_eq!(sink.store(&start(103, 2, 8, START, b"xy")), 0);
    assert_eq!(sink.store(&continuation(102, 1, 8, 6, b"GH")), 11);
    assert_eq!(sink.store(&start(101, 1, 8, START, b"AB")), 11);
    assert_eq!(sink.pointer.last, 103);
}

#[test]
fn later_fragments_do_not_move_the_opening_sequence() {
    let mut sink = opened();
    assert_eq!(sink.store(&continuation(120, 1, 8, 6, b"GH")), 0);
    assert_eq!(sink.record.opening_sequence, 100);
    assert_eq!(sink.store(&continuation(110, 2, 8, 0, b"x")), 0);
}

#[test]
fn the_opened_id_does_not_look_at_the_sequence() {
    for sequence in [0, 99, 100, 101, 32_868, 65_535] {
        let mut sink = opened();
        assert_eq!(sink.store(&continuation(sequence, 1, 8, 6, b"GH")), 0);
        assert_eq!(sink.store(&start(sequence, 1, 8, START, b"AB")), 0);
        assert_eq!(sink.complete(), Ok(true));
        assert_eq!(sink.picture[..8], *b"ABCDEFGH");
    }
}

#[test]
fn another_total_of_the_opened_id_is_12() {
    for total in [0, 7, 9, 10] {
        assert_eq!(opened().store(&continuation(200, 1, total, 0, &[])), 12);
        assert_eq!(opened().store(&start(200, 1, total, START, &[])), 12);
    }
    // 12 comes before 13, and 9 and 10 before 12.
    assert_eq!(opened().store(&continuation(200, 1, 9, 2, b"x")), 12);
    assert_eq!(opened().store(&continuation(200, 1, 7, 7, b"x")), 9);
    assert_eq!(opened().store(&continuation(200, 1, 11, 2, b"x")), 10);
    assert_eq!(opened().store(&continuation(200, 1, 11, 11, b"x")), 9);
}

#[test]
fn a_filled_place_with_another_byte_is_13() {
    for place in 0..8 {
        let filled = (2..6).contains(&place);
        let answer = opened().store(&continuation(1, 1, 8, place, b"x"));
        assert_eq!(answer, if filled { 13 } else { 0 });
    }
    assert_eq!(opened().store(&continuation(1, 1, 8, 0, b"ABCDEFGH")), 0);
    assert_eq!(opened().store(&continuation(1, 1, 8, 0, b"ABCDExGH")), 13);
    assert_eq!(opened().store(&start(1, 1, 8, START, b"ABx")), 13);
    assert_eq!(opened().store(&start(1, 1, 8, START, b"xyC")), 0);
}

#[test]
fn any_mark_but_0_is_filled_and_becomes_1() {
    for mark in 0..=255 {
        let mut sink = opened();
        sink.marks[3] = mark;
        let answer = sink.store(&continuation(1, 1, 8, 3, b"x"));
        assert_eq!(answer, if mark == 0 { 0 } else { 13 });
        let mut sink = opened();
        sink.marks[3] = mark;
        assert_eq!(sink.store(&continuation(1, 1, 8, 3, b"D")), 0);
        assert_eq!(sink.marks[3], 1);
    }
}

#[test]
fn a_second_start_with_other_fields_is_13() {
    let mut sink = opened();
    assert_eq!(sink.store(&start(101, 1, 8, START, b"AB")), 0);
    for other in [
        Start { image_type: 2, ..START },
        Start { hot_x: 19, ..START },
        Start { hot_y: 16, ..START },
    ] {
        assert_eq!(sink.clone().store(&start(102, 1, 8, other, b"AB")), 13);
    }
    let elsewhere = Start { x: 1, y: 2, ..START };
    assert_eq!(sink.store(&start(102, 1, 8, elsewhere, b"AB")), 0);
    assert_eq!(sink.pointer, Pointer { known: true, last: 102, x: 1, y: 2 });
}

#[test]
fn start_fields_that_were_not_seen_are_not_looked_at() {
    let mut sink = opened();
    sink.record.image_type = 200;
    sink.record.hot_x = 200;
    sink.record.hot_y = 200;
    assert_eq!(sink.clone().store(&continuation(1, 1, 8, 0, b"A")), 0);
    assert_eq!(sink.store(&start(1, 1, 8, START, b"AB")), 0);
    let record = sink.record;
    assert_eq!((record.image_type, record.hot_x, record.hot_y), (3, 18, 15));
}

#[test]
fn a_start_that_is_not_newer_stores_but_moves_no_pointer() {
    let mut sink = opened();
    sink.pointer = Pointer { known: true, last: 150, x: 1, y: 2 };
    let before = sink.pointer;
    assert_eq!(sink.store(&start(101, 1, 8, START, b"AB")), 0);
    assert_eq!(sink.pointer, before);
    assert_eq!(sink.picture[..4], *b"ABCD");
    assert!(sink.record.start_seen);
    assert_eq!(sink.store(&start(151, 1, 8, START, b"AB")), 0);
    assert_eq!(sink.pointer, Pointer { known: true, last: 151, x: 12, y: -10 });
}

#[test]
fn a_start_may_open_without_moving_the_pointer() {
    let mut sink = opened();
    sink.pointer = Pointer { known: true, last: 150, x: 1, y: 2 };
    assert_eq!(sink.store(&start(120, 2, 8, START, b"AB")), 0);
    assert_eq!(sink.pointer, Pointer { known: true, last: 150, x: 1, y: 2 });
    assert_eq!(sink.record.id, 2);
}

#[test]
fn a_refused_start_moves_no_pointer() {
    let mut sink = opened();
    for bytes in [
        start(200, 1, 8, START, b"ABx"),
        start(200, 1, 9, START, b"AB"),
        start(99, 2, 8, START, b"AB"),
        start(200, 2, 11, START, b"AB"),
    ] {
        assert_ne!(sink.store(&bytes), 0);
        assert_eq!(sink.pointer, Pointer::fresh());
    }
}

#[test]
fn a_continuation_moves_no_pointer() {
    let mut sink = opened();
    sink.pointer = Pointer { known: true, last: 1, x: 1, y: 2 };
    assert_eq!(sink.store(&continuation(200, 1, 8, 0, b"A")), 0);
    assert_eq!(sink.pointer, Pointer { known: true, last: 1, x: 1, y: 2 });
}

#[test]
fn any_image_type_is_taken() {
    for image_type in 0..=255 {
        let mut sink = Sink::fresh(4);
        assert_eq!(sink.store(&start(1, 1, 4, Start { image_type, ..START }, b"ABCD")), 0);
        assert_eq!(sink.record.image_type, image_type);
    }
}

#[test]
fn total_0_is_complete_once_a_start_is_seen() {
    let mut sink = Sink::fresh(0);
    assert_eq!(sink.complete(), Ok(false));
    assert_eq!(sink.store(&continuation(1, 1, 0, 0, &[])), 0);
    assert_eq!(sink.complete(), Ok(false));
    assert_eq!(sink.store(&start(2, 1, 0, START, &[])), 0);
    assert_eq!(sink.complete(), Ok(true));
}

#[test]
fn completeness_needs_a_start_and_every_place() {
    let mut sink = opened();
    assert_eq!(sink.store(&continuation(1, 1, 8, 6, b"GH")), 0);
    assert_eq!(sink.store(&continuation(1, 1, 8, 0, b"AB")), 0);
    assert_eq!(sink.complete(), Ok(false), "no start was seen");
    assert_eq!(sink.store(&start(1, 1, 8, START, &[])), 0);
    assert_eq!(sink.complete(), Ok(true));
    for place in 0..10 {
        let mut sink = sink.clone();
        sink.marks[place] = 0;
        assert_eq!(sink.complete(), Ok(place >= 8), "place {place}");
        sink.marks[place] = 0xFF;
        assert_eq!(sink.complete(), Ok(true));
    }
}

#[test]
fn a_repeat_is_not_counted_twice() {
    let mut sink = Sink::fresh(8);
    assert_eq!(sink.store(&start(1, 1, 8, START, b"ABCD")), 0);
    assert_eq!(sink.store(&start(1, 1, 8, START, b"ABCD")), 0);
    assert_eq!(sink.complete(), Ok(false));
    assert_eq!(sink.store(&continuation(1, 1, 8, 4, b"EFGH")), 0);
    assert_eq!(sink.complete(), Ok(true));
}

#[test]
fn order_of_checks() {
    // One packet with ever fewer faults, against an opened picture too large for what is lent.
    let mut sink = opened();
    sink.record.total = 11;
    let old = continuation(50, 2, 300_000, -1, b"AB");
    let mut bytes = old.clone();
    bytes[0] = 0;
    bytes[12] = 1;
    bytes[14] = 12;
    assert_eq!(sink.store(&bytes[..14]), 17);
    sink.record.total = 8;
    assert_eq!(sink.store(&bytes[..14]), 1);
    assert_eq!(sink.store(&bytes), 3);
    bytes[0] = 0x80;
    assert_eq!(sink.store(&bytes), 4);
    bytes[12] = 3;
    assert_eq!(sink.store(&bytes), 2);
    bytes[14] = 16;
    assert_eq!(sink.store(&bytes), 1);
    bytes[14] = 14;
    assert_eq!(sink.store(&bytes), 2);
    bytes[14] = 15;
    assert_eq!(bytes, old);
    assert_eq!(sink.store(&bytes), 9);
    bytes[21..25].copy_from_slice(&[0; 4]);
    assert_eq!(sink.store(&bytes), 10);
    bytes[15..19].copy_from_slice(&[0, 0, 0, 9]);
    assert_eq!(sink.store(&bytes), 11);
    bytes[20] = 1;
    assert_eq!(sink.store(&bytes), 12);
    bytes[18] = 8;
    bytes[24] = 2;
    assert_eq!(sink.store(&bytes), 13);
    bytes[24] = 0;
    assert_eq!(sink.store(&bytes), 0);
}
