//! Each call of the library answers and leaves what the reference does; and a call that looks at
//! what is ignored, or ignores what is looked at, is found.

use ashlarsilk::sys::{cursor_position, cursor_store, Answer};
use compare::{Comparison, PacketCalls, PositionCall, StoreCall, SEED};

#[test]
fn each_call_as_the_reference() {
    let comparison = Comparison::run(SEED);
    println!("{comparison}");
    let faults = comparison.faults();
    assert!(faults.is_empty(), "\n{comparison}\n{}", faults.join("\n"));
    assert!(comparison.compared() > 1_000_000);
}

/// Whether a packet with all of its header has a byte that is not 0 from this place to the end of
/// its SSRC.
fn filled(packet: &[u8], from: usize) -> bool {
    packet.len() >= 15 && packet[from..12].iter().any(|&byte| byte != 0)
}

/// Refusal 3.
const RTP: Answer = Answer { status: 3, place: 0 };

/// The packet with the first half of its timestamp as its sequence number.
fn with_timestamp_as_sequence(packet: &[u8]) -> Vec<u8> {
    let mut packet = packet.to_vec();
    if packet.len() >= 6 {
        packet.copy_within(4..6, 2);
    }
    packet
}

/// The answer with another place, where the packet ends within timestamp or SSRC.
fn with_place(answer: Answer, packet: &[u8]) -> Answer {
    match packet {
        [_, _, _, _, .., last] if packet.len() < 12 => Answer { place: (*last).into(), ..answer },
        _ => answer,
    }
}

/// Puts the last byte of the SSRC into the first of these.
fn keep(packet: &[u8], bytes: &mut [u8]) {
    if let (Some(byte), Some(kept)) = (packet.get(11), bytes.first_mut()) {
        *kept = *byte;
    }
}

/// Wrong calls for positions.
const POSITIONS: [(&str, PositionCall); 5] =
    [
        ("timestamp and SSRC must be 0, as in 01", |pointer, packet| {
            if filled(packet, 4) {
                RTP
            } else {
                cursor_position(pointer, packet)
            }
        }),
        ("the SSRC must be 0", |pointer, packet| {
            if filled(packet, 8) {
                RTP
            } else {
                cursor_position(pointer, packet)
            }
        }),
        ("the sequence number is the timestamp's", |pointer, packet| {
            cursor_position(pointer, &with_timestamp_as_sequence(packet))
        }),
        ("a short packet's place", |pointer, packet| {
            with_place(cursor_position(pointer, packet), packet)
        }),
        ("the SSRC is kept in the pointer", |pointer, packet| {
            let answer = cursor_position(pointer, packet);
            keep(packet, pointer);
            answer
        }),
    ];

/// Wrong calls for starts and continuations.
const STORES: [(&str, StoreCall); 8] = [
    ("timestamp and SSRC must be 0, as in 01", |pointer, picture, packet, image, marks| {
        if filled(packet, 4) {
            RTP
        } else {
            cursor_store(pointer, picture, packet, image, marks)
        }
    }),
    ("the SSRC must be 0", |pointer, picture, packet, image, marks| {
        if filled(packet, 8) {
            RTP
        } else {
            cursor_store(pointer, picture, packet, image, marks)
        }
    }),
    ("the sequence number is the timestamp's", |pointer, picture, packet, image, marks| {
        cursor_store(pointer, picture, &with_timestamp_as_sequence(packet), image, marks)
    }),
    ("a short packet's place", |pointer, picture, packet, image, marks| {
        with_place(cursor_store(pointer, picture, packet, image, marks), packet)
    }),
    ("the SSRC is kept in the pointer", |pointer, picture, packet, image, marks| {
        let answer = cursor_store(pointer, picture, packet, image, marks);
        keep(packet, pointer);
        answer
    }),
    ("the SSRC is kept in the picture's record", |pointer, picture, packet, image, marks| {
        let answer = cursor_store(pointer, picture, packet, image, marks);
        keep(packet, picture);
        answer
    }),
    ("the SSRC is kept in the picture", |pointer, picture, packet, image, marks| {
        let answer = cursor_store(pointer, picture, packet, image, marks);
        keep(packet, image);
        answer
    }),
    ("the SSRC is kept in the marks", |pointer, picture, packet, image, marks| {
        let answer = cursor_store(pointer, picture, packet, image, marks);
        keep(packet, marks);
        answer
    }),
];

/// The packet whose byte at this place is that of sequence number 0, whatever it was.
fn with_byte_ignored(packet: &[u8], place: usize) -> Vec<u8> {
    let mut packet = packet.to_vec();
    if let Some(byte) = packet.get_mut(place) {
        *byte = [0x80, 0, 0, 0][place];
    }
    packet
}

/// A call for positions that ignores the byte at this place.
fn position_ignoring<const PLACE: usize>(pointer: &mut [u8], packet: &[u8]) -> Answer {
    cursor_position(pointer, &with_byte_ignored(packet, PLACE))
}

/// A call for starts and continuations that does.
fn store_ignoring<const PLACE: usize>(
    pointer: &mut [u8],
    picture: &mut [u8],
    packet: &[u8],
    image: &mut [u8],
    marks: &mut [u8],
) -> Answer {
    cursor_store(pointer, picture, &with_byte_ignored(packet, PLACE), image, marks)
}

/// The calls of which a fault says so.
fn with_fault(calls: PacketCalls, words: &str) -> Vec<String> {
    let faults = Comparison::of_packets(calls, SEED, 20_000).faults();
    let saying = faults.iter().filter(|fault| fault.contains(words));
    saying.filter_map(|fault| fault.split_once(": ").map(|(call, _)| call.to_string())).collect()
}

/// 02 §2: a call that looks at timestamp or SSRC is found by the pairs of packets alone.
#[test]
fn a_call_that_looks_at_timestamp_or_ssrc_is_found() {
    let telling_apart = |calls| with_fault(calls, " pairs told apart ");
    let right = PacketCalls::default();
    assert_eq!(telling_apart(right), [""; 0]);
    for (what, position) in POSITIONS {
        let wrong = PacketCalls { position, ..right };
        assert_eq!(telling_apart(wrong), ["cursor_position"], "{what}");
    }
    for (what, store) in STORES {
        let wrong = PacketCalls { store, ..right };
        assert_eq!(telling_apart(wrong), ["cursor_store"], "{what}");
    }
}

/// 02 §2: "the first two are judged as before"; and the sequence number is no field of 3.
#[test]
fn a_call_that_ignores_a_byte_before_the_timestamp_is_found() {
    let differing = |calls| with_fault(calls, " differences in all");
    let right = PacketCalls::default();
    assert_eq!(differing(right), [""; 0]);
    let positions: [PositionCall; 4] = [
        position_ignoring::<0>,
        position_ignoring::<1>,
        position_ignoring::<2>,
        position_ignoring::<3>,
    ];
    let stores: [StoreCall; 4] =
        [store_ignoring::<0>, store_ignoring::<1>, store_ignoring::<2>, store_ignoring::<3>];
    for (place, (position, store)) in positions.into_iter().zip(stores).enumerate() {
        let wrong = PacketCalls { position, ..right };
        assert_eq!(differing(wrong), ["cursor_position"], "byte {place}");
        let wrong = PacketCalls { store, ..right };
        assert_eq!(differing(wrong), ["cursor_store"], "byte {place}");
    }
}
