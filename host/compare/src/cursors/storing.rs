//! Starts and continuations: the order of sequence numbers, damaged packets, totals and offsets,
//! conflicts, streams, and the same fragments in any order.

use reference::cursor::{Picture, Pointer};

use super::checking::{
    any_packet, check_complete, check_position, check_store, Kept, START, TURNS,
};
use crate::layout::{self, POINTER};
use crate::making::{fragment, position, Fragment, Kind};
use crate::random::Random;
use crate::tally::{hex, Call, Tally};

/// Every sequence number: fragments that would open a picture after several opening ones, and
/// starts after several last ones of the pointer.
pub fn distances_of_fragments(tally: &mut Tally, random: &mut Random) {
    for opening in [0, 1, 32_768, 65_535, random.number() as u16] {
        for sequence in 0..=u16::MAX {
            let mut kept = Kept::fresh(random, 3, 4);
            kept.pointer = layout::pointer(&Pointer {
                known: !random.once_in(5),
                last: random.pick(&[opening, opening.wrapping_add(100), 40_000]),
                x: 1,
                y: 2,
            });
            kept.picture = layout::picture(&Picture {
                open: !random.once_in(8),
                id: random.pick(&[6, 6, 7]),
                total: random.pick(&[2, 2, 3]),
                opening_sequence: opening,
                ..Picture::fresh()
            });
            let kind = if random.flag() { START } else { Kind::Continuation { offset: 1 } };
            let data = [random.byte()];
            let bytes = fragment(random, Fragment { sequence, id: 7, total: 2, kind }, &data);
            check_store(tally, random, &mut kept, &bytes);
        }
    }
}

/// Pictures in several states: none, the fragment's own, another, one that is not held.
fn states(random: &mut Random) -> Vec<Kept> {
    let own = Picture {
        open: true,
        id: 7,
        total: 6,
        opening_sequence: 900,
        start_seen: true,
        image_type: 3,
        hot_x: 18,
        hot_y: 15,
    };
    let records = [
        Picture::fresh(),
        own,
        Picture { start_seen: false, image_type: 9, ..own },
        Picture { id: 8, ..own },
        Picture { id: 8, opening_sequence: 1_500, ..own },
        Picture { total: 8, ..own },
        Picture { total: 9, ..own },
        Picture { open: false, total: 9, ..own },
    ];
    records
        .into_iter()
        .map(|record| {
            let mut kept = Kept::fresh(random, 8, 8);
            kept.picture = layout::picture(&record);
            kept.marks.iter_mut().for_each(|mark| *mark = random.pick(&[0, 0, 1, 9]));
            kept
        })
        .collect()
}

/// Starts and continuations truncated at every length, longer, with each byte damaged in every
/// way, and of every size.
pub fn damaged_fragments(tally: &mut Tally, random: &mut Random) {
    for kind in [START, Kind::Continuation { offset: 2 }, Kind::Continuation { offset: 6 }] {
        for state in states(random) {
            let length = if matches!(kind, Kind::Continuation { offset: 6 }) { 0 } else { 3 };
            let fields = Fragment { sequence: 1_000, id: 7, total: 6, kind };
            let data = random.bytes(length);
            let mut bytes = fragment(random, fields, &data);
            for length in 0..=bytes.len() {
                check_store(tally, random, &mut state.clone(), &bytes[..length]);
                // The size that the shorter packet has.
                let mut shorter = bytes[..length].to_vec();
                if length >= 15 {
                    shorter[13..15].copy_from_slice(&(length as u16 - 12).to_be_bytes());
                }
                check_store(tally, random, &mut state.clone(), &shorter);
            }
            for place in 0..bytes.len() {
                let kept = bytes[place];
                for byte in 0..=255 {
                    bytes[place] = byte;
                    check_store(tally, random, &mut state.clone(), &bytes);
                }
                bytes[place] = kept;
            }
            bytes.push(random.byte());
            check_store(tally, random, &mut state.clone(), &bytes);
        }
        let mut bytes = fragment(random, Fragment { sequence: 1_000, id: 7, total: 6, kind }, &[]);
        let state = Kept::fresh(random, 8, 8);
        for size in 0..=u16::MAX {
            bytes[13..15].copy_from_slice(&size.to_be_bytes());
            check_store(tally, random, &mut state.clone(), &bytes);
        }
    }
}

/// Totals, offsets and data around the lengths of the lent picture and marks, for no picture, the
/// same picture and another one.
pub fn totals_and_offsets(tally: &mut Tally, random: &mut Random) {
    let totals = [0, 1, 2, 7, 8, 9, 10, 262_143, 262_144, 262_145, 1 << 31, u32::MAX];
    let offsets =
        [0, 1, 6, 7, 8, 9, 10, -1, -2, i32::MIN, i32::MAX, i32::MAX - 1, 262_144, 65_536, -65_536];
    for total in totals {
        for offset in offsets {
            for length in 0..4 {
                for (image, marks) in [(8, 8), (7, 8), (8, 7), (9, 12), (0, 0), (8, 0)] {
                    for open in [0, 1, 2] {
                        let mut kept = Kept::fresh(random, image, marks);
                        kept.picture = layout::picture(&Picture {
                            open: open > 0,
                            id: 6 + open,
                            total: random.pick(&[total, total, 7, 8, 9, 300_000]),
                            ..Picture::fresh()
                        });
                        for kind in [Kind::Continuation { offset }, START] {
                            let fields = Fragment { sequence: 1, id: 7, total, kind };
                            let data = random.bytes(length);
                            let bytes = fragment(random, fields, &data);
                            check_store(tally, random, &mut kept.clone(), &bytes);
                        }
                    }
                }
            }
        }
    }
    // The largest total, and one more, with room for both.
    for total in 262_143..=262_146 {
        for offset in [0, 262_140, 262_141, 262_142, 262_143, 262_144, 262_145] {
            for (image, marks) in [(262_150, 262_150), (262_144, 262_144), (262_143, 262_144)] {
                let mut kept = Kept::fresh(random, image, marks);
                let kind = Kind::Continuation { offset };
                let fields = Fragment { sequence: 1, id: 7, total, kind };
                let bytes = fragment(random, fields, &[1, 2, 3]);
                check_store(tally, random, &mut kept, &bytes);
                kept.picture[3..7].copy_from_slice(&total.to_le_bytes());
                kept.picture[0] = 1;
                check_complete(tally, &kept);
                check_store(tally, random, &mut kept, &bytes);
            }
        }
    }
}

/// Fragments of many lengths at many offsets over filled and empty places: with no differing byte,
/// and with one at each place, the mark there filled or empty.
pub fn conflicts_at_each_place(tally: &mut Tally, random: &mut Random) {
    let lengths = (0..36).chain([47, 48, 49, 63, 64, 65, 66, 95, 96, 97, 127, 128, 129, 130, 200]);
    for length in lengths {
        for offset in [0, 1, 3, 8, 15, 16, 17] {
            let total = offset + length + random.below(3);
            let mut kept = Kept::with_room(random, total, 2);
            kept.picture = layout::picture(&Picture {
                open: true,
                id: 7,
                total: total as u32,
                ..Picture::fresh()
            });
            // All places filled, or some, or one alone.
            let filled = random.below(3);
            for mark in &mut kept.marks {
                *mark = match filled {
                    0 => random.pick(&[1, 1, 2, 128, 255]),
                    1 => random.pick(&[0, 1, 255]),
                    _ => 0,
                };
            }
            let kind = Kind::Continuation { offset: offset as i32 };
            let fields = Fragment { sequence: 1, id: 7, total: total as u32, kind };
            let same = kept.image[offset..offset + length].to_vec();
            let bytes = fragment(random, fields, &same);
            check_store(tally, random, &mut kept.clone(), &bytes);
            for place in 0..length {
                let mut data = same.clone();
                data[place] ^= 1 << random.below(8);
                for mark in [0, 1, random.byte()] {
                    let mut kept = kept.clone();
                    kept.marks[offset + place] = mark;
                    let bytes = fragment(random, fields, &data);
                    check_store(tally, random, &mut kept, &bytes);
                }
            }
        }
    }
}

/// Flags of many bytes, with fragments that change the pointer and the picture's record, one of
/// them or none: continuations, first and repeated starts, newer than the pointer and not, of the
/// opened picture and another. Each is taken twice.
pub fn flags_of_any_byte(tally: &mut Tally, random: &mut Random) {
    const FLAGS: [u8; 7] = [0, 1, 2, 7, 127, 128, 255];
    let mut kept = Kept::fresh(random, 8, 8);
    let opened = Picture { id: 7, total: 6, opening_sequence: 400, ..Picture::fresh() };
    let seen = Picture { image_type: 3, hot_x: 18, hot_y: 15, ..opened };
    for record in [opened, seen] {
        kept.pointer = layout::pointer(&Pointer { known: true, last: 500, x: 12, y: -10 });
        kept.picture = layout::picture(&record);
        for flags in 0..FLAGS.len().pow(3) {
            kept.pointer[0] = FLAGS[flags % 7];
            kept.picture[0] = FLAGS[flags / 7 % 7];
            kept.picture[9] = FLAGS[flags / 49];
            for (sequence, id) in [(500, 7), (501, 7), (300, 7), (401, 8), (501, 8), (400, 8)] {
                for (kind, place) in [
                    (START, 0),
                    (Kind::Continuation { offset: 0 }, 0),
                    (Kind::Continuation { offset: 2 }, 2),
                ] {
                    for length in [0, 4] {
                        // What stands there, so that no place conflicts.
                        let data = &kept.image[place..place + length];
                        let fields = Fragment { sequence, id, total: 6, kind };
                        let bytes = fragment(random, fields, data);
                        let mut kept = kept.clone();
                        check_store(tally, random, &mut kept, &bytes);
                        check_store(tally, random, &mut kept, &bytes);
                    }
                }
            }
        }
    }
}

/// So many packets of any kind, with records in any state, pictures and marks of any length.
pub fn any_packets(tally: &mut Tally, random: &mut Random, times: usize) {
    for _ in 0..times {
        let mut pointer: [u8; POINTER] = random.array();
        pointer[0] = random.pick(&[0, 1, 1, 2, 7, 255]);
        pointer[1..3].copy_from_slice(&random.pick(&TURNS).to_le_bytes());
        let mut picture = layout::picture(&Picture {
            open: true,
            id: 6 + random.below(3) as u16,
            total: random.pick(&[0, 3, 4, 4, 4, 5, 5, 6, 262_145, u32::MAX]),
            opening_sequence: random.pick(&TURNS),
            start_seen: true,
            image_type: random.pick(&[3, 3, 3, 1]),
            hot_x: random.pick(&[18, 18, 18, 1]),
            hot_y: random.pick(&[15, 15, 15, 1]),
        });
        picture[0] = random.pick(&[0, 1, 1, 1, 7, 77, 255]);
        picture[9] = random.pick(&[0, 1, 1, 7, 77, 255]);
        let (image, marks) = (random.pick(&[0, 3, 4, 5, 6, 7]), random.pick(&[0, 4, 5, 6, 7]));
        let mut kept = Kept {
            pointer,
            picture,
            image: (0..image).map(|_| random.below(2) as u8).collect(),
            marks: (0..marks).map(|_| random.pick(&[0, 0, 1, 9])).collect(),
        };
        let bytes = any_packet(random);
        check_store(tally, random, &mut kept, &bytes);
    }
}

/// Streams of calls on the same records: several pictures after one another, late fragments of a
/// former one, repeats, conflicts, damaged packets and positions among them.
pub fn streams(tally: &mut Tally, random: &mut Random) {
    for _ in 0..4_000 {
        let (image, marks) = (8 + random.below(4), 8 + random.below(4));
        let mut kept = Kept::fresh(random, image, marks);
        let mut sequence = random.number() as u16;
        let first = random.number() as u16;
        for _ in 0..40 {
            // Packets of the present and the former two pictures, now and then reordered.
            sequence = sequence.wrapping_add(random.below(4) as u16);
            let late = sequence.wrapping_sub(random.pick(&[0, 0, 1, 2, 5, 300, 32_768]));
            let id = first.wrapping_add((sequence / 16).wrapping_sub(random.below(3) as u16));
            let total = 4 + u32::from(id % 5) + u32::from(random.once_in(30));
            let length = random.below(4);
            let offset = random.below(total as usize);
            let kind = if random.once_in(4) {
                START
            } else {
                Kind::Continuation { offset: offset as i32 }
            };
            let at = if matches!(kind, Kind::Start { .. }) { 0 } else { offset };
            let data: Vec<u8> = (at..at + length)
                .map(|place| if random.once_in(60) { 1 } else { (place as u8) << 3 ^ id as u8 })
                .collect();
            let mut bytes = fragment(random, Fragment { sequence: late, id, total, kind }, &data);
            if random.once_in(10) {
                let place = random.below(bytes.len());
                bytes[place] = random.byte();
            }
            check_store(tally, random, &mut kept, &bytes);
            kept.other_yes(random);
            if random.once_in(4) {
                let bytes = position(random, late, 3, 4);
                check_position(tally, random, &mut kept.pointer, &bytes);
            }
        }
    }
}

/// Demand 3: the fragments of a whole picture in any order and any number of times, with refused
/// calls among them, are accepted and leave the same.
pub fn any_order(tally: &mut Tally, random: &mut Random) {
    for _ in 0..2_000 {
        let total = random.below(60);
        let whole = random.bytes(total);
        let fragments: Vec<Vec<u8>> = (0..1 + random.below(9))
            .map(|_| {
                let from = random.below(total + 1);
                let to = from + random.below(total - from + 1);
                let (kind, from, to) = match random.below(4) {
                    0 => (START, 0, to - from),
                    _ => (Kind::Continuation { offset: from as i32 }, from, to),
                };
                let sequence = random.number() as u16;
                let fields = Fragment { sequence, id: 7, total: total as u32, kind };
                fragment(random, fields, &whole[from..to])
            })
            .collect();
        let opener = Kind::Continuation { offset: 0 };
        let opener = Fragment { sequence: 1, id: 7, total: total as u32, kind: opener };
        let mut opened = Kept::with_room(random, total, 2);
        let bytes = fragment(random, opener, &[]);
        check_store(tally, random, &mut opened, &bytes);
        if random.once_in(4) {
            let bytes = fragment(random, Fragment { kind: START, ..opener }, &[]);
            check_store(tally, random, &mut opened, &bytes);
        }
        opened.other_yes(random);

        let mut left: Vec<Kept> = Vec::new();
        for _ in 0..2 {
            let mut order: Vec<usize> = (0..fragments.len()).collect();
            order.extend((0..random.below(6)).map(|_| random.below(fragments.len())));
            random.shuffle(&mut order);
            let mut kept = opened.clone();
            for index in order {
                if random.once_in(3) {
                    let other = Fragment { total: total as u32 + 1, ..opener };
                    let bytes = fragment(random, other, &[]);
                    check_store(tally, random, &mut kept, &bytes);
                }
                let number = check_store(tally, random, &mut kept, &fragments[index]);
                let input = || hex(&fragments[index]);
                tally.expect(Call::CursorStore, "a fragment in any order", number, 0, input);
            }
            left.push(kept);
        }
        // The pointer depends on the order of starts; the rest doesn't.
        let same = left[0].image == left[1].image
            && left[0].marks == left[1].marks
            && left[0].picture == left[1].picture;
        let input = || format!("{} and {}", left[0].describe(), left[1].describe());
        tally.expect(Call::CursorStore, "the same for any order", same, true, input);
    }
}
