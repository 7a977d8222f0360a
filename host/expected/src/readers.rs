//! What `run_packets` must print: what each reader of cursor packets answers, on fresh records.
//!
//! The reference reads packets in its calls only. On a fresh pointer the call for positions refuses
//! what their reader refuses. On fresh records, with room for the largest picture, the call for
//! fragments does so too, but for a larger total, which no packet here has.

use reference::cursor::{self, Picture, Pointer, LARGEST_PICTURE, START};
use reference::refusal::{Refusal, Refused};

use crate::cursor::{picture_text, pointer_numbers};
use crate::packets::{continuation, position, start, Start};

fn packets() -> [Vec<u8>; 10] {
    let p9 = position(5, -2, 10);
    let p10 = |offset, data| continuation(5, 8, 1, offset, data);
    let two_bytes_of = |total| start(30, total, 9, Start(-2, 10, 3, 1, 2), b"AB");
    let with = |place: usize, byte| {
        let mut bytes = p9.clone();
        bytes[place] = byte;
        bytes
    };
    [
        p9.clone(),
        p10(8, b""),
        p10(7, b"AB"),
        p10(-1, b""),
        two_bytes_of(4),
        two_bytes_of(1),
        Vec::new(),
        with(0, 0x90),
        with(12, 4),
        [with(14, 8), vec![0]].concat(),
    ]
}

fn hex(bytes: &[u8]) -> String {
    bytes.iter().map(|byte| format!("{byte:02x}")).collect()
}

/// A reader's answer: what is accepted in words, or the refusal with its place.
fn answer(answer: Result<String, Refused>) -> String {
    match answer {
        Ok(record) => format!("accepted {record}"),
        Err(refused) => format!("refused {} {}", refused.number as u8, refused.place),
    }
}

fn read_position(packet: &[u8]) -> Result<String, Refused> {
    let set = cursor::position(Pointer::fresh(), packet)?;
    Ok(format!("{} {} {}", set.last, set.x, set.y))
}

/// The offset of an accepted fragment stands at place 21 of a continuation; a start's is 0.
fn offset(packet: &[u8]) -> u32 {
    match packet[12] {
        START => 0,
        _ => packet[21..25].iter().fold(0, |offset, byte| offset << 8 | u32::from(*byte)),
    }
}

fn read_fragment(packet: &[u8]) -> Result<String, Refused> {
    let places = LARGEST_PICTURE as usize;
    let (mut image, mut marks) = (vec![0; places], vec![0; places]);
    let (pointer, record) = (Pointer::fresh(), Picture::fresh());
    let stored = cursor::store(pointer, record, packet, &mut image, &mut marks);
    assert_ne!(stored, Err(Refusal::NoRoom.into()));
    let q = stored?.1;
    let (sequence, place) = (q.opening_sequence, offset(packet));
    let start = format!("{} {} {} {}", q.start_seen as u8, q.image_type, q.hot_x, q.hot_y);
    Ok(format!("{sequence} {} {} {place} {start}", q.total, q.id))
}

fn call_position(packet: &[u8]) -> Result<String, Refused> {
    cursor::position(Pointer::fresh(), packet).map(pointer_numbers)
}

/// The call for fragments with eight places, and the bytes of the picture and the marks after it.
fn call_store(packet: &[u8]) -> String {
    let (mut image, mut marks) = ([46; 8], [7; 8]);
    let (pointer, record) = (Pointer::fresh(), Picture::fresh());
    let stored = cursor::store(pointer, record, packet, &mut image, &mut marks)
        .map(|(pointer, record)| pointer_numbers(pointer) + &picture_text(record));
    format!("{} bytes {} marks {}", answer(stored), hex(&image), hex(&marks))
}

pub fn lines() -> String {
    packets()
        .map(|packet| {
            format!(
                "{}:\nposition {}\nfragment {}\npointer {}\nstore {}\n",
                hex(&packet),
                answer(read_position(&packet)),
                answer(read_fragment(&packet)),
                answer(call_position(&packet)),
                call_store(&packet),
            )
        })
        .concat()
}
