//! What the comparisons of the cursor stream share: what a host keeps, each call compared with the
//! reference on one input, and packets with any faults.

use ashlarsilk::cursor as library;
use ashlarsilk::sys;
use reference::cursor::{self, Picture, Pointer};

use crate::layout::{self, PICTURE, POINTER};
use crate::making::{fragment, packet, position, with_other_unused, Fragment, Kind};
use crate::random::Random;
use crate::tally::{hex, outcome, wrapped, Call, Tally};

/// Sequence numbers at which the order of numbers turns.
pub const TURNS: [u16; 8] = [0, 1, 2, 32_766, 32_767, 32_768, 65_534, 65_535];

/// The fields of a start, where any will do.
pub const START: Kind = Kind::Start { x: 12, y: -10, image_type: 3, hot_x: 18, hot_y: 15 };

/// A record with two bytes after it, which no call may change.
pub fn lent<const N: usize>(record: &[u8; N]) -> Vec<u8> {
    [&record[..], &[0xA5, 0x5A]].concat()
}

/// What a host keeps and lends for the cursor stream.
#[derive(Clone, PartialEq, Eq)]
pub struct Kept {
    pub pointer: [u8; POINTER],
    pub picture: [u8; PICTURE],
    pub image: Vec<u8>,
    pub marks: Vec<u8>,
}

impl Kept {
    /// Fresh records, any bytes in the lent picture and marks.
    pub fn fresh(random: &mut Random, image: usize, marks: usize) -> Self {
        Kept {
            pointer: layout::pointer(&Pointer::fresh()),
            picture: layout::picture(&Picture::fresh()),
            image: random.bytes(image),
            marks: random.bytes(marks),
        }
    }

    /// The same with room for a total, and up to `more` bytes less one after it.
    pub fn with_room(random: &mut Random, total: usize, more: usize) -> Self {
        let (image, marks) = (total + random.below(more), total + random.below(more));
        Self::fresh(random, image, marks)
    }

    /// Where a flag of the records says yes, another byte that does, now and then.
    pub fn other_yes(&mut self, random: &mut Random) {
        random.other_yes(&mut self.pointer[0]);
        random.other_yes(&mut self.picture[0]);
        random.other_yes(&mut self.picture[9]);
    }

    pub fn describe(&self) -> String {
        format!(
            "pointer {}, picture {}, image ({} bytes) {}, marks ({} bytes) {}",
            hex(&self.pointer),
            hex(&self.picture),
            self.image.len(),
            hex(&self.image[..self.image.len().min(40)]),
            self.marks.len(),
            hex(&self.marks[..self.marks.len().min(40)]),
        )
    }
}

/// Compares a position packet, and the same with another timestamp and SSRC; the pointer is then as
/// the reference leaves it.
pub fn check_position(
    tally: &mut Tally,
    random: &mut Random,
    pointer: &mut [u8; POINTER],
    packet: &[u8],
) {
    let call = Call::CursorPosition;
    let before = *pointer;
    let input = || format!("pointer {} with {}", hex(&before), hex(packet));
    let expected = cursor::position(layout::pointer_in(pointer), packet);
    let answer = outcome(&expected);
    tally.count(call, answer.0);
    let left = layout::pointer_left(&before, expected.as_ref().ok());
    let case = if expected.is_ok() { "pointer, position accepted" } else { "pointer, refused" };
    tally.forms.count(call, case, &left);
    *pointer = left.bytes;

    let taking = tally.packet_calls.position;
    let take = |packet: &[u8]| {
        let mut record = [0xA5; POINTER + 2];
        record[..POINTER].copy_from_slice(&before);
        (taking(&mut record, packet), record)
    };
    let given = take(packet);
    let (sys::Answer { status, place }, record) = given;
    tally.expect(call, "answer", (status, place), answer, input);
    tally.expect(call, "pointer", &record[..POINTER], &pointer[..], input);
    tally.expect(call, "bytes after the pointer", &record[POINTER..], &[0xA5; 2][..], input);
    if let Some(other) = with_other_unused(random, packet) {
        let input = || format!("{}, then {}", input(), hex(&other));
        tally.pair(call, answer.0, given, take(&other), input);
    }

    let mut record = library::Pointer::from_bytes(before);
    let given = library::position(&mut record, packet);
    tally.expect(call, "wrapped answer", wrapped(&given), answer, input);
    tally.expect(call, "wrapped pointer", record.as_bytes(), pointer, input);
    check_said_of_pointer(tally, call, &record);
}

/// What the wrapper says of a pointer, and what the reference's record of the same bytes says.
fn check_said_of_pointer(tally: &mut Tally, call: Call, record: &library::Pointer) {
    let pointer = layout::pointer_in(record.as_bytes());
    let said = (record.position(), record.sequence());
    let expected = match pointer {
        Pointer { known: true, last, x, y } => (Some((x, y)), Some(last)),
        _ => (None, None),
    };
    tally.expect(call, "what the pointer says", said, expected, || hex(record.as_bytes()));
}

/// The same of a picture.
fn check_said_of_picture(tally: &mut Tally, call: Call, record: &library::Picture) {
    let picture = layout::picture_in(record.as_bytes());
    let start = library::Start {
        image_type: picture.image_type,
        hot_x: picture.hot_x,
        hot_y: picture.hot_y,
    };
    let opened = library::Opened {
        id: picture.id,
        total: picture.total,
        sequence: picture.opening_sequence,
        start: picture.start_seen.then_some(start),
    };
    let expected = picture.open.then_some(opened);
    tally.expect(call, "what the picture says", record.opened(), expected, || {
        hex(record.as_bytes())
    });
}

/// Compares a start or a continuation, the same with another timestamp and SSRC, then the
/// completeness question; what is kept is then as the reference leaves it. Answers with the number.
pub fn check_store(tally: &mut Tally, random: &mut Random, kept: &mut Kept, packet: &[u8]) -> u8 {
    let call = Call::CursorStore;
    let before = kept.clone();
    let input = || format!("{} with {}", before.describe(), hex(packet));
    let expected = cursor::store(
        layout::pointer_in(&before.pointer),
        layout::picture_in(&before.picture),
        packet,
        &mut kept.image,
        &mut kept.marks,
    );
    let answer = outcome(&expected);
    tally.count(call, answer.0);
    if expected.is_err() {
        let same = *kept == before;
        tally.expect(call, "the reference after a refusal", same, true, input);
    }
    let (pointer, picture) = expected.as_ref().ok().copied().unzip();
    let pointer = layout::pointer_left(&before.pointer, pointer.as_ref());
    let picture = layout::picture_left(&before.picture, picture.as_ref());
    let (of_pointer, of_picture) = match expected {
        Err(_) => ("pointer, refused", "picture, refused"),
        Ok(_) if packet[12] == cursor::START => {
            ("pointer, start accepted", "picture, start accepted")
        }
        Ok(_) => ("pointer, continuation accepted", "picture, continuation accepted"),
    };
    tally.forms.count(call, of_pointer, &pointer);
    tally.forms.count(call, of_picture, &picture);
    kept.pointer = pointer.bytes;
    kept.picture = picture.bytes;

    let taking = tally.packet_calls.store;
    let take = |packet: &[u8]| {
        let (mut pointer, mut picture) = (lent(&before.pointer), lent(&before.picture));
        let (mut image, mut marks) = (before.image.clone(), before.marks.clone());
        let given = taking(&mut pointer, &mut picture, packet, &mut image, &mut marks);
        (given, pointer, picture, image, marks)
    };
    let given = take(packet);
    let (sys::Answer { status, place }, pointer, picture, image, marks) = &given;
    tally.expect(call, "answer", (*status, *place), answer, input);
    tally.expect(call, "pointer", pointer, &lent(&kept.pointer), input);
    tally.expect(call, "picture", picture, &lent(&kept.picture), input);
    tally.expect(call, "image", image, &kept.image, input);
    tally.expect(call, "marks", marks, &kept.marks, input);
    if let Some(other) = with_other_unused(random, packet) {
        let input = || format!("{}, then {}", input(), hex(&other));
        tally.pair(call, answer.0, &given, &take(&other), input);
    }
    let (.., mut image, mut marks) = given;

    let mut pointer = library::Pointer::from_bytes(before.pointer);
    let mut picture = library::Picture::from_bytes(before.picture);
    image.copy_from_slice(&before.image);
    marks.copy_from_slice(&before.marks);
    let given = library::store(&mut pointer, &mut picture, packet, &mut image, &mut marks);
    tally.expect(call, "wrapped answer", wrapped(&given), answer, input);
    tally.expect(call, "wrapped pointer", pointer.as_bytes(), &kept.pointer, input);
    tally.expect(call, "wrapped picture", picture.as_bytes(), &kept.picture, input);
    tally.expect(call, "wrapped image", &image, &kept.image, input);
    tally.expect(call, "wrapped marks", &marks, &kept.marks, input);
    check_said_of_pointer(tally, call, &pointer);
    check_said_of_picture(tally, call, &picture);

    check_complete(tally, kept);
    answer.0
}

/// Compares the completeness question.
pub fn check_complete(tally: &mut Tally, kept: &Kept) {
    let call = Call::CursorComplete;
    let input = || kept.describe();
    let expected = cursor::complete(layout::picture_in(&kept.picture), &kept.image, &kept.marks);
    let answer = outcome(&expected);
    let complete = expected.unwrap_or(false);
    tally.count(call, answer.0);

    let given = sys::cursor_complete(&lent(&kept.picture), &kept.image, &kept.marks);
    tally.expect(call, "answer", (given.status, given.yes), (answer.0, complete.into()), input);
    let picture = library::Picture::from_bytes(kept.picture);
    let given = library::complete(&picture, &kept.image, &kept.marks);
    tally.expect(call, "wrapped answer", wrapped(&given), answer, input);
    tally.expect(call, "wrapped yes", given.unwrap_or(false), complete, input);
}

/// A packet for small pictures, with any number of faults.
pub fn any_packet(random: &mut Random) -> Vec<u8> {
    let sequence = random.pick(&TURNS);
    let length = random.below(5);
    let data: Vec<u8> = (0..length).map(|_| random.below(2) as u8).collect();
    let kind = if random.once_in(3) {
        Kind::Start {
            x: random.number() as i16,
            y: random.number() as i16,
            image_type: random.pick(&[3, 3, 3, 1]),
            hot_x: random.pick(&[18, 18, 18, 1]),
            hot_y: random.pick(&[15, 15, 15, 1]),
        }
    } else {
        Kind::Continuation { offset: random.pick(&[0, 0, 1, 1, 2, 3, 4, -1, i32::MAX, i32::MIN]) }
    };
    let fields = Fragment {
        sequence,
        id: 6 + random.below(3) as u16,
        total: random.pick(&[0, 3, 4, 4, 4, 5, 5, 6, 262_145, u32::MAX]),
        kind,
    };
    let mut bytes = fragment(random, fields, &data);
    if random.once_in(10) {
        bytes = position(random, sequence, 1, 2);
    }
    if random.once_in(30) {
        let (kind, length) = (random.pick(&[0, 1, 2, 3, 4, 255]), random.below(24));
        let body = random.bytes(length);
        bytes = packet(random, sequence, kind, &body);
    }
    if random.once_in(12) {
        let place = random.below(bytes.len());
        bytes[place] = random.byte();
    }
    if random.once_in(12) {
        let place = random.below(15);
        bytes[place] ^= 1 << random.below(8);
    }
    match random.below(24) {
        0 => bytes.truncate(random.below(bytes.len() + 1)),
        1 => bytes.push(random.byte()),
        _ => {}
    }
    bytes
}
