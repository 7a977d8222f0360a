//! The cursor stream: positions, starts and continuations, completeness; fresh and short records.

mod checking;
mod completeness;
mod positions;
mod storing;

use ashlarsilk::cursor as library;
use ashlarsilk::sys;
use reference::cursor::{Picture, Pointer};

use crate::layout::{self, PICTURE, POINTER};
use crate::random::Random;
use crate::tally::{hex, Call, Tally};
use checking::{any_packet, lent};

pub fn run(tally: &mut Tally, random: &mut Random) {
    fresh(tally, random);
    positions::distances_of_positions(tally, random);
    positions::damaged_positions(tally, random);
    positions::any_packets(tally, random, 100_000);
    storing::distances_of_fragments(tally, random);
    storing::damaged_fragments(tally, random);
    storing::totals_and_offsets(tally, random);
    storing::conflicts_at_each_place(tally, random);
    storing::flags_of_any_byte(tally, random);
    completeness::empty_marks_at_each_place(tally, random);
    storing::any_packets(tally, random, 400_000);
    storing::streams(tally, random);
    storing::any_order(tally, random);
    completeness::large_pictures(tally, random);
    short(tally, random);
}

/// So many packets of any kind for each call that takes packets.
pub fn any_packets(tally: &mut Tally, random: &mut Random, times: usize) {
    positions::any_packets(tally, random, times);
    storing::any_packets(tally, random, times);
}

fn fresh(tally: &mut Tally, random: &mut Random) {
    let wanted = lent(&layout::pointer(&Pointer::fresh()));
    for _ in 0..100 {
        let mut record = lent(&random.array::<POINTER>());
        let status = sys::pointer_fresh(&mut record);
        tally.count(Call::PointerFresh, status.min(18));
        tally.expect(Call::PointerFresh, "answer", (status, &record), (0, &wanted), String::new);
    }
    let wrapped = library::Pointer::fresh();
    let bytes = &wrapped.as_bytes()[..];
    tally.expect(Call::PointerFresh, "wrapped", bytes, &wanted[..POINTER], String::new);

    let wanted = lent(&layout::picture(&Picture::fresh()));
    for _ in 0..100 {
        let mut record = lent(&random.array::<PICTURE>());
        let status = sys::picture_fresh(&mut record);
        tally.count(Call::PictureFresh, status.min(18));
        tally.expect(Call::PictureFresh, "answer", (status, &record), (0, &wanted), String::new);
    }
    let wrapped = library::Picture::fresh();
    let bytes = &wrapped.as_bytes()[..];
    tally.expect(Call::PictureFresh, "wrapped", bytes, &wanted[..PICTURE], String::new);

    for length in 0..PICTURE {
        let before = random.bytes(length);
        let mut record = before.clone();
        let status = sys::picture_fresh(&mut record);
        tally.count_short(Call::PictureFresh);
        tally.expect(Call::PictureFresh, "short", (status, &record), (10, &before), String::new);
        if length < POINTER {
            let status = sys::pointer_fresh(&mut record);
            tally.count_short(Call::PointerFresh);
            tally.expect(
                Call::PointerFresh,
                "short",
                (status, &record),
                (10, &before),
                String::new,
            );
        }
    }
}

/// Records shorter than the layout: 10 before anything else, and nothing is changed.
fn short(tally: &mut Tally, random: &mut Random) {
    for pointer_length in 0..=POINTER {
        for picture_length in 0..=PICTURE {
            if (pointer_length, picture_length) == (POINTER, PICTURE) {
                continue;
            }
            for _ in 0..30 {
                let bytes = any_packet(random);
                let input =
                    || format!("{pointer_length} and {picture_length} bytes with {}", hex(&bytes));
                let before = (random.bytes(pointer_length), random.bytes(picture_length));
                let lent = (random.bytes(6), random.bytes(6));

                let call = Call::CursorStore;
                let (mut pointer, mut picture) = before.clone();
                let (mut image, mut marks) = lent.clone();
                let answer =
                    sys::cursor_store(&mut pointer, &mut picture, &bytes, &mut image, &mut marks);
                tally.count_short(call);
                tally.expect(call, "short", (answer.status, answer.place), (10, 0), input);
                tally.expect(call, "short records", &(pointer, picture), &before, input);
                tally.expect(call, "short: lent bytes", &(image, marks), &lent, input);

                if picture_length < PICTURE {
                    let call = Call::CursorComplete;
                    let answer = sys::cursor_complete(&before.1, &lent.0, &lent.1);
                    tally.count_short(call);
                    tally.expect(call, "short", (answer.status, answer.yes), (10, 0), input);
                }
                if pointer_length < POINTER {
                    let call = Call::CursorPosition;
                    let mut pointer = before.0.clone();
                    let answer = sys::cursor_position(&mut pointer, &bytes);
                    tally.count_short(call);
                    tally.expect(call, "short", (answer.status, answer.place), (10, 0), input);
                    tally.expect(call, "short pointer", &pointer, &before.0, input);
                }
            }
        }
    }
}
