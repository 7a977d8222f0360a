//! Completeness: each place empty in turn, and whole pictures up to the largest.

use ashlarsilk::sys;
use reference::cursor::Picture;

use super::checking::{check_complete, check_store, Kept, START};
use crate::layout;
use crate::making::{fragment, Fragment, Kind};
use crate::random::Random;
use crate::tally::{Call, Tally};

/// Completeness with each place empty in turn, for many totals; marks beyond the total are not
/// looked at, and a mark of any number but 0 is filled.
pub fn empty_marks_at_each_place(tally: &mut Tally, random: &mut Random) {
    for total in (0..140).chain([255, 256, 257, 300]) {
        for beyond in [0, 1, 20] {
            let mut kept = Kept::fresh(random, total + beyond, total + beyond);
            let mut record = Picture { open: true, id: 7, total: total as u32, ..Picture::fresh() };
            record.start_seen = true;
            kept.picture = layout::picture(&record);
            let value = random.pick(&[1, 2, 127, 128, 255]);
            kept.marks.fill(value);
            kept.marks[total..].fill(0);
            check_complete(tally, &kept);
            for place in 0..total {
                kept.marks[place] = 0;
                check_complete(tally, &kept);
                kept.marks[place] = random.pick(&[1, 2, 127, 128, 255]);
            }
            for (open, seen) in [(0, 0), (0, 1), (1, 0), (255, 255)] {
                kept.picture[0] = open;
                kept.picture[9] = seen;
                check_complete(tally, &kept);
            }
            kept.picture[0] = 1;
            kept.image.truncate(total.saturating_sub(random.below(2)));
            check_complete(tally, &kept);
            kept.image.resize(total + 1, 0);
            kept.marks.truncate(total.saturating_sub(1));
            check_complete(tally, &kept);
        }
    }
}

/// Pictures up to the largest, in packets up to the largest, out of order, with one conflict.
pub fn large_pictures(tally: &mut Tally, random: &mut Random) {
    for total in [65_535, 65_536, 200_000, 262_143, 262_144] {
        let whole = random.bytes(total);
        let mut kept = Kept::with_room(random, total, 9);
        let mut places: Vec<(usize, usize)> = Vec::new();
        let mut from = 0;
        while from < total {
            let to = total.min(from + random.pick(&[1, 1_400, 8_192, 30_000, 65_522]));
            places.push((from, to));
            from = to;
        }
        random.shuffle(&mut places);
        for (count, &(from, to)) in places.iter().enumerate() {
            let kind = match from {
                0 if to <= 65_517 => START,
                _ => Kind::Continuation { offset: from as i32 },
            };
            let fields = Fragment { sequence: count as u16, id: 7, total: total as u32, kind };
            let bytes = fragment(random, fields, &whole[from..to]);
            check_store(tally, random, &mut kept, &bytes);
            if count < 10 {
                check_store(tally, random, &mut kept, &bytes);
                let mut other = bytes.clone();
                *other.last_mut().expect("a byte") ^= 1;
                check_store(tally, random, &mut kept, &other);
            }
        }
        let start = Fragment { sequence: 9, id: 7, total: total as u32, kind: START };
        let bytes = fragment(random, start, &whole[..5]);
        check_store(tally, random, &mut kept, &bytes);
        let complete = sys::cursor_complete(&kept.picture, &kept.image, &kept.marks).yes == 1;
        let same = kept.image[..total] == whole;
        let input = || format!("the picture of {total} bytes");
        tally.expect(
            Call::CursorComplete,
            "the whole picture",
            (complete, same),
            (true, true),
            input,
        );
    }
}
