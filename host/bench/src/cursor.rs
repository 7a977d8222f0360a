//! The cursor stream.

use std::hint::black_box;
use std::ops::Range;

use ashlarsilk::cursor::{self as ours, LARGEST_PICTURE};
use reference::cursor as theirs;

use crate::page::Paged;
use crate::table::{Goal, Table};

/// The most data of a continuation: its PacketMsgSize is 65,535.
const MOST_DATA: usize = 65_535 - 13;
/// The sizes of fragments.
const FRAGMENTS: [usize; 7] = [64, 256, 1024, 1400, 4096, 16_384, MOST_DATA];
/// The sizes of pictures: 16 by 16, 32 by 32, .. 256 by 256 at four bytes.
const PICTURES: [usize; 5] = [1024, 4096, 16_384, 65_536, LARGEST_PICTURE];
/// What a fragment has room for in a packet of 1,500 bytes.
const USUAL: usize = 1400;

/// The header of a cursor packet with PacketMsgSize `size`. Timestamp and SSRC are filled, and both
/// programs have to ignore them (02 §2).
fn header(sequence: u16, kind: u8, size: usize) -> Vec<u8> {
    let mut bytes = vec![0x80, 0];
    bytes.extend(sequence.to_be_bytes());
    bytes.extend([0x11, 0x22, 0x33, 0x44, 0xAA, 0xBB, 0xCC, 0xDD]);
    bytes.push(kind);
    bytes.extend((size as u16).to_be_bytes());
    bytes
}

fn position_packet(sequence: u16) -> Vec<u8> {
    let mut bytes = header(sequence, 1, 7);
    bytes.extend([0, 20, 0, 30]);
    bytes
}

/// A fragment of picture 9: a packet, where its data stand in the packet, and the places of the
/// picture that they cover.
struct Fragment {
    packet: Vec<u8>,
    data: Range<usize>,
    places: Range<usize>,
}

impl Fragment {
    /// A start for the place 0, else a continuation.
    fn of(image: &[u8], places: Range<usize>, sequence: u16) -> Self {
        let data = &image[places.clone()];
        let total = image.len() as u32;
        let mut packet;
        if places.start == 0 {
            packet = header(sequence, 2, 18 + data.len());
            packet.extend(total.to_be_bytes());
            packet.extend([0, 9, 0, 20, 0, 30, 1, 0, 2, 0, 3]);
        } else {
            packet = header(sequence, 3, 13 + data.len());
            packet.extend(total.to_be_bytes());
            packet.extend([0, 9]);
            packet.extend((places.start as u32).to_be_bytes());
        }
        let start = packet.len();
        packet.extend(data);
        Fragment { data: start..packet.len(), packet, places }
    }

    /// The same with another last byte.
    fn conflicting(&self) -> Self {
        let mut packet = self.packet.clone();
        *packet.last_mut().expect("a fragment has data") ^= 1;
        Fragment { packet, data: self.data.clone(), places: self.places.clone() }
    }
}

/// A picture cut into fragments of at most `size` bytes; two pictures of other `tint` differ in every
/// byte.
fn fragments(total: usize, size: usize, tint: u8) -> Vec<Fragment> {
    let image: Vec<u8> = (0..total).map(|place| (place * 7 + place / 251) as u8 ^ tint).collect();
    let size = size.min(MOST_DATA - 5);
    let cut = (0..total)
        .step_by(size)
        .zip(1..)
        .map(|(start, sequence)| Fragment::of(&image, start..total.min(start + size), sequence));
    cut.collect()
}

/// The library's records, picture and marks.
struct Ours {
    pointer: ours::Pointer,
    picture: ours::Picture,
    image: Paged,
    marks: Paged,
}

impl Ours {
    fn new(total: usize) -> Self {
        let (pointer, picture) = (ours::Pointer::fresh(), ours::Picture::fresh());
        Ours { pointer, picture, image: Paged::zeros(total), marks: Paged::zeros(total) }
    }

    fn store(&mut self, fragments: &[Fragment]) {
        for fragment in fragments {
            let Ours { pointer, picture, image, marks } = self;
            let _ =
                black_box(ours::store(pointer, picture, black_box(&fragment.packet), image, marks));
        }
    }
}

/// Plain Rust's.
struct Theirs {
    pointer: theirs::Pointer,
    picture: theirs::Picture,
    image: Paged,
    marks: Paged,
}

impl Theirs {
    fn new(total: usize) -> Self {
        let (pointer, picture) = (theirs::Pointer::fresh(), theirs::Picture::fresh());
        Theirs { pointer, picture, image: Paged::zeros(total), marks: Paged::zeros(total) }
    }

    fn store(&mut self, fragments: &[Fragment]) {
        for fragment in fragments {
            let packet = black_box(&fragment.packet);
            let Theirs { pointer, picture, image, marks } = self;
            if let Ok(records) = black_box(theirs::store(*pointer, *picture, packet, image, marks))
            {
                (self.pointer, self.picture) = records;
            }
        }
    }
}

/// The data of the fragments, copied to their places.
fn copy(fragments: &[Fragment], image: &mut [u8]) {
    for fragment in fragments {
        let data = &black_box(&fragment.packet)[fragment.data.clone()];
        image[fragment.places.clone()].copy_from_slice(data);
    }
    black_box(image);
}

/// Storing the fragments of whole pictures: fresh ones, the same again, and conflicting ones.
pub fn storing(table: &mut Table) {
    for size in FRAGMENTS {
        stored(table, LARGEST_PICTURE, size);
    }
    for total in PICTURES.into_iter().filter(|total| *total < LARGEST_PICTURE) {
        stored(table, total, USUAL);
    }
}

fn stored(table: &mut Table, total: usize, size: usize) {
    let (first, second) = (fragments(total, size, 0), fragments(total, size, 0x5A));
    let conflicting: Vec<Fragment> = second.iter().map(Fragment::conflicting).collect();
    let bytes = first.iter().map(|fragment| fragment.data.len()).max().unwrap_or(0);
    let goal = if bytes >= 16_384 { Goal::Copies(4.0) } else { Goal::Rust };
    let (mut library, mut rust, mut image) =
        (Ours::new(total), Theirs::new(total), Paged::zeros(total));
    let of = format!("of a picture of {total}");

    // Two pictures in turn, so that each finds other bytes. Without an opened picture the first
    // fragment opens it, which clears the marks.
    table.row_with_copy(
        &format!("store a fresh fragment {of}"),
        bytes,
        2 * first.len(),
        goal,
        &mut || {
            for fragments in [&first, &second] {
                library.picture = ours::Picture::fresh();
                library.store(fragments);
            }
        },
        &mut || {
            for fragments in [&first, &second] {
                rust.picture = theirs::Picture::fresh();
                rust.store(fragments);
            }
        },
        &mut || {
            copy(&first, &mut image);
            copy(&second, &mut image);
        },
    );
    assert_eq!((&*library.image, &*library.marks), (&*rust.image, &*rust.marks));
    assert_eq!(*library.image, *image);
    for (work, fragments) in [("a repeated", &second), ("a conflicting", &conflicting)] {
        table.row_with_copy(
            &format!("store {work} fragment {of}"),
            bytes,
            fragments.len(),
            goal,
            &mut || library.store(fragments),
            &mut || rust.store(fragments),
            &mut || copy(fragments, &mut image),
        );
        assert_eq!((&*library.image, &*library.marks), (&*rust.image, &*rust.marks));
    }
}

/// Position packets: one that is newer, and one that is not.
pub fn positions(table: &mut Table) {
    let packets: Vec<Vec<u8>> = (0..64).map(|n| position_packet(n * 1000)).collect();
    let mut pointer = ours::Pointer::fresh();
    let mut other = theirs::Pointer::fresh();
    let (mut n, mut m) = (0, 0);
    table.row(
        "a newer position",
        19,
        &mut || {
            n = (n + 1) % packets.len();
            let _ = black_box(ours::position(&mut pointer, black_box(&packets[n])));
        },
        &mut || {
            m = (m + 1) % packets.len();
            if let Ok(moved) = black_box(theirs::position(other, black_box(&packets[m]))) {
                other = moved;
            }
        },
    );
    let again = &packets[0];
    pointer = ours::Pointer::fresh();
    ours::position(&mut pointer, again).expect("the packet is accepted");
    other = theirs::position(theirs::Pointer::fresh(), again).expect("the packet is accepted");
    table.row(
        "a position that is not newer",
        19,
        &mut || {
            let _ = black_box(ours::position(&mut pointer, black_box(again)));
        },
        &mut || {
            let _ = black_box(theirs::position(other, black_box(again)));
        },
    );
}

/// The completeness question for a picture whose places are all filled, and with the last one empty.
pub fn completeness(table: &mut Table) {
    for total in PICTURES {
        let fragments = fragments(total, USUAL, 0);
        let (mut library, mut rust) = (Ours::new(total), Theirs::new(total));
        library.store(&fragments);
        rust.store(&fragments);
        let mut marks = Paged::zeros(total);
        for (work, last) in [("completeness, yes", 1), ("completeness, the last place empty", 0)] {
            library.marks[total - 1] = last;
            rust.marks[total - 1] = last;
            assert_eq!(
                ours::complete(&library.picture, &library.image, &library.marks),
                Ok(last == 1)
            );
            let goal = if total == LARGEST_PICTURE { Goal::Copies(2.0) } else { Goal::Rust };
            table.row_with_copy(
                work,
                total,
                1,
                goal,
                &mut || {
                    let lent = black_box(&library);
                    let _ = black_box(ours::complete(&lent.picture, &lent.image, &lent.marks));
                },
                &mut || {
                    let lent = black_box(&rust);
                    let _ = black_box(theirs::complete(lent.picture, &lent.image, &lent.marks));
                },
                &mut || {
                    marks.copy_from_slice(black_box(&rust.marks));
                    black_box(&mut marks);
                },
            );
        }
    }
}
