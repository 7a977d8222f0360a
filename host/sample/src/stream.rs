//! The cursor stream that the sender plays: positions and two pictures in fragments, with loss,
//! repeats, reordering and damaged packets, by a seeded generator.

use std::fmt;
use std::ops::Range;

use crate::damage::Damage;
use crate::packets::{self, Picture};
use crate::random::Random;

/// The data bytes of a fragment, but for the last one of a picture.
const DATA: usize = 1200;

/// The first sequence number: it passes 65,535 soon.
const FIRST_SEQUENCE: u16 = 65_530;

/// The most loss that may be asked for, in percent.
pub const MOST_LOSS: u8 = 90;

/// One thing that is sent.
#[derive(Clone, Debug, PartialEq, Eq)]
pub struct Item {
    /// What it is.
    pub what: What,
    /// The bytes of the packet.
    pub packet: Vec<u8>,
    /// Whether it is lost, that is, not sent.
    pub lost: bool,
}

/// A part of a picture. The one at offset 0 is the start.
#[derive(Clone, Debug, PartialEq, Eq)]
pub struct Fragment {
    /// The picture's id.
    pub id: u16,
    /// The places that it covers.
    pub places: Range<usize>,
}

/// What a packet is.
#[derive(Clone, Debug, PartialEq, Eq)]
pub enum What {
    /// A position newer than everything before.
    Position(i16, i16),
    /// The last position once more.
    PositionAgain,
    /// A position that comes after a newer one.
    PositionOvertaken,
    /// A fragment of the present picture.
    Fragment(Fragment),
    /// A packet with a fragment of the present picture once more.
    Again(Fragment),
    /// A packet with a fragment of the former picture.
    Late(Fragment),
    /// A damaged packet.
    Damaged(Damage),
}

impl fmt::Display for Item {
    fn fmt(&self, f: &mut fmt::Formatter<'_>) -> fmt::Result {
        let lost = if self.lost { "lost: " } else { "" };
        write!(f, "{lost}{}, {} bytes", self.what, self.packet.len())?;
        match packets::sequence(&self.packet) {
            Some(sequence) => write!(f, ", sequence {sequence}"),
            None => Ok(()),
        }
    }
}

impl fmt::Display for What {
    fn fmt(&self, f: &mut fmt::Formatter<'_>) -> fmt::Result {
        match self {
            What::Position(x, y) => write!(f, "position ({x}, {y})"),
            What::PositionAgain => f.pad("again: position"),
            What::PositionOvertaken => f.pad("overtaken: position"),
            What::Fragment(fragment) => fragment.fmt(f),
            What::Again(fragment) => write!(f, "again: {fragment}"),
            What::Late(fragment) => write!(f, "late: {fragment}"),
            What::Damaged(damage) => write!(f, "damaged: {damage}"),
        }
    }
}

impl fmt::Display for Fragment {
    fn fmt(&self, f: &mut fmt::Formatter<'_>) -> fmt::Result {
        let Fragment { id, places: Range { start, end } } = self;
        let kind = if *start == 0 { "start" } else { "continuation" };
        write!(f, "{kind} of picture {id}, places {start} to {end}")
    }
}

/// The two pictures of a stream: a small one, then one of `length` bytes. They are the same for
/// every seed.
pub fn pictures(length: usize) -> [Picture; 2] {
    let picture = |id: u16, hot_spot, length| {
        let mut random = Random::with_seed(id.into());
        let bytes = (0..length).map(|_| random.below(256) as u8).collect();
        Picture { id, image_type: 3, hot_spot, bytes }
    };
    [picture(1, (0, 0), 4000), picture(2, (5, 9), length)]
}

/// The stream of these pictures with so many percent of the fragments and positions lost. What is
/// lost of a picture is sent again in a later round, until all of it was sent.
pub fn stream(pictures: &[Picture; 2], seed: u64, loss: u8) -> Vec<Item> {
    let [former, present] = pictures;
    let mut stream = Stream {
        items: Vec::new(),
        random: Random::with_seed(seed),
        loss: loss.min(MOST_LOSS),
        sequence: FIRST_SEQUENCE,
        pointer: (300, -20),
    };
    stream.position(false);
    stream.picture(former, Vec::new());
    let extras = stream.extras();
    stream.picture(present, extras);
    stream.position(false);
    stream.items
}

/// What is put between the fragments of the second picture, in every stream.
enum Extra {
    PositionAgain,
    PositionOvertaken,
    FragmentAgain,
    FragmentLate,
    Damaged(Damage),
}

struct Stream {
    items: Vec<Item>,
    random: Random,
    loss: u8,
    /// The next sequence number.
    sequence: u16,
    pointer: (i16, i16),
}

impl Stream {
    fn next_sequence(&mut self) -> u16 {
        let sequence = self.sequence;
        self.sequence = sequence.wrapping_add(1);
        sequence
    }

    fn push(&mut self, what: What, packet: Vec<u8>, lost: bool) {
        self.items.push(Item { what, packet, lost });
    }

    /// Moves the pointer, and gives the packet that says so.
    fn moved(&mut self) -> (What, Vec<u8>) {
        let mut step = || self.random.below(21) as i16 - 10;
        let (x, y) = (self.pointer.0 + step(), self.pointer.1 + step());
        self.pointer = (x, y);
        (What::Position(x, y), packets::position(self.next_sequence(), (x, y)))
    }

    fn position(&mut self, lost: bool) {
        let (what, packet) = self.moved();
        self.push(what, packet, lost);
    }

    /// Sends a picture in rounds. Each round has the fragments that were not sent so far, in a
    /// random order, each in a packet with a sequence number of its own.
    fn picture(&mut self, picture: &Picture, mut extras: Vec<Extra>) {
        let mut missing = fragments(picture);
        while !missing.is_empty() {
            let mut round: Vec<_> = missing
                .drain(..)
                .map(|fragment| (self.packet(picture, &fragment), fragment))
                .collect();
            self.random.shuffle(&mut round);
            for (packet, fragment) in round {
                let lost = self.random.percent(self.loss);
                self.push(What::Fragment(fragment.clone()), packet.clone(), lost);
                if lost {
                    missing.push(fragment);
                } else {
                    self.between(picture, packet, fragment, &mut extras);
                }
            }
        }
        while let Some(extra) = extras.pop() {
            self.extra(extra, picture);
        }
    }

    fn packet(&mut self, picture: &Picture, fragment: &Fragment) -> Vec<u8> {
        let (sequence, places) = (self.next_sequence(), fragment.places.clone());
        let data = &picture.bytes[places.clone()];
        match places.start {
            0 => packets::start(sequence, picture, self.pointer, data),
            offset => {
                packets::continuation(sequence, picture.total(), picture.id, offset as i32, data)
            }
        }
    }

    /// What comes after a fragment that was sent.
    fn between(
        &mut self,
        picture: &Picture,
        packet: Vec<u8>,
        fragment: Fragment,
        extras: &mut Vec<Extra>,
    ) {
        if self.random.percent(20) {
            self.push(What::Again(fragment), packet, false);
        }
        if self.random.percent(20) {
            let lost = self.random.percent(self.loss);
            self.position(lost);
        }
        // Some of the extras need a start before them.
        let started = self.sent(picture.id).iter().any(|(_, fragment)| fragment.places.start == 0);
        while started && self.random.percent(60) {
            let Some(extra) = extras.pop() else { break };
            self.extra(extra, picture);
        }
    }

    /// The packets with fragments of this picture that were sent.
    fn sent(&self, id: u16) -> Vec<(&Vec<u8>, &Fragment)> {
        let sent = self.items.iter().filter(|item| !item.lost);
        sent.filter_map(|item| match &item.what {
            What::Fragment(fragment) if fragment.id == id => Some((&item.packet, fragment)),
            _ => None,
        })
        .collect()
    }

    /// One of the packets with a fragment of this picture that were sent.
    fn one_sent(&mut self, id: u16) -> (Vec<u8>, Fragment) {
        let count = self.sent(id).len();
        let index = self.random.below(count);
        let (packet, fragment) = self.sent(id)[index];
        (packet.clone(), fragment.clone())
    }

    fn extras(&mut self) -> Vec<Extra> {
        let mut extras: Vec<_> = Damage::ALL.into_iter().map(Extra::Damaged).collect();
        extras.extend([Extra::PositionAgain, Extra::PositionOvertaken]);
        extras.extend([Extra::FragmentAgain, Extra::FragmentLate]);
        self.random.shuffle(&mut extras);
        extras
    }

    fn extra(&mut self, extra: Extra, picture: &Picture) {
        match extra {
            Extra::PositionAgain => {
                self.position(false);
                let packet = self.items.last().expect("just pushed").packet.clone();
                self.push(What::PositionAgain, packet, false);
            }
            Extra::PositionOvertaken => {
                let (_, older) = self.moved();
                self.position(false);
                self.push(What::PositionOvertaken, older, false);
            }
            Extra::FragmentAgain => {
                let (packet, fragment) = self.one_sent(picture.id);
                self.push(What::Again(fragment), packet, false);
            }
            Extra::FragmentLate => {
                let (packet, fragment) = self.one_sent(1);
                self.push(What::Late(fragment), packet, false);
            }
            Extra::Damaged(damage) => {
                let (_, Fragment { places, .. }) = self.one_sent(picture.id);
                let packet = damage.packet(self.next_sequence(), picture, places);
                self.push(What::Damaged(damage), packet, false);
            }
        }
    }
}

/// The fragments of a picture, by rising offset.
fn fragments(picture: &Picture) -> Vec<Fragment> {
    let (id, length) = (picture.id, picture.bytes.len());
    let starts = (0..length).step_by(DATA);
    starts.map(|start| Fragment { id, places: start..length.min(start + DATA) }).collect()
}

#[cfg(test)]
mod tests {
    use super::*;

    /// Streams of several seeds, losses and lengths.
    fn each(mut check: impl FnMut(&[Picture; 2], &[Item], u8)) {
        for length in [2, DATA, DATA + 1, 20_000, 262_144] {
            let pictures = pictures(length);
            for (seed, loss) in [(1, 0), (2, 30), (3, MOST_LOSS), (u64::MAX, 100)] {
                check(&pictures, &stream(&pictures, seed, loss), loss);
            }
        }
    }

    #[test]
    fn every_fragment_is_sent() {
        each(|pictures, items, _| {
            for picture in pictures {
                for fragment in fragments(picture) {
                    let what = What::Fragment(fragment);
                    assert!(items.iter().any(|item| !item.lost && item.what == what), "{what}");
                }
            }
        });
    }

    #[test]
    fn each_extra_is_sent_after_a_start_of_the_second_picture() {
        each(|_, items, _| {
            let is_start = |item: &Item| matches!(&item.what, What::Fragment(Fragment { id: 2, places }) if places.start == 0);
            let start = items.iter().position(|item| !item.lost && is_start(item)).unwrap();
            for damage in Damage::ALL {
                let what = What::Damaged(damage);
                let places: Vec<_> =
                    (0..items.len()).filter(|&place| items[place].what == what).collect();
                assert!(places.len() == 1 && places[0] > start, "{what}: {places:?}");
            }
            let late = items.iter().position(|item| matches!(item.what, What::Late(_))).unwrap();
            assert!(late > start);
            for what in [What::PositionAgain, What::PositionOvertaken] {
                assert_eq!(items.iter().filter(|item| item.what == what).count(), 1);
            }
        });
    }

    #[test]
    fn loss_is_as_asked() {
        each(|pictures, items, loss| {
            let lost = items.iter().filter(|item| item.lost).count();
            match loss {
                0 => assert_eq!(lost, 0),
                _ if pictures[1].bytes.len() == 262_144 => assert!(lost > 30, "{lost}"),
                _ => {}
            }
        });
    }

    #[test]
    fn sequence_numbers_pass_65535_and_are_out_of_order() {
        let items = stream(&pictures(20_000), 1, 10);
        let sent = items.iter().filter(|item| !item.lost);
        let numbers: Vec<u16> = sent.filter_map(|item| packets::sequence(&item.packet)).collect();
        assert!(numbers.contains(&65_530) && numbers.contains(&1));
        let ahead = numbers.windows(2).filter(|pair| pair[1] != pair[0].wrapping_add(1)).count();
        assert!(ahead > 10, "{numbers:?}");
    }

    #[test]
    fn a_seed_gives_the_same_stream() {
        let pictures = pictures(20_000);
        assert_eq!(stream(&pictures, 5, 20), stream(&pictures, 5, 20));
        assert_ne!(stream(&pictures, 5, 20), stream(&pictures, 6, 20));
    }
}
