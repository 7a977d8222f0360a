//! The session listing, over bytes in memory and over any input.

mod common;

use std::io::{self, Read};

use common::{accepted_messages, id, message, name, port, tlv, A};
use reference::listing::{lines, list, text, Line};
use reference::Refusal;

/// The 28-byte Stop Projection of paper 01's listing.
fn stop() -> Vec<u8> {
    message(2, &[name(), id(7)])
}

/// The listing from memory, after checking that the listing from an input is the same.
fn listing(recording: &[u8]) -> String {
    let listed = text(recording);
    let mut output = Vec::new();
    let last = list(recording, &mut output).unwrap();
    assert_eq!(String::from_utf8(output).unwrap(), listed);
    assert_eq!(Some(last), lines(recording).last());

    let mut output = Vec::new();
    let trickle = Trickle { left: recording, interrupt: true };
    list(trickle, &mut output).unwrap();
    assert_eq!(String::from_utf8(output).unwrap(), listed);
    listed
}

/// An input that gives one byte at a time and is interrupted before each.
struct Trickle<'a> {
    left: &'a [u8],
    interrupt: bool,
}

impl Read for Trickle<'_> {
    fn read(&mut self, buffer: &mut [u8]) -> io::Result<usize> {
        self.interrupt = !self.interrupt;
        if !self.interrupt {
            return Err(io::ErrorKind::Interrupted.into());
        }
        let (Some(slot), [first, rest @ ..]) = (buffer.first_mut(), self.left) else {
            return Ok(0);
        };
        *slot = *first;
        self.left = rest;
        Ok(1)
    }
}

#[test]
fn the_listing_of_the_paper() {
    let mut recording = A.to_vec();
    recording.extend(stop());
    assert_eq!(recording.len(), 61);
    assert_eq!(listing(&recording), "0 1 33\n33 2 28\nend 61\n");
    recording.push(0);
    assert_eq!(listing(&recording), "0 1 33\n33 2 28\n61 refused 1\n");
}

#[test]
fn an_empty_recording() {
    assert_eq!(listing(&[]), "end 0\n");
}

#[test]
fn one_to_three_bytes_are_1() {
    for length in 1..4 {
        assert_eq!(listing(&[0; 3][..length]), "0 refused 1\n");
    }
}

#[test]
fn a_size_below_4_is_2() {
    for size in 0..4 {
        assert_eq!(listing(&[0, size, 1, 1]), "0 refused 2\n");
        assert_eq!(listing(&[&A[..], &[0, size, 1, 1, 9]].concat()), "0 1 33\n33 refused 2\n");
    }
}

#[test]
fn a_message_cut_short_is_1() {
    for length in 1..33 {
        let recording = [&A[..], &A[..length]].concat();
        assert_eq!(listing(&recording), "0 1 33\n33 refused 1\n");
    }
    // 1 comes before the version and command.
    assert_eq!(listing(&[0, 9, 9, 9]), "0 refused 1\n");
}

#[test]
fn the_place_is_that_of_the_message() {
    for (bytes, number) in [
        (vec![0, 4, 2, 1], 3),
        (vec![0, 4, 1, 7], 4),
        (message(1, &[port(), vec![9]]), 5),
        (message(1, &[port(), tlv(3, &[1])]), 6),
        (message(1, &[port(), port()]), 7),
        (message(1, &[port(), tlv(9, &[])]), 8),
        (message(1, &[port()]), 8),
    ] {
        let recording = [&A[..], &bytes, &A].concat();
        assert_eq!(listing(&recording), format!("0 1 33\n33 refused {number}\n"));
    }
}

#[test]
fn every_command_is_listed() {
    let recording = accepted_messages().concat();
    let mut expected = String::new();
    let mut place = 0;
    for (command, bytes) in (1..).zip(accepted_messages()) {
        expected += &format!("{place} {command} {}\n", bytes.len());
        place += bytes.len();
    }
    expected += &format!("end {place}\n");
    assert_eq!(listing(&recording), expected);
}

#[test]
fn the_largest_messages() {
    let large = message(3, &[tlv(4, &vec![5; 65_528])]);
    let recording = [&large[..], &A, &large].concat();
    assert_eq!(listing(&recording), "0 3 65535\n65535 1 33\n65568 3 65535\nend 131103\n");
}

#[test]
fn a_long_recording_is_listed_message_by_message() {
    /// Gives message A a number of times without holding the recording.
    struct Repeated {
        left: usize,
    }
    impl Read for Repeated {
        fn read(&mut self, buffer: &mut [u8]) -> io::Result<usize> {
            let count = self.left.min(buffer.len());
            for slot in &mut buffer[..count] {
                *slot = A[(33 - self.left % 33) % 33];
                self.left -= 1;
            }
            Ok(count)
        }
    }
    let mut output = Vec::new();
    let last = list(Repeated { left: 33 * 100_000 }, &mut output).unwrap();
    assert_eq!(last, Line::End { place: 3_300_000 });
    assert_eq!(String::from_utf8(output).unwrap().lines().count(), 100_001);
}

#[test]
fn lines_end_after_the_last() {
    let mut all = lines(&[1]);
    assert_eq!(all.next(), Some(Line::Refused { place: 0, number: Refusal::TooFewBytes }));
    assert_eq!(all.next(), None);
    assert_eq!(all.next(), None);
}

#[test]
fn a_fault_of_the_input_is_passed_on() {
    struct Broken;
    impl Read for Broken {
        fn read(&mut self, _: &mut [u8]) -> io::Result<usize> {
            Err(io::Error::other("broken"))
        }
    }
    assert!(list(Broken, io::sink()).is_err());
    assert!(list(A.chain(Broken), io::sink()).is_err());
}
