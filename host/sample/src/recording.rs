//! How the sender plays a recording of connection messages.

use ashlarsilk::Command;

use crate::cutting::HEADER;
use crate::random::Random;

/// The largest piece that is sent at once.
const LARGEST_PIECE: usize = 79;

/// The place in the recording at which the cursor stream is played: before a Stop Projection at
/// its end, so that the cursor moves while the session projects; otherwise at the end.
pub fn place_of_cursor_stream(recording: &[u8]) -> usize {
    let mut place = 0;
    while let &[s1, s0, _, command, ..] = &recording[place..] {
        let size = usize::from(u16::from_be_bytes([s1, s0]));
        if place + size == recording.len() && Command(command) == Command::STOP_PROJECTION {
            return place;
        }
        if size < HEADER || place + size >= recording.len() {
            break;
        }
        place += size;
    }
    recording.len()
}

/// Cuts bytes into pieces of odd lengths that don't look at messages.
pub fn pieces<'a>(mut bytes: &'a [u8], random: &mut Random) -> Vec<&'a [u8]> {
    let mut pieces = Vec::new();
    while !bytes.is_empty() {
        let length = 2 * random.below(LARGEST_PIECE / 2 + 1) + 1;
        let (piece, rest) = bytes.split_at(length.min(bytes.len()));
        pieces.push(piece);
        bytes = rest;
    }
    pieces
}

#[cfg(test)]
mod tests {
    use super::*;

    const READY: [u8; 5] = [0, 5, 1, 1, 0];
    const STOP: [u8; 6] = [0, 6, 1, 2, 0, 0];

    #[test]
    fn only_a_stop_at_the_end_waits_for_the_cursor_stream() {
        let place = |messages: &[&[u8]]| place_of_cursor_stream(&messages.concat());
        assert_eq!(place(&[&READY, &STOP]), 5);
        assert_eq!(place(&[&STOP]), 0);
        assert_eq!(place(&[&STOP, &READY]), 11);
        assert_eq!(place(&[&READY, &STOP, &[0]]), 12);
        assert_eq!(place(&[&READY, &STOP[..5]]), 10);
        assert_eq!(place(&[&[0, 3, 1, 2], &STOP]), 10);
        assert_eq!(place(&[&[0, 3, 1]]), 3);
        assert_eq!(place(&[]), 0);
    }

    #[test]
    fn pieces_are_the_bytes() {
        let bytes: Vec<u8> = (0..=255).cycle().take(2000).collect();
        let pieces = pieces(&bytes, &mut Random::with_seed(1));
        assert_eq!(pieces.concat(), bytes);
        let (_, all_but_last) = pieces.split_last().unwrap();
        assert!(all_but_last.iter().all(|piece| piece.len() % 2 == 1));
        assert!(pieces.iter().all(|piece| (1..=LARGEST_PIECE).contains(&piece.len())));
    }
}
