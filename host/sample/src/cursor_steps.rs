//! The receiver's cursor stream: each packet is given to the calls, and each step is told in a line.

use ashlarsilk::cursor::{self, Opened, Picture, Pointer, Start};
use ashlarsilk::Refused;

use crate::checksum::Checksum;
use crate::packets;

/// The records of a cursor stream, and what a host lends with them.
pub struct CursorSteps {
    pointer: Pointer,
    picture: Picture,
    image: Vec<u8>,
    marks: Vec<u8>,
    /// The completed picture that was announced last.
    announced: Option<Opened>,
}

impl CursorSteps {
    /// Before the first packet of a stream, with room for the largest picture.
    pub fn fresh() -> Self {
        CursorSteps {
            pointer: Pointer::fresh(),
            picture: Picture::fresh(),
            image: vec![0; cursor::LARGEST_PICTURE],
            marks: vec![0; cursor::LARGEST_PICTURE],
            announced: None,
        }
    }

    /// Takes a packet, and gives the lines to show.
    pub fn packet(&mut self, packet: &[u8]) -> Vec<String> {
        let (answer, stored) = match packets::kind(packet) {
            Some(1) => (cursor::position(&mut self.pointer, packet), false),
            // Starts, continuations, and what is neither: the call refuses it.
            _ => (self.store(packet), true),
        };
        let words = match answer {
            Ok(()) => "accepted".to_string(),
            Err(refused) => format!("refused: {refused}"),
        };
        let mut lines = vec![format!("{}: {words}; {}", described(packet), self.state())];
        if stored && answer.is_ok() {
            lines.extend(self.announce());
        }
        lines
    }

    fn store(&mut self, packet: &[u8]) -> Result<(), Refused> {
        let CursorSteps { pointer, picture, image, marks, .. } = self;
        cursor::store(pointer, picture, packet, image, marks)
    }

    /// Asks whether the opened picture is complete, and says so once.
    fn announce(&mut self) -> Option<String> {
        let opened = self.picture.opened()?;
        let complete = match cursor::complete(&self.picture, &self.image, &self.marks) {
            Ok(complete) => complete,
            Err(refused) => return Some(format!("is it complete? refused: {refused}")),
        };
        let Start { image_type, hot_x, hot_y } = opened.start?;
        if !complete || self.announced == Some(opened) {
            return None;
        }
        self.announced = Some(opened);
        let Opened { id, total, .. } = opened;
        let checksum = Checksum::of(&self.image[..total as usize]);
        Some(format!(
            "picture {id} is complete: {total} bytes, image type {image_type}, hot spot ({hot_x}, \
             {hot_y}), checksum {checksum}"
        ))
    }

    /// What the records say, and the checksum of both records, the lent picture and the marks: as
    /// long as it stays, nothing was changed.
    fn state(&self) -> String {
        let pointer = match self.pointer.position() {
            Some((x, y)) => format!("pointer ({x}, {y})"),
            None => "no pointer".to_string(),
        };
        let picture = match self.picture.opened() {
            Some(Opened { id, total, .. }) => format!("picture {id} of {total} bytes"),
            None => "no picture".to_string(),
        };
        let all = Checksum::of(self.pointer.as_bytes())
            .and(self.picture.as_bytes())
            .and(&self.image)
            .and(&self.marks);
        format!("{pointer}, {picture}, state {all}")
    }
}

/// The kind of a packet, its length and its sequence number.
fn described(packet: &[u8]) -> String {
    let kind = match packets::kind(packet) {
        Some(1) => "position".to_string(),
        Some(2) => "start".to_string(),
        Some(3) => "continuation".to_string(),
        Some(other) => format!("packet of type {other}"),
        None => "packet without a type".to_string(),
    };
    match packets::sequence(packet) {
        Some(sequence) => format!("{kind}, {} bytes, sequence {sequence}", packet.len()),
        None => format!("{kind}, {} bytes", packet.len()),
    }
}

#[cfg(test)]
mod tests {
    use super::*;

    fn picture(id: u16, bytes: &[u8]) -> packets::Picture {
        packets::Picture { id, image_type: 3, hot_spot: (5, 6), bytes: bytes.to_vec() }
    }

    /// The number of lines that each packet gives: a second one announces a picture.
    #[test]
    fn a_completed_picture_is_announced_once() {
        let mut steps = CursorSteps::fresh();
        let first = picture(1, b"abcd");
        let start = packets::start(8, &first, (1, 2), b"ab");
        assert_eq!(steps.packet(&packets::continuation(9, 4, 1, 2, b"cd")).len(), 1);
        let lines = steps.packet(&start);
        let complete = "picture 1 is complete: 4 bytes, image type 3, hot spot (5, 6), checksum ";
        assert_eq!(lines[1], format!("{complete}{}", Checksum::of(b"abcd")));
        assert_eq!(steps.packet(&start).len(), 1);
        assert_eq!(steps.packet(&packets::position(10, (3, 4))).len(), 1);
        // Another picture with the same bytes is another one.
        let second = picture(2, b"abcd");
        assert_eq!(steps.packet(&packets::start(11, &second, (1, 2), b"abcd")).len(), 2);
    }

    /// Where no picture is opened yet, a position gives its line alone.
    #[test]
    fn a_position_before_any_picture() {
        let mut steps = CursorSteps::fresh();
        let lines = steps.packet(&packets::position(5, (-2, 10)));
        assert_eq!(lines.len(), 1);
        let begin =
            "position, 19 bytes, sequence 5: accepted; pointer (-2, 10), no picture, state ";
        assert!(lines[0].starts_with(begin), "{lines:?}");
    }

    #[test]
    fn any_bytes_are_described() {
        assert_eq!(described(&[]), "packet without a type, 0 bytes");
        assert_eq!(described(&[1; 12]), "packet without a type, 12 bytes, sequence 257");
        assert_eq!(described(&[0; 13]), "packet of type 0, 13 bytes, sequence 0");
    }
}
