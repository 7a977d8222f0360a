//! The cursor stream: the pointer's position, and a cursor picture put together from fragments
//! that come in any order and any number of times. Of a packet's RTP header timestamp and SSRC are
//! not looked at (02 §2).

use std::fmt;

use crate::refusal::Refused;
use crate::sys;

/// The largest total of a picture: 256 by 256 at four bytes.
pub const LARGEST_PICTURE: usize = 262_144;

/// The record of the pointer's position.
///
/// It is kept in the layout that the library reads and writes, [`Pointer::LENGTH`] bytes; numbers
/// are little-endian:
///
/// | Place | Bytes | |
/// |---|---|---|
/// | 0 | 1 | whether a position is known; where it isn't, the rest is not looked at |
/// | 1 | 2 | the sequence number of the packet that set it |
/// | 3 | 2 | x, two's complement |
/// | 5 | 2 | y, two's complement |
///
/// Two records are equal if they say the same.
#[derive(Clone, Copy)]
pub struct Pointer {
    record: [u8; Pointer::LENGTH],
}

impl Pointer {
    /// The number of bytes of the layout.
    pub const LENGTH: usize = 7;

    /// The pointer whose position is not known: every byte is 0, as `ashlarsilk_pointer_fresh` writes
    /// them.
    ///
    /// ```
    /// use ashlarsilk::cursor::Pointer;
    /// assert_eq!(Pointer::fresh().position(), None);
    /// ```
    pub const fn fresh() -> Self {
        Pointer { record: [0; Self::LENGTH] }
    }

    /// The pointer in these bytes, whatever they are.
    pub const fn from_bytes(record: [u8; Self::LENGTH]) -> Self {
        Pointer { record }
    }

    /// The bytes of the record.
    pub const fn as_bytes(&self) -> &[u8; Self::LENGTH] {
        &self.record
    }

    /// The position, x then y, if it is known.
    pub fn position(&self) -> Option<(i16, i16)> {
        let [known, _, _, x0, x1, y0, y1] = self.record;
        (known != 0).then_some((i16::from_le_bytes([x0, x1]), i16::from_le_bytes([y0, y1])))
    }

    /// The sequence number of the packet that set the position, if it is known.
    pub fn sequence(&self) -> Option<u16> {
        let [known, s0, s1, ..] = self.record;
        (known != 0).then_some(u16::from_le_bytes([s0, s1]))
    }
}

impl Default for Pointer {
    fn default() -> Self {
        Pointer::fresh()
    }
}

impl PartialEq for Pointer {
    fn eq(&self, other: &Self) -> bool {
        (self.position(), self.sequence()) == (other.position(), other.sequence())
    }
}

impl Eq for Pointer {}

impl fmt::Debug for Pointer {
    fn fmt(&self, f: &mut fmt::Formatter<'_>) -> fmt::Result {
        f.debug_struct("Pointer")
            .field("position", &self.position())
            .field("sequence", &self.sequence())
            .finish()
    }
}

/// What a picture record says of the opened picture.
#[derive(Clone, Copy, Debug, PartialEq, Eq, Hash)]
pub struct Opened {
    /// The picture's id.
    pub id: u16,
    /// The number of its bytes.
    pub total: u32,
    /// The sequence number of the packet that opened it.
    pub sequence: u16,
    /// The start's own fields, once a start was seen.
    pub start: Option<Start>,
}

/// The own fields of a start.
#[derive(Clone, Copy, Debug, PartialEq, Eq, Hash)]
pub struct Start {
    /// The image type.
    pub image_type: u8,
    /// The hot spot's x.
    pub hot_x: u16,
    /// The hot spot's y.
    pub hot_y: u16,
}

/// The record of the opened picture. Beside it the host lends the picture's bytes, and marks, one
/// byte a place: zero means empty, else filled.
///
/// It is kept in the layout that the library reads and writes, [`Picture::LENGTH`] bytes; numbers
/// are little-endian:
///
/// | Place | Bytes | |
/// |---|---|---|
/// | 0 | 1 | whether a picture is opened; where none is, the rest is not looked at |
/// | 1 | 2 | its id |
/// | 3 | 4 | its total |
/// | 7 | 2 | the sequence number of the packet that opened it |
/// | 9 | 1 | whether a start was seen; where none was, the rest is not looked at |
/// | 10 | 1 | the start's image type |
/// | 11 | 2 | the start's hot spot, x |
/// | 13 | 2 | and y |
///
/// Two records are equal if they say the same.
#[derive(Clone, Copy)]
pub struct Picture {
    record: [u8; Picture::LENGTH],
}

impl Picture {
    /// The number of bytes of the layout.
    pub const LENGTH: usize = 15;

    /// The record without an opened picture: every byte is 0, as `ashlarsilk_picture_fresh` writes
    /// them.
    ///
    /// ```
    /// use ashlarsilk::cursor::Picture;
    /// assert_eq!(Picture::fresh().opened(), None);
    /// ```
    pub const fn fresh() -> Self {
        Picture { record: [0; Self::LENGTH] }
    }

    /// The record in these bytes, whatever they are.
    pub const fn from_bytes(record: [u8; Self::LENGTH]) -> Self {
        Picture { record }
    }

    /// The bytes of the record.
    pub const fn as_bytes(&self) -> &[u8; Self::LENGTH] {
        &self.record
    }

    /// What is known of the opened picture, if one is opened.
    pub fn opened(&self) -> Option<Opened> {
        let [opened, i0, i1, t0, t1, t2, t3, s0, s1, seen, image_type, x0, x1, y0, y1] =
            self.record;
        let start = Start {
            image_type,
            hot_x: u16::from_le_bytes([x0, x1]),
            hot_y: u16::from_le_bytes([y0, y1]),
        };
        (opened != 0).then_some(Opened {
            id: u16::from_le_bytes([i0, i1]),
            total: u32::from_le_bytes([t0, t1, t2, t3]),
            sequence: u16::from_le_bytes([s0, s1]),
            start: (seen != 0).then_some(start),
        })
    }
}

impl Default for Picture {
    fn default() -> Self {
        Picture::fresh()
    }
}

impl PartialEq for Picture {
    fn eq(&self, other: &Self) -> bool {
        self.opened() == other.opened()
    }
}

impl Eq for Picture {}

impl fmt::Debug for Picture {
    fn fmt(&self, f: &mut fmt::Formatter<'_>) -> fmt::Result {
        f.debug_struct("Picture").field("opened", &self.opened()).finish()
    }
}

/// Takes a position packet, and sets the pointer. Refusals: 1 to 4 and 11; they change nothing.
///
/// ```
/// use ashlarsilk::cursor::{self, Pointer};
/// use ashlarsilk::Refusal;
///
/// let packet = [0x80, 0, 0, 5, 0, 0, 0, 0, 0, 0, 0, 0, 1, 0, 7, 0xFF, 0xFE, 0, 10];
/// let mut pointer = Pointer::fresh();
/// cursor::position(&mut pointer, &packet)?;
/// assert_eq!(pointer.position(), Some((-2, 10)));
///
/// // The same packet once more is not newer.
/// let refused = cursor::position(&mut pointer, &packet).unwrap_err();
/// assert_eq!(refused.refusal, Refusal::NotNewer);
/// # Ok::<(), ashlarsilk::Refused>(())
/// ```
#[inline]
pub fn position(pointer: &mut Pointer, packet: &[u8]) -> Result<(), Refused> {
    let answer = sys::cursor_position(&mut pointer.record, packet);
    Refused::check(answer.status, answer.place)
}

/// Takes a start or a continuation: stores its data in `image`, and marks the places that it
/// fills. A fragment of another id opens a picture if it is newer; a newer start moves the pointer.
/// Refusals: 1 to 4, 9 to 13 and 17; they change nothing. No byte of `image` or `marks` at or
/// beyond the total is changed. A record that the fragment leaves the same keeps each of its bytes.
///
/// ```
/// use ashlarsilk::cursor::{self, Picture, Pointer};
/// use ashlarsilk::Refusal;
///
/// let (mut pointer, mut picture) = (Pointer::fresh(), Picture::fresh());
/// let (mut image, mut marks) = ([0; 4], [0; 4]);
/// // A continuation of picture 9, total 4, with the bytes `c`, `d` at offset 2.
/// let mut packet = vec![0x80, 0, 0, 1, 0, 0, 0, 0, 0, 0, 0, 0, 3, 0, 15];
/// packet.extend([0, 0, 0, 4, 0, 9, 0, 0, 0, 2, b'c', b'd']);
/// cursor::store(&mut pointer, &mut picture, &packet, &mut image, &mut marks)?;
/// assert_eq!((&image, &marks), (b"\0\0cd", &[0, 0, 1, 1]));
/// assert_eq!(picture.opened().unwrap().total, 4);
///
/// // A filled place would get another byte.
/// packet[26] = b'x';
/// let refused =
///     cursor::store(&mut pointer, &mut picture, &packet, &mut image, &mut marks).unwrap_err();
/// assert_eq!(refused.refusal, Refusal::Conflict);
/// assert_eq!(&image, b"\0\0cd");
/// # Ok::<(), ashlarsilk::Refused>(())
/// ```
#[inline]
pub fn store(
    pointer: &mut Pointer,
    picture: &mut Picture,
    packet: &[u8],
    image: &mut [u8],
    marks: &mut [u8],
) -> Result<(), Refused> {
    let answer = sys::cursor_store(&mut pointer.record, &mut picture.record, packet, image, marks);
    Refused::check(answer.status, answer.place)
}

/// Whether the opened picture is complete: a start was seen and every place is filled; no where no
/// picture is opened. Refusal: 17.
///
/// ```
/// use ashlarsilk::cursor::{self, Picture, Pointer};
///
/// let (mut pointer, mut picture) = (Pointer::fresh(), Picture::fresh());
/// let (mut image, mut marks) = ([0; 2], [0; 2]);
/// assert!(!cursor::complete(&picture, &image, &marks)?);
///
/// // A start of picture 9, total 2, at the position (3, 4), with all of its data.
/// let mut packet = vec![0x80, 0, 0, 1, 0, 0, 0, 0, 0, 0, 0, 0, 2, 0, 20];
/// packet.extend([0, 0, 0, 2, 0, 9, 0, 3, 0, 4, 1, 0, 0, 0, 0, b'a', b'b']);
/// cursor::store(&mut pointer, &mut picture, &packet, &mut image, &mut marks)?;
/// assert!(cursor::complete(&picture, &image, &marks)?);
/// assert_eq!(pointer.position(), Some((3, 4)));
/// # Ok::<(), ashlarsilk::Refused>(())
/// ```
#[inline]
pub fn complete(picture: &Picture, image: &[u8], marks: &[u8]) -> Result<bool, Refused> {
    let answer = sys::cursor_complete(&picture.record, image, marks);
    Refused::check(answer.status, 0)?;
    Ok(answer.yes != 0)
}
