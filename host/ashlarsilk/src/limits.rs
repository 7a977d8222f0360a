//! The value of the cursor limits parameter, `microsoft_cursor`.

use std::fmt;

use crate::refusal::Refused;
use crate::sys;

/// What the limits record of a sink that supports the extension says.
#[derive(Clone, Copy, Debug, PartialEq, Eq, Hash)]
pub struct Supported {
    /// Whether the sink can do the XOR operation of monochrome and color mask cursors.
    pub xor: bool,
    /// The largest width, in pixels.
    pub width: u16,
    /// The largest height, in pixels.
    pub height: u16,
    /// The UDP port for the cursor packets.
    pub port: u16,
}

/// The record of a cursor limits value.
///
/// It is kept in the layout that the library reads and writes, [`Limits::LENGTH`] bytes; numbers
/// are little-endian:
///
/// | Place | Bytes | |
/// |---|---|---|
/// | 0 | 1 | whether the sink supports the extension; where it doesn't, the rest is not looked at |
/// | 1 | 1 | whether it can do the XOR operation |
/// | 2 | 2 | the largest width |
/// | 4 | 2 | the largest height |
/// | 6 | 2 | the UDP port |
///
/// Two records are equal if they say the same.
#[derive(Clone, Copy)]
pub struct Limits {
    record: [u8; Limits::LENGTH],
}

impl Limits {
    /// The number of bytes of the layout.
    pub const LENGTH: usize = 8;

    /// The most bytes of a written value.
    pub const LONGEST_TEXT: usize = 19;

    /// The limits of a sink that does not support the extension: every byte is 0.
    ///
    /// ```
    /// use ashlarsilk::Limits;
    /// assert_eq!(Limits::not_supported().supported(), None);
    /// ```
    pub const fn not_supported() -> Self {
        Limits { record: [0; Self::LENGTH] }
    }

    /// The limits of a sink that supports the extension.
    ///
    /// ```
    /// use ashlarsilk::{Limits, Supported};
    ///
    /// const LIMITS: Limits =
    ///     Limits::new(Supported { xor: true, width: 256, height: 128, port: 50001 });
    /// assert_eq!(LIMITS.as_bytes(), &[1, 1, 0, 1, 128, 0, 0x51, 0xC3]);
    /// ```
    pub const fn new(supported: Supported) -> Self {
        let Supported { xor, width, height, port } = supported;
        // As one number, so that it is stored at once: the library then reads it without a stall.
        let numbers = (port as u64) << 48 | (height as u64) << 32 | (width as u64) << 16;
        Limits { record: (numbers | (xor as u64) << 8 | 1).to_le_bytes() }
    }

    /// The limits in these bytes, whatever they are.
    ///
    /// ```
    /// use ashlarsilk::Limits;
    ///
    /// // Where the extension is not supported, the rest is not looked at.
    /// let limits = Limits::from_bytes([0, 1, 0, 1, 128, 0, 0x51, 0xC3]);
    /// assert_eq!(limits, Limits::not_supported());
    /// ```
    pub const fn from_bytes(record: [u8; Self::LENGTH]) -> Self {
        Limits { record }
    }

    /// The bytes of the record.
    pub const fn as_bytes(&self) -> &[u8; Self::LENGTH] {
        &self.record
    }

    /// The limits of the cursors, if the sink supports the extension.
    ///
    /// ```
    /// use ashlarsilk::{Limits, Supported};
    ///
    /// // Any flag byte but 0 means yes.
    /// let limits = Limits::from_bytes([9, 7, 0, 1, 128, 0, 0x51, 0xC3]);
    /// let supported = Supported { xor: true, width: 256, height: 128, port: 50001 };
    /// assert_eq!(limits.supported(), Some(supported));
    /// ```
    pub fn supported(&self) -> Option<Supported> {
        let [supported, xor, w0, w1, h0, h1, p0, p1] = self.record;
        (supported != 0).then_some(Supported {
            xor: xor != 0,
            width: u16::from_le_bytes([w0, w1]),
            height: u16::from_le_bytes([h0, h1]),
            port: u16::from_le_bytes([p0, p1]),
        })
    }

    /// Reads a value, which is all of `text`. Refusal: 16.
    ///
    /// ```
    /// use ashlarsilk::{Limits, Refusal, Supported};
    ///
    /// // The four digits 0100 are hexadecimal: 256 pixels.
    /// let limits = Limits::read(b"full 0100 0100 C351")?;
    /// let supported = Supported { xor: true, width: 256, height: 256, port: 50001 };
    /// assert_eq!(limits.supported(), Some(supported));
    /// assert_eq!(Limits::read(b"NONE")?, Limits::not_supported());
    /// assert_eq!(Limits::read(b"full 256 256").unwrap_err().refusal, Refusal::NotGrammar);
    /// # Ok::<(), ashlarsilk::Refused>(())
    /// ```
    #[inline]
    pub fn read(text: &[u8]) -> Result<Limits, Refused> {
        let mut record = [0; Self::LENGTH];
        let answer = sys::limits_read(text, &mut record);
        Refused::check(answer.status, answer.place)?;
        Ok(Limits { record })
    }

    /// Writes the value to `out`, and answers the number of bytes written: 4 or 19. Refusal: 10,
    /// which changes no byte of `out`. No byte after the value is changed.
    ///
    /// ```
    /// use ashlarsilk::{Limits, Refusal, Supported};
    ///
    /// let limits = Limits::new(Supported { xor: false, width: 256, height: 128, port: 50001 });
    /// let mut out = [b'.'; 20];
    /// assert_eq!(limits.write(&mut out), Ok(19));
    /// assert_eq!(&out, b"none 0100 0080 C351.");
    /// assert_eq!(limits.write(&mut out[..18]).unwrap_err().refusal, Refusal::NoRoom);
    /// ```
    #[inline]
    pub fn write(&self, out: &mut [u8]) -> Result<usize, Refused> {
        let written = sys::limits_write(&self.record, out);
        // Where the library refuses, the size is 0, and so is the place of a writer's refusal.
        Refused::check(written.status, written.size)?;
        Ok(written.size)
    }
}

impl PartialEq for Limits {
    fn eq(&self, other: &Self) -> bool {
        self.supported() == other.supported()
    }
}

impl Eq for Limits {}

impl fmt::Debug for Limits {
    fn fmt(&self, f: &mut fmt::Formatter<'_>) -> fmt::Result {
        f.debug_struct("Limits").field("supported", &self.supported()).finish()
    }
}
