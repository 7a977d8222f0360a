//! The exported calls, over lent bytes: the only module with `unsafe`.
//!
//! Each function lends its slices to the call of the same name in libashlarsilk.a and gives its
//! answer back as it is. They are safe for every argument:
//!
//! - A slice goes as its pointer, then its length in bytes, which is what the library's `&[u8]`
//!   and `&mut [u8]` are to a C caller. The call reads and writes inside these bounds only; that
//!   it does so for any bytes and any lengths is proved with the library.
//! - No call needs a least length: a record shorter than its layout is refused with 10.
//! - A slice that the call may write is a `&mut`, so by Rust's borrow rules it overlaps no other
//!   slice of the call, and nobody else reads or writes it meanwhile.
//! - The pointer of an empty slice is not null (it dangles, and no byte is read through it).
//! - The library keeps nothing after a call, so any thread may call with its own slices.
//! - Nothing in the library unwinds.
//!
//! A yes or no is taken as a byte, so that no value of it could be an invalid `bool`.

/// The status of a call, 0 or a refusal number, and the place of a refusal.
#[repr(C)]
#[derive(Clone, Copy, Debug, PartialEq, Eq)]
pub struct Answer {
    /// 0 for accepted, otherwise the refusal number.
    pub status: u8,
    /// The place of a refusal.
    pub place: usize,
}

/// The status of a writer, and the number of bytes it wrote, 0 where it refused.
#[repr(C)]
#[derive(Clone, Copy, Debug, PartialEq, Eq)]
pub struct Written {
    /// 0 for accepted, otherwise the refusal number.
    pub status: u8,
    /// The number of bytes written.
    pub size: usize,
}

/// The status of a step of the session.
#[repr(C)]
#[derive(Clone, Copy, Debug, PartialEq, Eq)]
pub struct Step {
    /// 0 for accepted, otherwise the refusal number.
    pub status: u8,
    /// 1 where the host is to check the PIN, otherwise 0.
    pub check: u8,
    /// The place of a refusal.
    pub place: usize,
}

/// A number asked for, 0 where there is none.
#[repr(C)]
#[derive(Clone, Copy, Debug, PartialEq, Eq)]
pub struct Number {
    /// 0 for accepted, otherwise the refusal number.
    pub status: u8,
    /// The number.
    pub value: u16,
}

/// A question answered by yes (1) or no (0); no where it is refused.
#[repr(C)]
#[derive(Clone, Copy, Debug, PartialEq, Eq)]
pub struct Yes {
    /// 0 for accepted, otherwise the refusal number.
    pub status: u8,
    /// 1 for yes, 0 for no.
    pub yes: u8,
}

mod exports {
    use super::{Answer, Number, Step, Written, Yes};

    extern "C" {
        pub fn ashlarsilk_message_read(
            bytes: *const u8,
            bytes_length: usize,
            record: *mut u8,
            record_length: usize,
        ) -> Answer;
        pub fn ashlarsilk_message_write(
            bytes: *const u8,
            bytes_length: usize,
            record: *const u8,
            record_length: usize,
            out: *mut u8,
            out_length: usize,
        ) -> Written;
        pub fn ashlarsilk_message_rtsp_port(
            bytes: *const u8,
            bytes_length: usize,
            record: *const u8,
            record_length: usize,
        ) -> Number;
        pub fn ashlarsilk_message_security_options(
            bytes: *const u8,
            bytes_length: usize,
            record: *const u8,
            record_length: usize,
        ) -> Number;
        pub fn ashlarsilk_message_source_id(
            bytes: *const u8,
            bytes_length: usize,
            record: *const u8,
            record_length: usize,
            id: *mut u8,
            id_length: usize,
        ) -> Yes;
        pub fn ashlarsilk_session_fresh(record: *mut u8, record_length: usize) -> u8;
        pub fn ashlarsilk_session_step(
            record: *mut u8,
            record_length: usize,
            event: u8,
            source: *const u8,
            source_length: usize,
            options: u8,
        ) -> Step;
        pub fn ashlarsilk_session_message(
            record: *mut u8,
            record_length: usize,
            bytes: *const u8,
            bytes_length: usize,
        ) -> Step;
        pub fn ashlarsilk_limits_read(
            text: *const u8,
            text_length: usize,
            record: *mut u8,
            record_length: usize,
        ) -> Answer;
        pub fn ashlarsilk_limits_write(
            record: *const u8,
            record_length: usize,
            out: *mut u8,
            out_length: usize,
        ) -> Written;
        pub fn ashlarsilk_pointer_fresh(pointer: *mut u8, pointer_length: usize) -> u8;
        pub fn ashlarsilk_picture_fresh(picture: *mut u8, picture_length: usize) -> u8;
        pub fn ashlarsilk_cursor_position(
            pointer: *mut u8,
            pointer_length: usize,
            packet: *const u8,
            packet_length: usize,
        ) -> Answer;
        pub fn ashlarsilk_cursor_store(
            pointer: *mut u8,
            pointer_length: usize,
            picture: *mut u8,
            picture_length: usize,
            packet: *const u8,
            packet_length: usize,
            image: *mut u8,
            image_length: usize,
            marks: *mut u8,
            marks_length: usize,
        ) -> Answer;
        pub fn ashlarsilk_cursor_complete(
            picture: *const u8,
            picture_length: usize,
            image: *const u8,
            image_length: usize,
            marks: *const u8,
            marks_length: usize,
        ) -> Yes;
    }
}

/// Reads a message, which is all of `bytes`, into the record.
#[inline]
pub fn message_read(bytes: &[u8], record: &mut [u8]) -> Answer {
    // SAFETY: as the module says: pointers and lengths of borrowed slices.
    unsafe {
        exports::ashlarsilk_message_read(
            bytes.as_ptr(),
            bytes.len(),
            record.as_mut_ptr(),
            record.len(),
        )
    }
}

/// Writes the message of a record, whose values stand in `bytes`, to `out`.
#[inline]
pub fn message_write(bytes: &[u8], record: &[u8], out: &mut [u8]) -> Written {
    // SAFETY: as the module says: pointers and lengths of borrowed slices.
    unsafe {
        exports::ashlarsilk_message_write(
            bytes.as_ptr(),
            bytes.len(),
            record.as_ptr(),
            record.len(),
            out.as_mut_ptr(),
            out.len(),
        )
    }
}

/// The RTSP port, or 0 where there is none.
#[inline]
pub fn message_rtsp_port(bytes: &[u8], record: &[u8]) -> Number {
    // SAFETY: as the module says: pointers and lengths of borrowed slices.
    unsafe {
        exports::ashlarsilk_message_rtsp_port(
            bytes.as_ptr(),
            bytes.len(),
            record.as_ptr(),
            record.len(),
        )
    }
}

/// The option byte, or 0 where there is none.
#[inline]
pub fn message_security_options(bytes: &[u8], record: &[u8]) -> Number {
    // SAFETY: as the module says: pointers and lengths of borrowed slices.
    unsafe {
        exports::ashlarsilk_message_security_options(
            bytes.as_ptr(),
            bytes.len(),
            record.as_ptr(),
            record.len(),
        )
    }
}

/// Whether there is a Source ID; if so, it is copied to the first 16 bytes of `id`.
#[inline]
pub fn message_source_id(bytes: &[u8], record: &[u8], id: &mut [u8]) -> Yes {
    // SAFETY: as the module says: pointers and lengths of borrowed slices.
    unsafe {
        exports::ashlarsilk_message_source_id(
            bytes.as_ptr(),
            bytes.len(),
            record.as_ptr(),
            record.len(),
            id.as_mut_ptr(),
            id.len(),
        )
    }
}

/// Writes the session of a new connection.
#[inline]
pub fn session_fresh(record: &mut [u8]) -> u8 {
    // SAFETY: as the module says: pointers and lengths of borrowed slices.
    unsafe { exports::ashlarsilk_session_fresh(record.as_mut_ptr(), record.len()) }
}

/// A step with an event; with a message `source` is empty where it carries no Source ID, and with
/// any other event it is not looked at.
#[inline]
pub fn session_step(record: &mut [u8], event: u8, source: &[u8], options: u8) -> Step {
    // SAFETY: as the module says: pointers and lengths of borrowed slices.
    unsafe {
        exports::ashlarsilk_session_step(
            record.as_mut_ptr(),
            record.len(),
            event,
            source.as_ptr(),
            source.len(),
            options,
        )
    }
}

/// A step with a message, which is all of `bytes`.
#[inline]
pub fn session_message(record: &mut [u8], bytes: &[u8]) -> Step {
    // SAFETY: as the module says: pointers and lengths of borrowed slices.
    unsafe {
        exports::ashlarsilk_session_message(
            record.as_mut_ptr(),
            record.len(),
            bytes.as_ptr(),
            bytes.len(),
        )
    }
}

/// Reads a cursor limits value, which is all of `text`, into the record.
#[inline]
pub fn limits_read(text: &[u8], record: &mut [u8]) -> Answer {
    // SAFETY: as the module says: pointers and lengths of borrowed slices.
    unsafe {
        exports::ashlarsilk_limits_read(
            text.as_ptr(),
            text.len(),
            record.as_mut_ptr(),
            record.len(),
        )
    }
}

/// Writes the value of a record to `out`.
#[inline]
pub fn limits_write(record: &[u8], out: &mut [u8]) -> Written {
    // SAFETY: as the module says: pointers and lengths of borrowed slices.
    unsafe {
        exports::ashlarsilk_limits_write(record.as_ptr(), record.len(), out.as_mut_ptr(), out.len())
    }
}

/// Writes the pointer whose position is not known.
#[inline]
pub fn pointer_fresh(pointer: &mut [u8]) -> u8 {
    // SAFETY: as the module says: pointers and lengths of borrowed slices.
    unsafe { exports::ashlarsilk_pointer_fresh(pointer.as_mut_ptr(), pointer.len()) }
}

/// Writes the record without an opened picture.
#[inline]
pub fn picture_fresh(picture: &mut [u8]) -> u8 {
    // SAFETY: as the module says: pointers and lengths of borrowed slices.
    unsafe { exports::ashlarsilk_picture_fresh(picture.as_mut_ptr(), picture.len()) }
}

/// Takes a position packet.
#[inline]
pub fn cursor_position(pointer: &mut [u8], packet: &[u8]) -> Answer {
    // SAFETY: as the module says: pointers and lengths of borrowed slices.
    unsafe {
        exports::ashlarsilk_cursor_position(
            pointer.as_mut_ptr(),
            pointer.len(),
            packet.as_ptr(),
            packet.len(),
        )
    }
}

/// Takes a start or a continuation.
#[inline]
pub fn cursor_store(
    pointer: &mut [u8],
    picture: &mut [u8],
    packet: &[u8],
    image: &mut [u8],
    marks: &mut [u8],
) -> Answer {
    // SAFETY: as the module says: pointers and lengths of borrowed slices.
    unsafe {
        exports::ashlarsilk_cursor_store(
            pointer.as_mut_ptr(),
            pointer.len(),
            picture.as_mut_ptr(),
            picture.len(),
            packet.as_ptr(),
            packet.len(),
            image.as_mut_ptr(),
            image.len(),
            marks.as_mut_ptr(),
            marks.len(),
        )
    }
}

/// Whether the opened picture is complete.
#[inline]
pub fn cursor_complete(picture: &[u8], image: &[u8], marks: &[u8]) -> Yes {
    // SAFETY: as the module says: pointers and lengths of borrowed slices.
    unsafe {
        exports::ashlarsilk_cursor_complete(
            picture.as_ptr(),
            picture.len(),
            image.as_ptr(),
            image.len(),
            marks.as_ptr(),
            marks.len(),
        )
    }
}
