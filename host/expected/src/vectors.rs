//! What `vectors` must print: the messages of section 4 of 000 and 001 with P1 to P6 of 01, then
//! the limits values and the cursor packets of 003 section 4, and the packets for 02 §2.

use reference::cursor::{self, Picture, Pointer};
use reference::limits::{self, Limits};
use reference::{examples, message, Refused};

/// A of 01, "Proved table of small examples", with the Size given.
fn source_ready(size: u8) -> Vec<u8> {
    let head = [0, size, 1, 1, 0, 0, 2, 0x41, 0, 2, 0, 2, 0x1c, 0x44, 3, 0, 16];
    [&head[..], &[7; 16]].concat()
}

/// A without its RTSP Port.
fn without_port() -> Vec<u8> {
    let mut bytes = source_ready(0x1c);
    bytes.drain(9..14);
    bytes
}

/// The Security Handshake of 001 4.4, whose payload is open, with one of 16 bytes.
fn security_handshake() -> Vec<u8> {
    [&[0, 23, 1, 3, 4, 0, 16][..], &[0x16; 16]].concat()
}

fn message_line(name: &str, bytes: &[u8]) -> String {
    let record = match message::read(bytes) {
        Ok(record) => record,
        Err(refused) => {
            return format!("{name} refused {} place {}\n", refused.number as u8, refused.place)
        }
    };
    let source = match record.source_id(bytes) {
        Some(id) => id.iter().map(|byte| format!("{byte:02x}")).collect(),
        None => "-".to_string(),
    };
    let mut out = [0; 128];
    let same = message::write(bytes, &record, &mut out).is_ok_and(|n| &out[..n] == bytes);
    format!(
        "{name} accepted {} port {} options {} source {source} written {}\n",
        record.command,
        record.rtsp_port(bytes).unwrap_or(0),
        record.option_byte(bytes).unwrap_or(0),
        if same { "same" } else { "other" },
    )
}

fn messages() -> String {
    [
        ("000-4.2", examples::SOURCE_READY.to_vec()),
        ("000-4.3", examples::STOP_PROJECTION.to_vec()),
        ("001-4.2", examples::SOURCE_READY.to_vec()),
        ("001-4.3", examples::STOP_PROJECTION.to_vec()),
        ("001-4.4-payload-16", security_handshake()),
        ("001-4.5-printed", examples::SESSION_REQUEST_AS_PRINTED.to_vec()),
        ("001-4.5-size-003C", examples::SESSION_REQUEST.to_vec()),
        ("001-4.6", examples::PIN_CHALLENGE.to_vec()),
        ("001-4.7", examples::PIN_RESPONSE.to_vec()),
        ("P1", source_ready(0x21)),
        ("P2", source_ready(0x22)),
        ("P3", [source_ready(0x21), vec![0]].concat()),
        ("P4", Vec::new()),
        ("P5", vec![0, 3, 1, 1]),
        ("P6", without_port()),
    ]
    .map(|(name, bytes)| message_line(name, &bytes))
    .concat()
}

fn limits_line(name: &str, bytes: &[u8]) -> String {
    match limits::read(bytes) {
        Ok(Limits::NotSupported) => format!("{name} not supported\n"),
        Ok(Limits::Supported { xor, width, height, port }) => {
            let xor = if xor { "full" } else { "none" };
            format!("{name} xor {xor} width {width} height {height} port {port}\n")
        }
        Err(refused) => {
            format!("{name} refused {} place {}\n", refused.number as u8, refused.place)
        }
    }
}

fn limits_values() -> String {
    [
        ("003-4-limits-printed", examples::LIMITS_AS_PRINTED),
        ("003-4-limits-hexadecimal", examples::LIMITS),
        ("003-4-not-supported", examples::LIMITS_NOT_SUPPORTED),
    ]
    .map(|(name, bytes)| limits_line(name, bytes))
    .concat()
}

fn position_line(name: &str, answer: Result<Pointer, Refused>) -> String {
    match answer {
        Ok(Pointer { x, y, .. }) => format!("{name} accepted x {x} y {y}\n"),
        Err(refused) => format!("{name} refused {}\n", refused.number as u8),
    }
}

fn packets() -> String {
    let answer = cursor::position(Pointer::fresh(), &examples::POSITION);
    let mut text = position_line("003-4-position", answer);
    let mut pointer = answer.unwrap_or(Pointer::fresh());
    let mut record = Picture::fresh();
    let mut image = [0; examples::IMAGE_TOTAL];
    let mut marks = [0; examples::IMAGE_TOTAL];
    let both: [(&str, &[u8]); 2] =
        [("003-4-start", &examples::START), ("003-4-continuation", &examples::CONTINUATION)];
    for (name, packet) in both {
        text += &match cursor::store(pointer, record, packet, &mut image, &mut marks) {
            Ok((moved, stored)) => {
                (pointer, record) = (moved, stored);
                let complete = cursor::complete(record, &image, &marks) == Ok(true);
                format!(
                    "{name} accepted x {} y {} id {} total {} type {} hot spot {} {} complete {}\n",
                    pointer.x,
                    pointer.y,
                    record.id,
                    record.total,
                    record.image_type,
                    record.hot_x,
                    record.hot_y,
                    if complete { "yes" } else { "no" },
                )
            }
            Err(refused) => format!("{name} refused {}\n", refused.number as u8),
        };
    }
    text
}

/// Each on a fresh pointer.
fn unused_fields() -> String {
    examples::UNUSED_FIELDS
        .map(|(name, packet, _)| {
            position_line(&format!("02-2-{name}"), cursor::position(Pointer::fresh(), packet))
        })
        .concat()
}

pub fn lines() -> String {
    messages() + &limits_values() + &packets() + &unused_fields()
}
