//! When the sample takes the DTLS handshake as done.
//!
//! The handshake is the host's: a receiver hands each Security Token to its DTLS library, which
//! says when the handshake is done. The sample has none. It takes the handshake as done
//!
//! - at once, where a Session Request doesn't ask for stream encryption: no handshake follows
//!   (MS-MICE 3.0, section 3.1.5.4);
//! - with the token that holds a ChangeCipherSpec record: it belongs to the last part of the
//!   handshake that a source sends (RFC 6347, section 4.2.4).

use ashlarsilk::{Command, Message, Tlv};

/// The bit of the option byte that asks for stream encryption (MS-MICE 3.0, section 2.2.7.5).
const STREAM_ENCRYPTION: u8 = 0x01;

/// The content type of a ChangeCipherSpec record.
const CHANGE_CIPHER_SPEC: u8 = 20;

/// Whether the sample takes the handshake as done after this message, which was accepted and left
/// the session in Handshake.
pub fn is_done_after(message: &Message, bytes: &[u8]) -> bool {
    match message.command() {
        Command::SESSION_REQUEST => {
            message.security_options(bytes).is_some_and(|options| options & STREAM_ENCRYPTION == 0)
        }
        Command::SECURITY_HANDSHAKE => {
            message.value(bytes, Tlv::SecurityToken).is_some_and(holds_change_cipher_spec)
        }
        _ => false,
    }
}

/// Whether one of the DTLS records of a token is a ChangeCipherSpec. A record's header is content
/// type (1), version (2), epoch (2), sequence number (6) and length (2).
fn holds_change_cipher_spec(mut token: &[u8]) -> bool {
    while let &[content_type, _, _, _, _, _, _, _, _, _, _, l1, l0, ref rest @ ..] = token {
        if content_type == CHANGE_CIPHER_SPEC {
            return true;
        }
        token = rest.get(usize::from(u16::from_be_bytes([l1, l0]))..).unwrap_or_default();
    }
    false
}

#[cfg(test)]
mod tests {
    use super::*;

    fn record(content_type: u8, data: &[u8]) -> Vec<u8> {
        let header = [content_type, 0xFE, 0xFD, 0, 0, 0, 0, 0, 0, 0, 0, 0, data.len() as u8];
        [&header, data].concat()
    }

    #[test]
    fn the_record_may_be_any_of_the_token() {
        let (handshake, change) = (record(22, &[20; 30]), record(20, &[1]));
        assert!(holds_change_cipher_spec(&change));
        assert!(holds_change_cipher_spec(&[&handshake[..], &change, &handshake].concat()));
        assert!(!holds_change_cipher_spec(&[&handshake[..], &handshake].concat()));
    }

    #[test]
    fn any_bytes_may_stand_in_a_token() {
        let change = record(20, &[1]);
        for length in 0..13 {
            assert!(!holds_change_cipher_spec(&change[..length]));
        }
        assert!(!holds_change_cipher_spec(&[22; 40]), "a record that runs past the token");
        assert!(!holds_change_cipher_spec(&[0; 40]));
    }

    /// A Session Request of the name "A", a Source ID and this option byte.
    fn request(options: u8) -> Vec<u8> {
        let mut bytes = vec![0, 32, 1, 4, 0, 0, 2, 0x41, 0, 5, 0, 1, options, 3, 0, 16];
        bytes.extend([7; 16]);
        bytes
    }

    #[test]
    fn without_stream_encryption_no_handshake_follows() {
        for (options, done) in [(0, true), (1, false), (2, true), (3, false), (0xFE, true)] {
            let bytes = request(options);
            let message = Message::read(&bytes).unwrap();
            assert_eq!(is_done_after(&message, &bytes), done, "options {options}");
        }
    }
}
