//! What the two sample programs share. `receiver` shows how a host uses the Ashlarsilk calls;
//! `sender` plays a recorded session and a cursor stream at it, with loss, repeats and reordering.
//! Both use the loopback interface alone. Each prints a line a step.
//!
//! At the repository's root, in two terminals:
//!
//! ```text
//! cargo run --manifest-path host/Cargo.toml --bin receiver -- --once --acknowledge
//! cargo run --manifest-path host/Cargo.toml --bin sender -- --tcp 7250 --udp 50001 --acknowledge
//! ```
//!
//! What is a host's and not the library's is left out, and a line says so where it matters:
//!
//! - The DTLS handshake ([`handshake`]) is taken as done when the source has sent its last part.
//! - The PIN's computation: every PIN is taken as right, and the PIN Response has 32 zero bytes
//!   where the receiver's own hash belongs.
//! - RTSP, video, and any meaning of the picture's bytes.
//! - Cursor packets are taken in every state of the session; a host takes them while it projects.
//!
//! The acknowledgements of cursor packets ([`acknowledgement`]) belong to these two programs alone.
//! They are no part of the protocol.

#![forbid(unsafe_code)]
#![warn(missing_docs)]

pub mod acknowledgement;
pub mod arguments;
pub mod checksum;
pub mod cursor_steps;
pub mod cutting;
pub mod damage;
pub mod handshake;
pub mod output;
pub mod packets;
pub mod random;
pub mod recording;
pub mod session_steps;
pub mod stream;
