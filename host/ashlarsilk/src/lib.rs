//! The calls of the Ashlarsilk receiver library for hosts in Rust.
//!
//! Ashlarsilk reads and writes what a Miracast receiver over infrastructure gets and sends: the
//! connection messages ([`Message`]), the sink's session ([`Session`]), the value of the cursor
//! limits parameter ([`Limits`]) and the cursor stream ([`cursor`]). Each call takes any bytes, any
//! numbers and any record; what it answers is proved in the library, which this crate links as
//! libashlarsilk.a. Sockets, the DTLS handshake, the PIN's computation, RTSP and video are the
//! host's.
//!
//! A call answers with a record, or with [`Refused`]: the reason by its number in paper 01, and
//! its place. A refusal changes nothing, but for [`Refusal::UnexpectedEvent`], which closes an open
//! session.
//!
//! ```
//! use ashlarsilk::{Message, Session, State};
//!
//! // A Source Ready from the network.
//! let mut bytes = vec![0, 33, 1, 1, 0, 0, 2, 0x41, 0, 2, 0, 2, 0x1C, 0x44, 3, 0, 16];
//! bytes.extend([7; 16]);
//!
//! let message = Message::read(&bytes)?;
//! assert_eq!(message.rtsp_port(&bytes), Some(7236));
//!
//! let mut session = Session::fresh();
//! session.message(&bytes)?;
//! assert_eq!(session.state(), State::Projecting);
//! # Ok::<(), ashlarsilk::Refused>(())
//! ```
//!
//! The records are kept in the library's own layout, so a call converts nothing and costs what the
//! library's call costs.

#![deny(unsafe_op_in_unsafe_fn)]
#![deny(unsafe_code)]
#![warn(missing_docs)]

pub mod cursor;
mod limits;
mod message;
mod refusal;
mod session;
#[allow(unsafe_code)]
pub mod sys;

pub use limits::{Limits, Supported};
pub use message::{Command, Field, Message, SourceId, Tlv};
pub use refusal::{Refusal, Refused};
pub use session::{Accepted, Event, Session, State};
