//! The independent second program for a receiver of Miracast over infrastructure.
//!
//! It covers the four things of paper 01 (`01-scope.md`): the connection messages on TCP port
//! 7250, read and written; the sink's session steps; the value of the cursor limits parameter,
//! read and written; the cursor packets, read and assembled. It is written from the papers alone,
//! so that another implementation can be compared with it, input by input.
//!
//! The sources are cited by number: 000 is MS-MICE 2.0, 001 is MS-MICE 3.0 (which decides over
//! 000), 003 is MS-WDHCE. "Paper 01" gives the refusals, their order and the session table; "02 §2"
//! is a section of paper 02 (`02-change-requests.md`), which changes paper 01.
//!
//! Every function takes any bytes, any numbers and any record, and ends without a panic. A refusal
//! changes nothing, except that refusal 14 closes an open session.

#![forbid(unsafe_code)]
#![warn(missing_docs)]

pub mod cursor;
pub mod examples;
pub mod limits;
pub mod listing;
pub mod message;
pub mod numbers;
pub mod refusal;
pub mod session;

pub use refusal::{Refusal, Refused};
