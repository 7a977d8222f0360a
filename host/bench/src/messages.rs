//! Connection messages, the session and the cursor limits value.

use std::hint::black_box;

use ashlarsilk::{Command, Limits, Message, Session};
use reference::{limits, message, session};

use crate::page::Paged;
use crate::table::Table;

/// A message: its header and these TLVs, each a type and a value.
fn built(command: u8, tlvs: &[(u8, &[u8])]) -> Vec<u8> {
    let mut bytes = vec![0, 0, 1, command];
    for (kind, value) in tlvs {
        bytes.push(*kind);
        bytes.extend((value.len() as u16).to_be_bytes());
        bytes.extend(*value);
    }
    let size = bytes.len() as u16;
    bytes[..2].copy_from_slice(&size.to_be_bytes());
    bytes
}

/// 01's message A, a Source Ready.
fn source_ready() -> Vec<u8> {
    built(1, &[(0, &[0x41, 0]), (2, &[0x1C, 0x44]), (3, &[7; 16])])
}

/// A Security Handshake with a token, of `size` bytes in all.
fn handshake(size: usize) -> Vec<u8> {
    built(3, &[(4, &vec![7; size - 7])])
}

/// The sizes of messages: the largest has Size 65,535.
const SIZES: [usize; 6] = [64, 256, 1024, 4096, 16_384, 65_535];

/// Reading and writing messages.
pub fn messages(table: &mut Table) {
    let ready = source_ready();
    read(table, "read a Source Ready, a new record", &ready);
    read_into(table, "read a Source Ready", &ready);
    read_into(
        table,
        "read a Session Request",
        &built(4, &[(0, &[0x41; 40]), (3, &[7; 16]), (5, &[3])]),
    );
    read_into(table, "read a PIN Response", &built(6, &[(3, &[7; 16]), (6, &[9; 32]), (7, &[0])]));
    for size in SIZES {
        read_into(table, "read a Security Handshake", &handshake(size));
    }
    let mut damaged = ready.clone();
    damaged[9] = 1;
    read_into(table, "refuse a Source Ready", &damaged);
    write(table, "write a Source Ready", &ready);
    for size in SIZES {
        write(table, "write a Security Handshake", &handshake(size));
    }
}

/// Into a record that the host keeps.
fn read_into(table: &mut Table, work: &str, bytes: &[u8]) {
    let mut message = Message::new(Command(0));
    table.row(
        work,
        bytes.len(),
        &mut || {
            let _ = black_box(message.read_into(black_box(bytes)));
            black_box(&message);
        },
        &mut || {
            black_box(&message::read(black_box(bytes)));
        },
    );
}

fn read(table: &mut Table, work: &str, bytes: &[u8]) {
    table.row(
        work,
        bytes.len(),
        &mut || {
            black_box(&Message::read(black_box(bytes)));
        },
        &mut || {
            black_box(&message::read(black_box(bytes)));
        },
    );
}

fn write(table: &mut Table, work: &str, bytes: &[u8]) {
    let ours = Message::read(bytes).expect("the message is accepted");
    let theirs = message::read(bytes).expect("the message is accepted");
    let (mut out, mut other) = (Paged::zeros(bytes.len()), Paged::zeros(bytes.len()));
    table.row(
        work,
        bytes.len(),
        &mut || {
            let _ = black_box(ours.write(black_box(bytes), &mut out));
        },
        &mut || {
            let _ = black_box(message::write(black_box(bytes), &theirs, &mut other));
        },
    );
}

/// A step of the session by a message.
pub fn steps(table: &mut Table) {
    let bytes = source_ready();
    table.row(
        "step a fresh session by a Source Ready",
        bytes.len(),
        &mut || {
            let mut session = Session::fresh();
            let _ = black_box(session.message(black_box(&bytes)));
            black_box(&session);
        },
        &mut || {
            black_box(session::on_message(session::Session::fresh(), black_box(&bytes)));
        },
    );
}

/// Reading and writing cursor limits values.
pub fn limits(table: &mut Table) {
    for text in ["full 0100 0100 C351", "none", "full 0100 0100 C35G"] {
        let text = text.as_bytes();
        table.row(
            "read a cursor limits value",
            text.len(),
            &mut || {
                black_box(&Limits::read(black_box(text)));
            },
            &mut || {
                black_box(&limits::read(black_box(text)));
            },
        );
    }
    let text = b"full 0100 0100 C351";
    let ours = Limits::read(text).expect("the value is accepted");
    let theirs = limits::read(text).expect("the value is accepted");
    let (mut out, mut other) = ([0; 19], [0; 19]);
    table.row(
        "write a cursor limits value",
        text.len(),
        &mut || {
            let _ = black_box(black_box(&ours).write(&mut out));
        },
        &mut || {
            let _ = black_box(limits::write(*black_box(&theirs), &mut other));
        },
    );
}
