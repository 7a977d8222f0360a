//! What `run_cursor` must print: positions, offsets, the packets of 003 section 4, the same with
//! timestamp and SSRC filled, orders and repeats of a small picture, its refusals, and sequence
//! numbers that wrap.

use std::fmt::Write;

use reference::cursor::{self, Picture, Pointer};
use reference::examples::FIELDS_FILLED;

use crate::packets::{continuation, position, start, with_unused, Start};

fn pointer_text(p: Pointer) -> String {
    format!(" pointer {}", pointer_numbers(p))
}

/// The fields of a pointer.
pub fn pointer_numbers(p: Pointer) -> String {
    format!("{} {} {} {}", p.known as u8, p.last, p.x, p.y)
}

/// The fields of a picture's record.
pub fn picture_text(q: Picture) -> String {
    let opened = format!("{} {} {} {}", q.open as u8, q.id, q.total, q.opening_sequence);
    let start = format!("{} {} {} {}", q.start_seen as u8, q.image_type, q.hot_x, q.hot_y);
    format!(" picture {opened} {start}")
}

/// Both records, a picture and marks, and the lines printed so far.
struct Receiver<'a> {
    pointer: Pointer,
    record: Picture,
    image: Vec<u8>,
    marks: Vec<u8>,
    /// Which bytes are shown: the first, those `step - 1`, `step` and `2 * step - 1` on, the next.
    step: usize,
    text: &'a mut String,
}

impl<'a> Receiver<'a> {
    fn new(places: usize, step: usize, text: &'a mut String) -> Self {
        Receiver {
            pointer: Pointer::fresh(),
            record: Picture::fresh(),
            image: vec![46; places],
            marks: vec![7; places],
            step,
            text,
        }
    }

    fn five(&self, bytes: &[u8]) -> String {
        let places = [0, self.step - 1, self.step, 2 * self.step - 1, 2 * self.step];
        places.map(|at| format!(" {}", bytes.get(at).copied().unwrap_or(0))).concat()
    }

    fn store(&mut self, packet: &[u8]) {
        let (image, marks) = (&mut self.image, &mut self.marks);
        let number = match cursor::store(self.pointer, self.record, packet, image, marks) {
            Ok((pointer, record)) => {
                (self.pointer, self.record) = (pointer, record);
                0
            }
            Err(refused) => refused.number as u8,
        };
        let line = format!(
            "store {number}{}{} bytes{} marks{}\n",
            pointer_text(self.pointer),
            picture_text(self.record),
            self.five(&self.image),
            self.five(&self.marks),
        );
        *self.text += &line;
    }

    fn complete(&mut self) {
        let answer = match cursor::complete(self.record, &self.image, &self.marks) {
            Ok(true) => "yes".to_string(),
            Ok(false) => "no".to_string(),
            Err(refused) => (refused.number as u8).to_string(),
        };
        writeln!(self.text, "complete {answer}").unwrap();
    }
}

fn positions(text: &mut String) {
    let p9 = position(5, -2, 10);
    let mut wrong_size = [&p9[..], &[0]].concat();
    wrong_size[14] = 8;
    let with_ssrc_1 = with_unused(p9.clone(), &[0, 0, 0, 0, 0, 0, 0, 1]);
    let with_first = |first: [u8; 2]| [&first, &p9[2..]].concat();
    let packets = [
        p9.clone(),
        p9.clone(),
        position(32_772, 12, 10),
        p9.clone(),
        position(65_535, 1, 2),
        position(0, i16::MIN, i16::MAX),
        start(5, 0, 1, Start(0, 0, 1, 0, 0), &[]),
        wrong_size,
        p9[..14].to_vec(),
        p9[..18].to_vec(),
        [&p9[..], &[0]].concat(),
        with_ssrc_1,
        with_first([0x81, 0]),
        with_first([0x80, 1]),
    ];
    let mut pointer = Pointer::fresh();
    for packet in packets {
        let number = match cursor::position(pointer, &packet) {
            Ok(moved) => {
                pointer = moved;
                0
            }
            Err(refused) => refused.number as u8,
        };
        *text += &format!("position {number}{}\n", pointer_text(pointer));
    }
}

/// P10 of 01, each packet on fresh records.
fn offsets(text: &mut String) {
    let cases: [(i32, &[u8]); 3] = [(8, b""), (7, b"AB"), (-1, b"")];
    for (offset, data) in cases {
        Receiver::new(9, 4, text).store(&continuation(5, 8, 1, offset, data));
    }
}

/// 003 section 4: a start with the first half of 512 bytes, a continuation with the second, with
/// this timestamp and SSRC.
fn shape(text: &mut String, unused: &[u8]) {
    let mut receiver = Receiver::new(513, 256, text);
    let first = start(0, 512, 0x1234, Start(12, 10, 3, 18, 15), &[65; 256]);
    receiver.store(&with_unused(first, unused));
    receiver.complete();
    let second = continuation(1, 512, 0x1234, 256, &[66; 256]);
    receiver.store(&with_unused(second, unused));
    receiver.complete();
}

fn orders(text: &mut String) {
    let mut receiver = Receiver::new(5, 2, text);
    receiver.complete();
    receiver.store(&continuation(31, 4, 9, 1, b"BC"));
    receiver.complete();
    receiver.store(&continuation(32, 4, 9, 3, b"D"));
    receiver.store(&continuation(31, 4, 9, 1, b"BC"));
    receiver.store(&[]);
    receiver.complete();
    receiver.store(&start(30, 4, 9, Start(-2, 10, 3, 1, 2), b"AB"));
    receiver.complete();
    receiver.store(&start(33, 4, 9, Start(-2, 10, 3, 5, 2), b"AB"));
    receiver.store(&continuation(34, 4, 9, 1, b"BX"));
    receiver.store(&continuation(34, 5, 9, 1, b"BC"));
    receiver.store(&continuation(29, 2, 10, 0, b"Z"));
    receiver.store(&continuation(50, 6, 11, 0, b"Z"));
    receiver.store(&position(50, -2, 10));
    receiver.store(&continuation(40, 2, 10, 0, b"Z"));
    receiver.store(&continuation(31, 4, 9, 1, b"BC"));
    (receiver.image, receiver.marks) = (vec![46], vec![7]);
    receiver.store(&continuation(31, 4, 9, 1, b"BC"));
    receiver.complete();
}

fn wraps(text: &mut String) {
    let mut receiver = Receiver::new(5, 2, text);
    receiver.store(&start(65_535, 0, 1, Start(3, 4, 1, 0, 0), &[]));
    receiver.complete();
    receiver.store(&start(0, 0, 2, Start(5, 6, 2, 0, 9), &[]));
    receiver.complete();
}

pub fn lines() -> String {
    let mut text = String::new();
    positions(&mut text);
    offsets(&mut text);
    shape(&mut text, &[0; 8]);
    shape(&mut text, &FIELDS_FILLED[4..12]);
    orders(&mut text);
    wraps(&mut text);
    text
}
