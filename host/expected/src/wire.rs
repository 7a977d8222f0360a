//! What `run_wire` must print, by the standard library's own conversions and the reference's order
//! of sequence numbers.

use std::fmt::Write;

use reference::numbers;

const BYTES: [u8; 7] = [0x80, 0x00, 0xff, 0xfe, 0x7f, 0x01, 0x1c];

/// The N bytes from `place`, with 0 for each byte past the end.
fn padded<const N: usize>(place: usize) -> [u8; N] {
    std::array::from_fn(|k| place.checked_add(k).and_then(|i| BYTES.get(i)).copied().unwrap_or(0))
}

fn read_line(place: usize) -> String {
    format!(
        "read {place} {} {} {} {}\n",
        u8::from_be_bytes(padded(place)),
        u16::from_be_bytes(padded(place)),
        u32::from_be_bytes(padded(place)),
        i16::from_be_bytes(padded(place)),
    )
}

/// Four bytes of 9 with a number written at `place`, if it fits.
fn write_line(place: usize, number: &[u8]) -> String {
    let mut out = [9u8; 4];
    let part = place.checked_add(number.len()).and_then(|end| out.get_mut(place..end));
    let fits = part.map(|part| part.copy_from_slice(number)).is_some();
    let [a, b, c, d] = out;
    format!("write {} {place} {} {a} {b} {c} {d}\n", number.len(), fits as u8)
}

fn newer_line(last: Option<u16>) -> String {
    let newer = |new| last.is_none_or(|last| numbers::newer(last, new));
    let from = last.unwrap_or(0);
    let count = (0..=u16::MAX).filter(|&new| newer(new)).count();
    let mut line = format!("newer {} {from} {count}", last.is_some() as u8);
    for ahead in [0, 1, 32_767, 32_768, 65_535] {
        write!(line, " {}", newer(from.wrapping_add(ahead)) as u8).unwrap();
    }
    line + "\n"
}

pub fn lines() -> String {
    let mut text = String::new();
    text.extend((0..8).chain([usize::MAX]).map(read_line));
    for place in (0..5).chain([usize::MAX]) {
        text += &write_line(place, &[0xfe]);
        text += &write_line(place, &0x1c44u16.to_be_bytes());
        text += &write_line(place, &(-10i32).to_be_bytes());
    }
    text += &newer_line(None);
    text.extend([0, 1, 32_767, 32_768, 65_535].map(|last| newer_line(Some(last))));
    text += "status";
    text.extend((0..=18).map(|number| format!(" {number}")));
    text + "\n"
}
