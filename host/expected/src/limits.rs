//! What `run_limits` must print: how many numbers of each field come back when written and read,
//! and what good and bad spellings mean.

use reference::limits::{self, Limits};

const SPELLINGS: [&str; 26] = [
    "none",
    "NONE",
    "nOnE",
    "full 0100 0080 C351",
    "FULL 0100 0080 c351",
    "none 0000 FFFF ffff",
    "Full aBcD AbCd 1c44",
    "",
    "non",
    "none ",
    " none",
    "full",
    "nonefull 0100 0080 C351",
    "some 0100 0080 C351",
    "full  0100 0080 C351",
    "full 0100  080 C351",
    "full\t0100 0080 C351",
    "full 0100 0080 C351 ",
    "full 0100 0080 C351\n",
    "full 0x0200 0x0200 50001",
    "full 0200 0200 50001",
    "full 100 0080 C351",
    "full 0100 0080 C35G",
    "full 0100 0080 C35g",
    "full 01/0 00:0 C3@1",
    "full 0100 0080",
];

fn comes_back(value: Limits) -> bool {
    let mut out = [0; 19];
    let written = limits::write(value, &mut out);
    written.is_ok_and(|n| limits::read(&out[..n]) == Ok(value))
}

fn count(name: &str, sample: fn(u16) -> Limits) -> String {
    let count = (0..=u16::MAX).filter(|&number| comes_back(sample(number))).count();
    format!("{name} {count}\n")
}

fn meaning(text: &str) -> String {
    match limits::read(text.as_bytes()) {
        Ok(Limits::NotSupported) => "not supported".to_string(),
        Ok(Limits::Supported { xor, width, height, port }) => {
            let xor = if xor { "full" } else { "none" };
            format!("xor {xor} width {width} height {height} port {port}")
        }
        Err(refused) => format!("refused {}", refused.number as u8),
    }
}

pub fn lines() -> String {
    let mut text = String::new();
    text +=
        &count("width", |width| Limits::Supported { xor: true, width, height: 128, port: 50001 });
    text += &count("height", |height| Limits::Supported {
        xor: false,
        width: 256,
        height,
        port: 50001,
    });
    text += &count("port", |port| Limits::Supported { xor: true, width: 256, height: 128, port });
    text.extend(SPELLINGS.map(|spelling| format!("\"{spelling}\" {}\n", meaning(spelling))));
    text
}
