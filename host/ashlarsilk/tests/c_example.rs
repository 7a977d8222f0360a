//! The C header: the example compiles with it alone, links, and prints what the papers say.

use std::fs;
use std::path::{Path, PathBuf};
use std::process::Command;

use ashlarsilk::cursor::{Picture, Pointer};
use ashlarsilk::{Limits, Message, Refusal, Session};

fn root() -> PathBuf {
    Path::new(env!("CARGO_MANIFEST_DIR")).join("../..")
}

/// Compiles a C program with every warning as an error, and answers with the program's path.
fn compile(source: &Path, name: &str) -> PathBuf {
    let program = Path::new(env!("CARGO_TARGET_TMPDIR")).join(name);
    let output = Command::new("cc")
        .args(["-std=c99", "-Wall", "-Wextra", "-Werror", "-pedantic", "-O2", "-I"])
        .arg(root().join("include"))
        .arg("-o")
        .arg(&program)
        .arg(source)
        .arg(env!("ASHLARSILK_ARCHIVE"))
        .output()
        .expect("cc runs");
    assert!(output.status.success(), "{}", String::from_utf8_lossy(&output.stderr));
    program
}

fn run(program: &Path) -> String {
    let output = Command::new(program).output().expect("the program runs");
    assert!(output.status.success(), "{}", output.status);
    String::from_utf8(output.stdout).expect("text")
}

#[test]
fn the_example_prints_what_the_papers_say() {
    let folder = root().join("host/c-example");
    let program = compile(&folder.join("example.c"), "c-example");
    let expected = fs::read_to_string(folder.join("expected.txt")).expect("the expected text");
    assert_eq!(run(&program), expected);
}

/// The piece of C that docs/HOSTS.md shows compiles and links, with a `main` that takes one message.
#[test]
fn the_snippet_of_hosts_compiles() {
    let hosts = fs::read_to_string(root().join("docs/HOSTS.md")).expect("docs/HOSTS.md");
    let (_, rest) = hosts.split_once("```c\n").expect("a block of C");
    let (snippet, _) = rest.split_once("```").expect("its end");
    let source = snippet.to_string()
        + "bool pin_is_right(const uint8_t *bytes, const uint8_t *record)\n"
        + "{\n    return bytes != record;\n}\n"
        + "int main(void)\n{\n"
        + "    uint8_t session[ASHLARSILK_SESSION_LENGTH] = {0};\n"
        + "    const uint8_t stop[] = {0, 3, 1, 2};\n"
        + "    return take(session, stop, sizeof stop) ? 1 : 0;\n}\n";
    let file = Path::new(env!("CARGO_TARGET_TMPDIR")).join("snippet.c");
    fs::write(&file, source).expect("the program is written");
    assert_eq!(run(&compile(&file, "c-snippet")), "");
}

/// The header's numbers are those of this crate: lengths of records, statuses, sizes of answers.
#[test]
fn the_header_has_the_same_numbers() {
    let mut expected = vec![
        ("ASHLARSILK_MESSAGE_LENGTH".to_string(), Message::LENGTH),
        ("ASHLARSILK_SESSION_LENGTH".to_string(), Session::LENGTH),
        ("ASHLARSILK_LIMITS_LENGTH".to_string(), Limits::LENGTH),
        ("ASHLARSILK_LIMITS_LONGEST_TEXT".to_string(), Limits::LONGEST_TEXT),
        ("ASHLARSILK_POINTER_LENGTH".to_string(), Pointer::LENGTH),
        ("ASHLARSILK_PICTURE_LENGTH".to_string(), Picture::LENGTH),
        ("ASHLARSILK_LARGEST_PICTURE".to_string(), ashlarsilk::cursor::LARGEST_PICTURE),
        ("sizeof(ashlarsilk_answer)".to_string(), size_of::<ashlarsilk::sys::Answer>()),
        ("sizeof(ashlarsilk_written)".to_string(), size_of::<ashlarsilk::sys::Written>()),
        ("sizeof(ashlarsilk_stepped)".to_string(), size_of::<ashlarsilk::sys::Step>()),
        ("sizeof(ashlarsilk_number)".to_string(), size_of::<ashlarsilk::sys::Number>()),
        ("sizeof(ashlarsilk_yes)".to_string(), size_of::<ashlarsilk::sys::Yes>()),
    ];
    for refusal in Refusal::ALL {
        // NotNewer is ASHLARSILK_NOT_NEWER.
        let mut name = "ASHLARSILK".to_string();
        for letter in format!("{refusal:?}").chars() {
            if letter.is_ascii_uppercase() {
                name.push('_');
            }
            name.push(letter.to_ascii_uppercase());
        }
        expected.push((name, usize::from(refusal.number())));
    }
    let mut source = "#include <ashlarsilk.h>\n#include <stdio.h>\nint main(void)\n{\n".to_string();
    for (name, _) in &expected {
        source += &format!("    printf(\"%lu\\n\", (unsigned long)({name}));\n");
    }
    source += "    return 0;\n}\n";
    let file = Path::new(env!("CARGO_TARGET_TMPDIR")).join("numbers.c");
    fs::write(&file, source).expect("the program is written");

    let printed = run(&compile(&file, "c-numbers"));
    let numbers: Vec<usize> = printed.lines().map(|line| line.parse().unwrap()).collect();
    assert_eq!(numbers.len(), expected.len());
    for ((name, number), printed) in expected.iter().zip(numbers) {
        assert_eq!(printed, *number, "{name}");
    }
}
