//! Runs the two programs, and takes their lines apart.
#![allow(dead_code)]

use std::io::{BufRead, BufReader, Read};
use std::path::{Path, PathBuf};
use std::process::{Child, ChildStdout, Command, Output, Stdio};
use std::thread::{self, JoinHandle};

/// The repository's root.
pub fn root() -> PathBuf {
    Path::new(env!("CARGO_MANIFEST_DIR")).join("../..")
}

/// A receiver on ports that the system chose.
pub struct Receiver {
    child: Child,
    lines: Option<JoinHandle<Vec<String>>>,
    pub tcp: u16,
    pub udp: u16,
}

impl Receiver {
    /// Starts a receiver that acknowledges, and waits until it listens.
    pub fn start(options: &[&str]) -> Self {
        let mut child = Command::new(env!("CARGO_BIN_EXE_receiver"))
            .args(["--tcp", "0", "--udp", "0", "--acknowledge"])
            .args(options)
            .stdout(Stdio::piped())
            .stderr(Stdio::piped())
            .spawn()
            .unwrap();
        let mut output = BufReader::new(child.stdout.take().unwrap());
        let mut first = String::new();
        output.read_line(&mut first).unwrap();
        let ports = first.strip_prefix("receiver: listens on 127.0.0.1, TCP port ").unwrap();
        let (tcp, udp) = ports.trim_end().split_once(" and UDP port ").unwrap();
        let (tcp, udp) = (tcp.parse().unwrap(), udp.parse().unwrap());
        // The lines are read as they come, so that the receiver never waits for a reader.
        let lines = thread::spawn(move || read_lines(output));
        Receiver { child, lines: Some(lines), tcp, udp }
    }

    /// Plays with the sender at this receiver, and gives the sender's lines.
    pub fn play(&self, options: &[&str]) -> Vec<String> {
        let output = Command::new(env!("CARGO_BIN_EXE_sender"))
            .args(["--tcp", &self.tcp.to_string(), "--udp", &self.udp.to_string()])
            .arg("--acknowledge")
            .args(options)
            .current_dir(root())
            .output()
            .unwrap();
        let Output { status, stdout, stderr } = output;
        assert!(status.success() && stderr.is_empty(), "{}", String::from_utf8_lossy(&stderr));
        String::from_utf8(stdout).unwrap().lines().map(String::from).collect()
    }

    /// Waits for the end of a receiver that was started with `--once`, and gives its lines.
    pub fn ended(mut self) -> Vec<String> {
        let lines = self.lines.take().unwrap().join().unwrap();
        assert!(self.child.wait().unwrap().success());
        let mut faults = String::new();
        self.child.stderr.take().unwrap().read_to_string(&mut faults).unwrap();
        assert_eq!(faults, "");
        lines
    }

    /// Stops a receiver that would go on, and gives its lines.
    pub fn stopped(mut self) -> Vec<String> {
        self.child.kill().unwrap();
        self.lines.take().unwrap().join().unwrap()
    }
}

impl Drop for Receiver {
    /// No receiver is left behind where a test fails.
    fn drop(&mut self) {
        let _ = self.child.kill();
        let _ = self.child.wait();
    }
}

fn read_lines(output: BufReader<ChildStdout>) -> Vec<String> {
    output.lines().map(Result::unwrap).collect()
}

/// The lines that begin so, without that beginning.
pub fn after<'a>(beginning: &'a str, lines: &'a [String]) -> impl Iterator<Item = &'a str> {
    lines.iter().filter_map(move |line| line.strip_prefix(beginning))
}

/// A step that the receiver shows.
#[derive(Debug, PartialEq, Eq)]
pub struct Step<'a> {
    /// What came.
    pub what: &'a str,
    /// 0 for accepted, otherwise the refusal number.
    pub number: u8,
    /// The place of a refusal, where it is shown.
    pub place: Option<usize>,
    /// The state afterwards.
    pub state: &'a str,
}

impl<'a> Step<'a> {
    /// Takes a line apart; `None` for a line that shows no step.
    pub fn of(line: &'a str) -> Option<Self> {
        let (what, state, number, place) =
            if let Some((what, refused)) = line.split_once(": refused: ") {
                let (words, state) = refused.split_once("); ")?;
                let (_, number) = words.split_once(" (refusal ")?;
                match number.split_once(", at byte ") {
                    Some((number, place)) => (what, state, number, Some(place.parse().ok()?)),
                    None => (what, state, number, None),
                }
            } else {
                let (what, accepted) = line.split_once(": accepted")?;
                let (_, state) = accepted.split_once("; ")?;
                (what, state, "0", None)
            };
        Some(Step { what, number: number.parse().ok()?, place, state })
    }

    /// The steps of the lines that begin so.
    pub fn all(beginning: &'a str, lines: &'a [String]) -> Vec<Step<'a>> {
        after(beginning, lines).filter_map(Step::of).collect()
    }
}
