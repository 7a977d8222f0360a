//! Faults of arguments, ports and files: one line on standard error and exit status 2.

use std::net::{TcpListener, UdpSocket};
use std::process::{Command, Output};

const RECEIVER: &str = env!("CARGO_BIN_EXE_receiver");
const SENDER: &str = env!("CARGO_BIN_EXE_sender");

fn run(program: &str, arguments: &[&str]) -> Output {
    Command::new(program).args(arguments).output().unwrap()
}

/// Checks that there is one line on standard error, which begins so, nothing on standard output,
/// and exit status 2.
fn faulty(program: &str, arguments: &[&str], beginning: &str) {
    let Output { status, stdout, stderr } = run(program, arguments);
    let line = String::from_utf8(stderr).unwrap();
    assert_eq!(status.code(), Some(2), "{arguments:?}: {line}");
    assert!(stdout.is_empty(), "{arguments:?}");
    assert!(line.starts_with(beginning) && line.ends_with('\n'), "{line}");
    assert_eq!(line.lines().count(), 1, "{line}");
}

#[test]
fn faulty_arguments() {
    faulty(RECEIVER, &["--other"], "receiver: no option \"--other\"");
    faulty(RECEIVER, &["--tcp"], "receiver: --tcp needs a value");
    faulty(RECEIVER, &["--tcp", "65536"], "receiver: --tcp takes a number from 0 to 65535");
    faulty(RECEIVER, &["--udp", "-1"], "receiver: --udp takes a number from 0 to 65535");
    faulty(RECEIVER, &["--patience", "0"], "receiver: --patience takes a number from 1 to 3600");
    faulty(RECEIVER, &["--once", "--once"], "receiver: --once is given twice");
    faulty(SENDER, &[], "sender: --tcp PORT is needed");
    faulty(SENDER, &["--tcp", "1"], "sender: --udp PORT is needed");
    faulty(SENDER, &["--tcp", "0"], "sender: --tcp takes a number from 1 to 65535");
    let with = |option, value| ["--tcp", "1", "--udp", "1", option, value];
    faulty(SENDER, &with("--loss", "91"), "sender: --loss takes a number from 0 to 90");
    faulty(SENDER, &with("--seed", "x"), "sender: --seed takes a number from 0 to 1844");
    faulty(SENDER, &with("--picture", "1"), "sender: --picture takes a number from 2 to 262144");
}

#[test]
fn a_port_in_use() {
    let tcp = TcpListener::bind("127.0.0.1:0").unwrap();
    let port = tcp.local_addr().unwrap().port().to_string();
    let fault = format!("receiver: cannot listen on TCP port {port}: ");
    faulty(RECEIVER, &["--tcp", &port, "--udp", "0"], &fault);
    let udp = UdpSocket::bind("127.0.0.1:0").unwrap();
    let port = udp.local_addr().unwrap().port().to_string();
    let fault = format!("receiver: cannot listen on UDP port {port}: ");
    faulty(RECEIVER, &["--tcp", "0", "--udp", &port], &fault);
}

#[test]
fn a_missing_file() {
    let arguments = ["--tcp", "1", "--udp", "1", "--recording", "/no/such/file"];
    faulty(SENDER, &arguments, "sender: cannot read /no/such/file: ");
}

#[test]
fn help_has_an_example() {
    for program in [RECEIVER, SENDER] {
        let Output { status, stdout, stderr } = run(program, &["--help"]);
        assert!(status.success() && stderr.is_empty());
        let text = String::from_utf8(stdout).unwrap();
        assert!(text.starts_with("usage: ") && text.contains("\nExample"));
    }
}
