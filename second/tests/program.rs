//! The program from outside: its options, frames and exit codes.

use std::io::Write;
use std::process::{Command, Output, Stdio};

fn second(options: &[&str], input: &[u8]) -> Output {
    let mut child = Command::new(env!("CARGO_BIN_EXE_second"))
        .args(options)
        .stdin(Stdio::piped())
        .stdout(Stdio::piped())
        .stderr(Stdio::piped())
        .spawn()
        .unwrap();
    // A program that stops early may not read all of its input.
    let _ = child.stdin.take().unwrap().write_all(input);
    child.wait_with_output().unwrap()
}

fn frame(text: &[u8]) -> Vec<u8> {
    [format!("{}\n", text.len()).as_bytes(), text].concat()
}

const TEXT: &[u8] = b"caches=2\nop=store cache=0 vid=1 at=5 data=10\n";
const REPORT: &[u8] = b"step=1 answer=done data=0 lcvid=0\n";
const SHOWN: &[u8] = b"step=1 answer=done data=0 lcvid=0 | \
    c0s0:S-O a5 m0 h1 w0; c0s1:S-M a5 m1 h1 w10 | mem\n";

#[test]
fn one_text() {
    for (options, expected) in
        [(&[][..], REPORT), (&["--machine"][..], SHOWN), (&["--check"][..], REPORT)]
    {
        let ran = second(options, TEXT);
        assert!(ran.status.success());
        assert_eq!(ran.stdout, expected);
        assert!(ran.stderr.is_empty());
    }
}

#[test]
fn many_texts() {
    let empty: &[u8] = b"step=0 answer=refused-12e data=0 lcvid=0 col=1\n";
    let too_long: &[u8] = b"step=0 answer=refused-14 data=0 lcvid=0\n";
    let texts = [TEXT, b"", b"caches=1\n", TEXT, &[b'x'; 70_000]].map(frame).concat();
    for (options, report) in [
        (&["--batch"][..], REPORT),
        (&["--batch", "--machine"][..], SHOWN),
        (&["--check", "--batch"][..], REPORT),
    ] {
        let ran = second(options, &texts);
        assert!(ran.status.success());
        assert_eq!(ran.stdout, [report, empty, b"", report, too_long].map(frame).concat());
    }
    assert!(second(&["--batch"], b"").status.success());
}

#[test]
fn broken_frames_and_options() {
    for input in [&b"5\nabc"[..], b"x\n", b"5", b"-1\n", b"\n", b"99999999999999999999999\n"] {
        assert_eq!(second(&["--batch"], input).status.code(), Some(2));
    }
    for options in [&["--machine", "--check"][..], &["--else"][..], &["--batch", "--batch"][..]] {
        assert_eq!(second(options, TEXT).status.code(), Some(2));
    }
}
