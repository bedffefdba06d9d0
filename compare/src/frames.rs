//! What goes to the proved program and what comes back: a frame is a letter,
//! the text's length in decimal, LF, and the text; an answer is the lines of
//! the report, then a line `end`.

use std::io::{self, BufRead, Read, Write};

/// More than any frame's head takes.
const MOST_HEAD: u64 = 32;
const END: &[u8] = b"end\n";

#[derive(Clone, Copy, Debug, PartialEq, Eq)]
pub enum Form {
    Report,
    Machine,
}

impl Form {
    fn letter(self) -> u8 {
        match self {
            Form::Report => b'r',
            Form::Machine => b'm',
        }
    }

    pub fn noun(self) -> &'static str {
        match self {
            Form::Report => "report",
            Form::Machine => "machine",
        }
    }

    /// What the second program says to a text in this form.
    pub fn play(self, text: &[u8]) -> Vec<u8> {
        match self {
            Form::Report => second::play(text),
            Form::Machine => second::play_showing_machine(text),
        }
    }
}

#[derive(Clone, Debug, PartialEq, Eq)]
pub struct Frame {
    pub form: Form,
    pub text: Vec<u8>,
}

/// What the proved program said to one frame.
#[derive(Clone, Debug, PartialEq, Eq)]
pub struct Answer {
    pub report: Vec<u8>,
    /// Whether the line `end` was there; without it the program broke off.
    pub whole: bool,
}

pub fn write_frame(output: &mut impl Write, frame: &Frame) -> io::Result<()> {
    output.write_all(&[frame.form.letter()])?;
    writeln!(output, "{}", frame.text.len())?;
    output.write_all(&frame.text)
}

/// The next frame, or `None` where the stream ends between frames.
pub fn read_frame(input: &mut impl BufRead) -> io::Result<Option<Frame>> {
    let mut head = Vec::new();
    input.by_ref().take(MOST_HEAD).read_until(b'\n', &mut head)?;
    if head.is_empty() {
        return Ok(None);
    }
    let (form, length) = parse_head(&head).ok_or_else(|| broken("a frame's head is unreadable"))?;
    let mut text = Vec::new();
    input.by_ref().take(length).read_to_end(&mut text)?;
    if text.len() as u64 != length {
        return Err(broken("a frame is shorter than its head says"));
    }
    Ok(Some(Frame { form, text }))
}

fn parse_head(head: &[u8]) -> Option<(Form, u64)> {
    let (letter, digits) = head.strip_suffix(b"\n")?.split_first()?;
    let form = [Form::Report, Form::Machine].into_iter().find(|form| form.letter() == *letter)?;
    Some((form, std::str::from_utf8(digits).ok()?.parse().ok()?))
}

pub fn write_answer(output: &mut impl Write, report: &[u8]) -> io::Result<()> {
    output.write_all(report)?;
    output.write_all(END)
}

/// The next answer; report lines begin with `step=`, so `end` is never one.
pub fn read_answer(input: &mut impl BufRead) -> io::Result<Answer> {
    let mut report = Vec::new();
    loop {
        let before = report.len();
        input.read_until(b'\n', &mut report)?;
        match &report[before..] {
            [] => return Ok(Answer { report, whole: false }),
            END => {
                report.truncate(before);
                return Ok(Answer { report, whole: true });
            }
            _ => {}
        }
    }
}

fn broken(what: &str) -> io::Error {
    io::Error::new(io::ErrorKind::InvalidData, what)
}
