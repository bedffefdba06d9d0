//! Many texts on one stream, each framed as its length in decimal, LF, then
//! that many bytes.

use std::io::{self, BufRead, Read, Write};

/// The length of the longest frame head: 20 digits and the LF.
const MOST_HEAD: u64 = 21;

/// The next frame, or `None` where the stream ends between frames.
pub fn read_frame(input: &mut impl BufRead) -> io::Result<Option<Vec<u8>>> {
    let mut head = Vec::new();
    input.by_ref().take(MOST_HEAD).read_until(b'\n', &mut head)?;
    if head.is_empty() {
        return Ok(None);
    }
    let length = frame_length(&head).ok_or_else(|| broken("a frame's length is unreadable"))?;
    let mut text = Vec::new();
    input.by_ref().take(length).read_to_end(&mut text)?;
    if text.len() as u64 != length {
        return Err(broken("a frame is shorter than its length says"));
    }
    Ok(Some(text))
}

pub fn write_frame(output: &mut impl Write, bytes: &[u8]) -> io::Result<()> {
    writeln!(output, "{}", bytes.len())?;
    output.write_all(bytes)
}

fn frame_length(head: &[u8]) -> Option<u64> {
    let digits = head.strip_suffix(b"\n")?;
    if !digits.iter().all(u8::is_ascii_digit) {
        return None;
    }
    std::str::from_utf8(digits).ok()?.parse().ok()
}

fn broken(what: &str) -> io::Error {
    io::Error::new(io::ErrorKind::InvalidData, what)
}
