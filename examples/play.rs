//! Plays the trace on standard input with the proved player, and writes its report: what `./play` does, from Rust.
use std::io::{self, Read, Write};

/// The longest text that is played, and a buffer that has room for the report of any text: see ladomysh.h.
const TEXT: u64 = 65_536;
const REPORT: usize = 131_072;

/// `struct ladomysh_played` of ladomysh.h.
#[repr(C)]
struct Played {
    end: usize,
    whole: bool,
}

#[link(name = "ladomysh", kind = "static")]
extern "C" {
    fn ladomysh_play(text: *const u8, text_length: usize, out: *mut u8, out_length: usize) -> Played;
}

/// The report of a text.
fn play(text: &[u8]) -> Vec<u8> {
    let mut out = vec![0; REPORT];
    // SAFETY: pointers and lengths of two slices, which don't overlap as one of them is borrowed mutably.
    let played = unsafe { ladomysh_play(text.as_ptr(), text.len(), out.as_mut_ptr(), out.len()) };
    assert!(played.whole, "every report fits");
    out.truncate(played.end);
    out
}

fn main() -> io::Result<()> {
    let mut text = Vec::new();
    // with one byte more than may be played, a text that is too long is told as such
    io::stdin().take(TEXT + 1).read_to_end(&mut text)?;
    io::stdout().write_all(&play(&text))
}
