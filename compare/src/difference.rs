//! How a difference is printed.

use crate::frames::{Answer, Form};
use crate::generate::Name;
use std::io::{self, Write};

/// Texts and reports beyond this many lines or bytes are shown in part.
const MOST_LINES: usize = 160;
const MOST_BYTES: usize = 8_000;

pub struct Difference {
    pub name: Name,
    pub form: Form,
    pub text: Vec<u8>,
    pub second: Vec<u8>,
    pub proved: Answer,
}

impl Difference {
    /// The difference between both programs' answers to a text, if any.
    pub fn find(name: Name, form: Form, text: &[u8], proved: Answer) -> Option<Difference> {
        let second = form.play(text);
        let same = proved.whole && proved.report == second;
        (!same).then(|| Difference { name, form, text: text.to_vec(), second, proved })
    }

    /// What there is to read about it.
    pub fn told(&self, seed: u64, shrunk_from: Option<usize>) -> String {
        let Difference { name, form, text, second, proved } = self;
        let what = match shrunk_from {
            Some(whole) => format!("shortest text that still differs, {} of {whole}", text.len()),
            None => format!("text, {}", text.len()),
        };
        let (ours, theirs) = (lines(second), lines(&proved.report));
        let same = ours.iter().zip(&theirs).take_while(|(one, other)| one == other).count();
        let from = format!("program from line {} of its report on", same + 1);
        [
            format!("difference in the {}: seed {seed}, {name}\n", form.noun()),
            format!("made again whole by: compare --seed {seed} --show {name}\n"),
            format!("{what} bytes:\n{}", shown_text(text)),
            format!("second {from}:\n{}", shown(&ours[same..])),
            format!("proved {from}:\n{}", shown(&theirs[same..])),
            if proved.whole { String::new() } else { "(here it broke off)\n".to_string() },
        ]
        .concat()
    }
}

/// Writes to standard output. Where nobody reads on, the exit code still says
/// what came of the run.
pub fn say(what: &str) {
    let _ = io::stdout().write_all(what.as_bytes());
}

/// A text as it stands, other bytes than printable ones and LF written out.
pub fn shown_text(text: &[u8]) -> String {
    if text.len() <= MOST_BYTES {
        return shown(&lines(text));
    }
    let head = shown(&lines(&text[..MOST_BYTES / 2]));
    let tail = shown(&lines(&text[text.len() - MOST_BYTES / 2..]));
    format!("{head}  ({} bytes left out)\n{tail}", text.len() - MOST_BYTES)
}

fn lines(text: &[u8]) -> Vec<&[u8]> {
    text.split_inclusive(|byte| *byte == b'\n').collect()
}

fn shown(lines: &[&[u8]]) -> String {
    let written = |line: &&[u8]| match line.strip_suffix(b"\n") {
        Some(line) => format!("  {}\n", line.escape_ascii()),
        None => format!("  {} (no LF)\n", line.escape_ascii()),
    };
    let rest = match lines.len() {
        0 => "  (nothing)\n".to_string(),
        count if count > MOST_LINES => format!("  ({} more lines)\n", count - MOST_LINES),
        _ => String::new(),
    };
    lines.iter().take(MOST_LINES).map(written).chain([rest]).collect()
}
