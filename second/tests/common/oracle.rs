//! Tells where a text breaks by brute force, unlike the reader: it knows good
//! lines as wholes only, as those that some step is written as, and tries each
//! prefix with every way to end it.

use second::step::Step;
use std::cell::RefCell;
use std::collections::HashMap;

/// An unreadable line: its step, the letter of its 12, the column.
#[derive(Clone, Copy, Debug, PartialEq, Eq)]
pub struct Verdict {
    pub step: u64,
    pub kind: char,
    pub column: usize,
}

/// Lines of one sort: whether one is good, and all ways that a line of this
/// sort can end whose numbers still to come are 0. A good line that is cut
/// anywhere and goes on with such an end is good again: behind a whole number,
/// inside one (what is there is a number too) or before one. So a prefix that
/// none of them completes has no good line at all.
struct Sort {
    is_good: fn(&[u8]) -> bool,
    ends: Vec<Vec<u8>>,
    /// Prefixes judged before: texts share most of theirs.
    known: RefCell<HashMap<Vec<u8>, bool>>,
}

impl Sort {
    fn new(is_good: fn(&[u8]) -> bool, lines_of_zeros: &[String]) -> Sort {
        let ends_of = |line: &String| -> Vec<Vec<u8>> {
            (0..=line.len()).map(|from| line.as_bytes()[from..].to_vec()).collect()
        };
        let mut ends: Vec<Vec<u8>> = lines_of_zeros.iter().flat_map(ends_of).collect();
        ends.sort();
        ends.dedup();
        Sort { is_good, ends, known: RefCell::default() }
    }

    fn has_good_line(&self, prefix: &[u8]) -> bool {
        let search = || self.ends.iter().any(|end| (self.is_good)(&[prefix, end].concat()));
        if let Some(known) = self.known.borrow().get(prefix) {
            return *known;
        }
        *self.known.borrow_mut().entry(prefix.to_vec()).or_insert_with(search)
    }

    /// The length of the good line that `rest` begins with, or the kind and
    /// column of "the first byte that can't continue any good line".
    fn line(&self, rest: &[u8]) -> Result<usize, (char, usize)> {
        for (place, byte) in rest.iter().enumerate() {
            if !self.has_good_line(&rest[..=place]) {
                return Err((kind(&rest[..place], *byte), place + 1));
            }
            if *byte == b'\n' {
                return Ok(place + 1);
            }
        }
        Err(('e', rest.len() + 1))
    }
}

pub struct Oracle {
    first: Sort,
    step: Sort,
}

impl Oracle {
    pub fn new() -> Oracle {
        let zeros = written_steps([0; 4]).map(Step::line);
        Oracle {
            first: Sort::new(is_first_line, &["caches=0\n".to_string()]),
            step: Sort::new(is_step_line, &zeros),
        }
    }

    /// The line that can't be read, if any; playing may stop before it.
    pub fn verdict(&self, text: &[u8]) -> Option<Verdict> {
        let mut place = 0;
        for step in 0.. {
            let sort = if step == 0 { &self.first } else { &self.step };
            match sort.line(&text[place..]) {
                Ok(length) => place += length,
                Err((kind, column)) => return Some(Verdict { step, kind, column }),
            }
            if place == text.len() {
                return None;
            }
        }
        None
    }
}

/// Each op with what it uses of these numbers.
fn written_steps([cache, vid, at, data]: [u64; 4]) -> [Step; 6] {
    [
        Step::Load { cache, vid, at },
        Step::Store { cache, vid, at, data },
        Step::Commit { vid },
        Step::Abort,
        Step::Reset,
        Step::Evict { cache, slot: at },
    ]
}

fn is_step_line(line: &[u8]) -> bool {
    let Some(numbers) = numbers(line) else {
        return false;
    };
    written_steps(numbers).into_iter().any(|step| step.line().as_bytes() == line)
}

fn is_first_line(line: &[u8]) -> bool {
    numbers(line).is_some_and(|[count]| format!("caches={count}\n").as_bytes() == line)
}

/// The numbers among other bytes, if they are as many as wanted and fit.
fn numbers<const COUNT: usize>(line: &[u8]) -> Option<[u64; COUNT]> {
    let runs = line.split(|byte| !byte.is_ascii_digit()).filter(|run| !run.is_empty());
    let read = |run: &[u8]| std::str::from_utf8(run).ok()?.parse().ok();
    runs.map(read).collect::<Option<Vec<u64>>>()?.try_into().ok()
}

/// The kind by what stands before the byte: fixed text has no digits in it, so
/// digits before it belong to a number, and a `=` that isn't the op's wants one.
fn kind(before: &[u8], byte: u8) -> char {
    let digits = before.iter().rev().take_while(|byte| byte.is_ascii_digit()).count();
    let (text, digits) = before.split_at(before.len() - digits);
    let wants_number = text.ends_with(b"=") && text != b"op=";
    let in_last_number = text.ends_with(b" data=") || text == b"caches=";
    match (digits, byte.is_ascii_digit()) {
        (b"", _) if !wants_number => 'a',
        (b"", false) | (b"0", true) => 'b',
        (b"", true) => 'd',
        (_, true) => 'c',
        (_, false) if in_last_number => 'e',
        (_, false) => 'a',
    }
}
