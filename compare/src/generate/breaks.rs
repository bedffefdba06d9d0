//! One line of a text broken on purpose, at any of its bytes, so that every
//! kind of break comes up often.

use super::damage::{byte_at, lines_of, BYTES};
use crate::random::Random;
use second::step::Step;

const OPS: &[&str] = &["load", "store", "commit", "abort", "reset", "evict"];

/// Which of a line's four numbers must be 0.
const UNUSED: [(&[u8], &[usize]); 5] = [
    (b"op=load ", &[3]),
    (b"op=commit ", &[0, 2, 3]),
    (b"op=abort ", &[0, 1, 2, 3]),
    (b"op=reset ", &[0, 1, 2, 3]),
    (b"op=evict ", &[1, 3]),
];

/// Numbers around the largest, and such that come out small if they are
/// narrowed or wrap around.
const EDGES: &[&str] = &[
    "18446744073709551614",
    "18446744073709551615",
    "18446744073709551616",
    "18446744073709551617",
    "18446744073709551620",
    "18446744073709551625",
    "28446744073709551615",
    "36893488147419103232",
    "99999999999999999999",
    "184467440737095516150",
    "340282366920938463463374607431768211457",
    "9223372036854775808",
    "4294967296",
    "65536",
    "256",
    "257",
    "64",
    "16",
];

/// Breaks a line, or ends the text inside it. The first line is one of many
/// and would hardly ever be the one.
pub fn one(random: &mut Random, text: &mut Vec<u8>) {
    let mut lines = lines_of(text);
    let nth = if random.one_in(6) { 0 } else { random.place(lines.len()) };
    if random.one_in(12) {
        let length = random.place(lines[nth].len());
        lines[nth].truncate(length);
        lines.truncate(nth + 1);
    } else {
        line(random, &mut lines[nth]);
    }
    *text = lines.concat();
}

/// Wrong keys and missing line ends come from other damage too. An LF before
/// the line makes a blank one.
fn line(random: &mut Random, line: &mut Vec<u8>) {
    match random.below(12) {
        0 => op_name(random, line),
        1 => fixed_text(random, line),
        2 => bad_number(random, line),
        3..=6 => large_number(random, line),
        7..=9 => unused_number(random, line),
        10 => line.insert(0, b'\n'),
        _ => behind_last_number(random, line),
    }
}

/// One op's name that goes on as another's.
fn op_name(random: &mut Random, line: &mut Vec<u8>) {
    let start = b"op=".len();
    let Some(end) = line.iter().position(|byte| *byte == b' ').filter(|end| *end >= start) else {
        return fixed_text(random, line);
    };
    let (one, other) = (random.pick(OPS), random.pick(OPS));
    let cut = random.place(one.len() + 1).min(other.len());
    let mixed = [&one[..cut], &other[cut..]].concat();
    drop(line.splice(start..end, mixed.into_bytes()));
}

/// A byte of the text before one of the numbers, or the line broken off there.
fn fixed_text(random: &mut Random, line: &mut Vec<u8>) {
    let starts = [0].into_iter().chain(numbers(line).into_iter().map(|(_, end)| end));
    let ends = numbers(line).into_iter().map(|(start, _)| start);
    let texts: Vec<(usize, usize)> = starts.zip(ends).filter(|(start, end)| start < end).collect();
    let (start, end) = if texts.is_empty() { (0, line.len()) } else { random.pick(&texts) };
    let place = start + random.place(end - start);
    if random.one_in(6) {
        drop(line.splice(place.., *b"\n"));
    } else {
        byte_at(random, line, place);
    }
}

/// No digit, or something before the first one.
fn bad_number(random: &mut Random, line: &mut Vec<u8>) {
    replace(random, line, None, |random, digits| match random.below(4) {
        0 => Vec::new(),
        1 => random.pick(&["00", "01", "-0", "0x1", "1.0", "1_0", "/", ":"]).into(),
        _ => {
            let before = random.pick(&["0", "0", "00", "+", "-", " ", "x", "\n", "=", "\0"]);
            [before.as_bytes(), digits].concat()
        }
    });
}

fn large_number(random: &mut Random, line: &mut Vec<u8>) {
    replace(random, line, None, |random, _| large(random));
}

/// At the limit and past it, by as little as 1 and by as much as 40 digits.
fn large(random: &mut Random) -> Vec<u8> {
    let mut digits = random.pick(EDGES).as_bytes().to_vec();
    match random.below(4) {
        0 => digits.extend(some_digits(random, 12)),
        1 => {
            digits = vec![b'1' + random.below(9) as u8];
            digits.extend((0..18).map(|_| b'0' + random.below(10) as u8));
            digits.extend(some_digits(random, 40));
        }
        _ => {}
    }
    digits
}

fn some_digits(random: &mut Random, most: usize) -> Vec<u8> {
    let count = random.place(most + 1);
    (0..count).map(|_| b'0' + random.below(10) as u8).collect()
}

/// A key that the op doesn't use, mostly other than 0; a few lines become such
/// that use none.
fn unused_number(random: &mut Random, line: &mut Vec<u8>) {
    if line.starts_with(b"op=") && random.one_in(4) {
        let step = random.pick(&[Step::Abort, Step::Reset, Step::Commit { vid: 1 }]);
        *line = step.line().into_bytes();
    }
    let Some((_, unused)) = UNUSED.iter().find(|(op, _)| line.starts_with(op)) else {
        return bad_number(random, line);
    };
    let nth = random.pick(unused);
    replace(random, line, Some(nth), |random, _| match random.below(6) {
        0 => [b"0".as_slice(), &large(random)].concat(),
        1 => random.pick(&["00", "01", "05", "010", "0x"]).into(),
        2 => large(random),
        3 => random.pick(&["10", "15", "63", "100", "5x", "1\n"]).into(),
        _ => random.pick(&["1", "2", "3", "4", "5", "9"]).into(),
    });
}

/// Behind the last number: a byte, mostly no digit, or some more text.
fn behind_last_number(random: &mut Random, line: &mut Vec<u8>) {
    let end = numbers(line).last().map_or(line.len(), |(_, end)| *end);
    let more = match random.below(4) {
        0 => random
            .pick(&[b" ".as_slice(), b"\r", b" x=0", b" data=0", b"\t", b".0", b"/", b":"])
            .to_vec(),
        1 => vec![random.next() as u8],
        _ => vec![random.pick(BYTES)],
    };
    drop(line.splice(end..end, more));
}

/// Puts other bytes in the place of a number, any or the one told.
fn replace(
    random: &mut Random,
    line: &mut Vec<u8>,
    nth: Option<usize>,
    instead: impl Fn(&mut Random, &[u8]) -> Vec<u8>,
) {
    let numbers = numbers(line);
    if numbers.is_empty() {
        return fixed_text(random, line);
    }
    let nth = nth.unwrap_or_else(|| random.place(numbers.len()));
    let (start, end) = numbers[nth.min(numbers.len() - 1)];
    let bytes = instead(random, &line[start..end]);
    drop(line.splice(start..end, bytes));
}

/// Where digits begin and end.
pub fn numbers(text: &[u8]) -> Vec<(usize, usize)> {
    let is_digit = |place: usize| text.get(place).is_some_and(u8::is_ascii_digit);
    let mut found = Vec::new();
    let mut place = 0;
    while place < text.len() {
        let end = (place..).find(|end| !is_digit(*end)).unwrap_or(place);
        if end > place {
            found.push((place, end));
        }
        place = end + 1;
    }
    found
}
