//! Damaged texts: a good trace with a few things wrong in it.

use super::{breaks, long, trace};
use crate::random::Random;
use second::trace::MOST_BYTES;

/// Bytes that come close to being right, and some that never are.
pub const BYTES: &[u8] = b"\n\r\t 0123456789=+-abcdeilmoprstvxL\x00\x7f\x80\xc3\xff";

/// So far past the limit that a byte more or less makes no difference.
const FAR_TOO_LONG: usize = MOST_BYTES + 1_000;

pub fn any(random: &mut Random) -> Vec<u8> {
    match random.below(40) {
        0 => return around_limit(random),
        1 => return scrap(random),
        _ => {}
    }
    let mut text = trace::short(random);
    for _ in 0..random.pick(&[1, 1, 1, 2, 3]) {
        // A cut may have left nothing to damage.
        if text.is_empty() {
            break;
        }
        damage(random, &mut text);
    }
    text
}

/// A broken first line in a text that is too long shows which of the two is
/// told. Those close to the limit keep their length.
fn around_limit(random: &mut Random) -> Vec<u8> {
    let mut text = long::around_limit(random);
    if text.len() > FAR_TOO_LONG && random.one_in(2) {
        let place = random.place(b"caches=".len());
        byte_at(random, &mut text, place);
    }
    text
}

/// Texts that were hardly a trace to begin with.
fn scrap(random: &mut Random) -> Vec<u8> {
    match random.below(5) {
        0 => Vec::new(),
        1 => random
            .pick(&[b"\n".as_slice(), b"\r\n", b"caches=", b"caches=1", b"caches=\n", b"\0"])
            .to_vec(),
        2 => {
            let length = 1 + random.place(200);
            (0..length).map(|_| random.next() as u8).collect()
        }
        3 => {
            let length = 1 + random.place(200);
            (0..length).map(|_| random.pick(BYTES)).collect()
        }
        _ => [b"\xef\xbb\xbf".as_slice(), &trace::short(random)].concat(),
    }
}

fn damage(random: &mut Random, text: &mut Vec<u8>) {
    match random.below(12) {
        0 | 1 => damage_byte(random, text),
        2 => damage_lines(random, text),
        3 => damage_chunk(random, text),
        4 => damage_fields(random, text),
        _ => breaks::one(random, text),
    }
}

fn damage_byte(random: &mut Random, text: &mut Vec<u8>) {
    let place = random.place(text.len());
    byte_at(random, text, place);
}

/// Changes, drops or doubles a byte, or puts one before it.
pub fn byte_at(random: &mut Random, text: &mut Vec<u8>, place: usize) {
    match random.below(5) {
        0 => text[place] = random.pick(BYTES),
        1 => text[place] ^= 1 << random.below(8),
        2 => drop(text.remove(place)),
        3 => text.insert(place, random.pick(BYTES)),
        _ => text.insert(place, text[place]),
    }
}

fn damage_chunk(random: &mut Random, text: &mut Vec<u8>) {
    let from = random.place(text.len());
    let to = (from + 1 + random.place(40)).min(text.len());
    match random.below(4) {
        0 => drop(text.drain(from..to)),
        1 => {
            let chunk = text[from..to].to_vec();
            drop(text.splice(to..to, chunk));
        }
        // Only the last LF is missing.
        2 => drop(text.pop()),
        _ => text.truncate(from),
    }
}

/// Each with its LF, which the last one may lack.
pub fn lines_of(text: &[u8]) -> Vec<Vec<u8>> {
    text.split_inclusive(|byte| *byte == b'\n').map(<[u8]>::to_vec).collect()
}

fn damage_lines(random: &mut Random, text: &mut Vec<u8>) {
    let mut lines = lines_of(text);
    let (one, other) = (random.place(lines.len()), random.place(lines.len()));
    match random.below(6) {
        0 => lines.swap(one, other),
        1 => lines.insert(other, lines[one].clone()),
        2 => drop(lines.remove(one)),
        3 => end_with_cr_lf(&mut lines[one]),
        4 => lines.iter_mut().for_each(end_with_cr_lf),
        _ => lines.insert(one, b"\n".to_vec()),
    }
    *text = lines.concat();
}

fn end_with_cr_lf(line: &mut Vec<u8>) {
    if line.pop().is_some() {
        line.extend_from_slice(b"\r\n");
    }
}

/// Keys out of order, missing, doubled or badly spaced.
fn damage_fields(random: &mut Random, text: &mut Vec<u8>) {
    let spaces: Vec<usize> = (0..text.len()).filter(|place| text[*place] == b' ').collect();
    if spaces.is_empty() {
        return damage_byte(random, text);
    }
    let space = random.pick(&spaces);
    let next = (space + 1..text.len()).find(|place| b" \n".contains(&text[*place]));
    let end = next.unwrap_or(text.len());
    let field = text[space..end].to_vec();
    match random.below(4) {
        0 => drop(text.drain(space..end)),
        1 => drop(text.splice(space..space, field)),
        2 => text.insert(space, b' '),
        _ => text.insert(end, b' '),
    }
}
