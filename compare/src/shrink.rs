//! Makes a failing text as short as it gets by greedy steps. Candidates go to
//! the test in batches, because each batch may start a program anew.

use crate::generate::numbers;
use std::io;

/// Bytes of candidates one shrinking may try; a text at the length limit
/// would else be tried a byte at a time.
const BUDGET: usize = 32 << 20;
const FIRST_BATCH: usize = 8;
const LARGEST_BATCH: usize = 256;
const LAST_VID: usize = 63;
/// Lines of the longest text of which pairs are tried.
const MOST_PAIRED: usize = 30;

/// Says which candidate is the first that still fails, if any.
pub type Test<'a> = &'a mut dyn FnMut(Vec<Vec<u8>>) -> io::Result<Option<usize>>;

struct Shrinker<'a> {
    text: Vec<u8>,
    test: Test<'a>,
    budget: usize,
}

/// Lines in chunks, lines, pairs of lines, VIDs, numbers; single bytes only
/// where asked for, as a trace without some of its bytes is no trace.
pub fn shrink(text: Vec<u8>, bytes_too: bool, test: Test) -> io::Result<Vec<u8>> {
    let mut shrinker = Shrinker { text, test, budget: BUDGET };
    loop {
        let before = shrinker.text.clone();
        shrinker.drop_pieces(line_bounds)?;
        shrinker.drop_pairs()?;
        shrinker.drop_vids()?;
        shrinker.lower_fields()?;
        shrinker.lower_numbers()?;
        if bytes_too {
            shrinker.drop_pieces(|text| (0..=text.len()).collect())?;
        }
        if shrinker.text == before {
            return Ok(before);
        }
    }
}

/// Where lines begin, and the end of the text.
fn line_bounds(text: &[u8]) -> Vec<usize> {
    let lines = text.split_inclusive(|byte| *byte == b'\n');
    [0].into_iter()
        .chain(lines.scan(0, |end, line| {
            *end += line.len();
            Some(*end)
        }))
        .collect()
}

impl Shrinker<'_> {
    fn drop_pieces(&mut self, bounds: fn(&[u8]) -> Vec<usize>) -> io::Result<()> {
        let mut chunk = (bounds(&self.text).len() / 2).max(1);
        loop {
            let mut from = 0;
            while let Some(dropped) = self.drop_chunk(&bounds(&self.text), from, chunk)? {
                from = dropped;
            }
            if chunk == 1 {
                return Ok(());
            }
            chunk /= 2;
        }
    }

    /// Drops the first chunk at or after `from` that isn't needed.
    fn drop_chunk(
        &mut self,
        bounds: &[usize],
        from: usize,
        chunk: usize,
    ) -> io::Result<Option<usize>> {
        let text = self.text.clone();
        let pieces = bounds.len() - 1;
        let candidates = (from..pieces).step_by(chunk).map(|first| {
            let behind = bounds[(first + chunk).min(pieces)];
            (first, [&text[..bounds[first]], &text[behind..]].concat())
        });
        self.take_first_failing(candidates)
    }

    /// A store and the abort that undoes it, say: neither goes alone.
    fn drop_pairs(&mut self) -> io::Result<()> {
        loop {
            let text = self.text.clone();
            let lines: Vec<&[u8]> = text.split_inclusive(|byte| *byte == b'\n').collect();
            let count = if lines.len() > MOST_PAIRED { 0 } else { lines.len() };
            let pairs = (0..count).flat_map(|one| (one + 1..count).map(move |other| (one, other)));
            let candidates = pairs.map(|(one, other)| {
                let kept = [&lines[..one], &lines[one + 1..other], &lines[other + 1..]];
                (one, kept.concat().concat())
            });
            if self.take_first_failing(candidates)?.is_none() {
                return Ok(());
            }
        }
    }

    /// A VID from the middle of a row of commits: those above move down.
    fn drop_vids(&mut self) -> io::Result<()> {
        loop {
            let text = self.text.clone();
            let candidates = (1..LAST_VID)
                .map(|vid| (vid, without_vid(&text, vid)))
                .filter(|(_, candidate)| candidate.len() < text.len());
            if self.take_first_failing(candidates)?.is_none() {
                return Ok(());
            }
        }
    }

    /// All fields that say the same at once: an address or a VID that several
    /// lines share can't be lowered in one of them.
    fn lower_fields(&mut self) -> io::Result<()> {
        let mut from = 0;
        loop {
            let text = self.text.clone();
            let fields: Vec<&[u8]> = text.split_inclusive(|byte| b" \n".contains(byte)).collect();
            let candidates = fields.iter().enumerate().skip(from).flat_map(|(nth, field)| {
                let instead = numbers(field).pop().map_or(Vec::new(), |(start, end)| {
                    let written = |digits: String| {
                        [&field[..start], digits.as_bytes(), &field[end..]].concat()
                    };
                    lower(&field[start..end]).into_iter().map(written).collect()
                });
                let fields = &fields;
                instead.into_iter().map(move |instead| (nth, replaced(fields, field, &instead)))
            });
            match self.take_first_failing(candidates)? {
                Some(lowered) => from = lowered,
                None => return Ok(()),
            }
        }
    }

    fn lower_numbers(&mut self) -> io::Result<()> {
        let mut from = 0;
        loop {
            let text = self.text.clone();
            let candidates = numbers(&text).into_iter().enumerate().skip(from).flat_map(
                |(nth, (start, end))| {
                    let (before, behind) = (&text[..start], &text[end..]);
                    lower(&text[start..end])
                        .into_iter()
                        .map(move |digits| (nth, [before, digits.as_bytes(), behind].concat()))
                },
            );
            match self.take_first_failing(candidates)? {
                Some(lowered) => from = lowered,
                None => return Ok(()),
            }
        }
    }

    /// Batches grow while nothing fails: a hit early on makes the rest of its
    /// batch useless.
    fn take_first_failing(
        &mut self,
        mut candidates: impl Iterator<Item = (usize, Vec<u8>)>,
    ) -> io::Result<Option<usize>> {
        let mut size = FIRST_BATCH;
        loop {
            let (keys, texts): (Vec<usize>, Vec<Vec<u8>>) = candidates.by_ref().take(size).unzip();
            let bytes = texts.iter().map(Vec::len).sum::<usize>() + texts.len();
            if texts.is_empty() || bytes > self.budget {
                return Ok(None);
            }
            self.budget -= bytes;
            if let Some(place) = (self.test)(texts.clone())? {
                self.text.clone_from(&texts[place]);
                return Ok(Some(keys[place]));
            }
            size = (2 * size).min(LARGEST_BATCH);
        }
    }
}

/// The text without the commits of a VID, higher VIDs lowered by one.
fn without_vid(text: &[u8], vid: usize) -> Vec<u8> {
    let commit = format!("op=commit cache=0 vid={vid} at=0 data=0\n");
    let lowered = |field: &[u8]| match field.strip_prefix(b"vid=").map(String::from_utf8_lossy) {
        Some(digits) => match digits.trim_end().parse::<usize>() {
            Ok(other) if other > vid => format!("vid={} ", other - 1).into_bytes(),
            _ => field.to_vec(),
        },
        None => field.to_vec(),
    };
    text.split_inclusive(|byte| *byte == b'\n')
        .filter(|line| *line != commit.as_bytes())
        .flat_map(|line| line.split_inclusive(|byte| *byte == b' '))
        .flat_map(lowered)
        .collect()
}

fn replaced(fields: &[&[u8]], old: &[u8], new: &[u8]) -> Vec<u8> {
    let changed = |field: &&[u8]| if *field == old { new.to_vec() } else { field.to_vec() };
    fields.iter().flat_map(changed).collect()
}

/// Simpler numbers to try instead, the simplest first.
fn lower(digits: &[u8]) -> Vec<String> {
    let written = String::from_utf8_lossy(digits);
    let Ok(number) = written.parse::<u128>() else {
        return vec!["0".to_string(), (1u128 << 64).to_string()];
    };
    let mut tried = vec![0, 1, number / 2, number.saturating_sub(1)];
    tried.retain(|instead| *instead < number);
    tried.dedup();
    tried.iter().map(u128::to_string).collect()
}

#[cfg(test)]
mod tests {
    use super::*;

    fn shrunk(text: &[u8], bytes_too: bool, fails: fn(&[u8]) -> bool) -> String {
        let mut test =
            |texts: Vec<Vec<u8>>| Ok(texts.iter().position(|candidate| fails(candidate)));
        let short = shrink(text.to_vec(), bytes_too, &mut test).unwrap();
        String::from_utf8(short).unwrap()
    }

    fn holds(text: &[u8], part: &[u8]) -> bool {
        text.windows(part.len()).any(|window| window == part)
    }

    #[test]
    fn lines_that_do_not_matter_go() {
        let text: String = (0..99).map(|line| format!("x{line}\n")).collect();
        let fails = |text: &[u8]| holds(text, b"x17\n") && holds(text, b"x80\n");
        assert_eq!(shrunk(text.as_bytes(), false, fails), "x17\nx80\n");
    }

    #[test]
    fn numbers_go_down_to_the_edge() {
        let above = |text: &[u8]| {
            let digits = String::from_utf8_lossy(text);
            digits.trim().trim_start_matches("at=").parse::<u64>().is_ok_and(|at| at > 63)
        };
        assert_eq!(shrunk(b"at=18446744073709551615\n", false, above), "at=64\n");
    }

    #[test]
    fn lines_that_only_go_together_go() {
        let fails =
            |text: &[u8]| holds(text, b"z\n") && holds(text, b"on\n") == holds(text, b"off\n");
        assert_eq!(shrunk(b"on\na\noff\nz\n", false, fails), "z\n");
    }

    #[test]
    fn rows_of_commits_get_short() {
        let commit = |vid: u64| format!("op=commit cache=0 vid={vid} at=0 data=0\n");
        let commits: String = (1..=40).map(commit).collect();
        let text = format!("caches=1\n{commits}op=load cache=0 vid=41 at=0 data=0\n");
        let fails = |text: &[u8]| {
            !holds(&second::play(text), b"refused")
                && holds(text, b"load")
                && holds(text, b"commit")
        };
        let short = shrunk(text.as_bytes(), false, fails);
        assert_eq!(short, format!("caches=1\n{}op=load cache=0 vid=0 at=0 data=0\n", commit(1)));
    }

    #[test]
    fn equal_fields_go_down_together() {
        let fails = |text: &[u8]| {
            let text = String::from_utf8_lossy(text);
            let at: Vec<&str> = text.lines().filter_map(|line| line.strip_prefix("at=")).collect();
            at.len() == 2 && at[0] == at[1]
        };
        assert_eq!(shrunk(b"at=40\nat=40\n", false, fails), "at=0\nat=0\n");
    }

    #[test]
    fn bytes_go_where_asked_for() {
        let fails = |text: &[u8]| holds(text, b"\r");
        assert_eq!(shrunk(b"caches=2\r\nop=abort\n", true, fails), "\r");
        assert_eq!(shrunk(b"caches=2\r\nop=abort\n", false, fails), "caches=0\r\n");
    }

    #[test]
    fn a_text_at_the_limit_ends_by_budget() {
        let text = vec![b'a'; 65_537];
        assert_eq!(shrunk(&text, true, |text| text.len() > 65_536).len(), 65_537);
    }
}
