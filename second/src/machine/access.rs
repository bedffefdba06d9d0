//! Loads and stores.

use super::change::Change;
use super::rules::owner;
use super::upkeep;
use crate::contents::{Contents, Line, Spot, State};
use crate::step::{Answer, Refusal};

/// An admitted access. "An access with VID 0 is plain and acts with number
/// a = LCVID; otherwise a is its VID."
#[derive(Clone, Copy)]
pub(super) struct Access {
    pub(super) asker: usize,
    pub(super) address: u8,
    pub(super) plain: bool,
    pub(super) number: u8,
}

impl Access {
    fn line(&self, state: State, m: u8, h: u8, word: u64) -> Line {
        Line { state, address: self.address, m, h, word }
    }

    /// The newest version, as a store with a VID places it: "S-M (a, a)".
    fn new_version(&self, word: u64) -> Line {
        self.line(State::SpecM, self.number, self.number, word)
    }
}

pub(super) fn load(contents: &mut Contents, asked: Access) -> Result<Answer, Refusal> {
    let owner = owner(contents, asked.address, asked.number);
    Change::attempt(contents, |change| match owner {
        Some((spot, line)) => load_version(change, asked, spot, line),
        None if asked.plain => load_plain(change, asked),
        None => load_first(change, asked),
    })
    .map(Answer::Value)
}

/// "Load, plain or not, speculative lines live."
fn load_version(
    change: &mut Change,
    asked: Access,
    spot: Spot,
    owner: Line,
) -> Result<u64, Refusal> {
    if spot.cache != asked.asker {
        // "or else an S-S that hits, its word is the value"; "An S-S hit
        // changes nothing", not even the h of the owner behind it.
        if let Some(word) = shared_hit(change.contents(), asked) {
            return Ok(word);
        }
        change.drop_lines(asked.address, |at, line| {
            at.cache == asked.asker && line.state == State::SpecS && line.m == owner.m
        });
        let copy = asked.line(State::SpecS, owner.m, asked.number + 1, owner.word);
        change.place(asked.asker, copy)?;
    }
    // "Unless plain, an owner in S-M or S-E that was read takes the larger of
    // h and a as its h."
    if !asked.plain && owner.state.is_newest() {
        change.rewrite(spot, Line { h: owner.h.max(asked.number), ..owner });
    }
    Ok(owner.word)
}

fn shared_hit(contents: &Contents, asked: Access) -> Option<u64> {
    contents.caches[asked.asker]
        .iter()
        .flatten()
        .find(|line| {
            line.address == asked.address
                && line.state == State::SpecS
                && line.is_hit_by(asked.number)
        })
        .map(|line| line.word)
}

/// "Plain load, otherwise."
fn load_plain(change: &mut Change, asked: Access) -> Result<u64, Refusal> {
    let held = plain_lines(change.contents(), asked.address);
    let word = settled_word(change.contents(), asked.address);
    if held.iter().any(|(spot, _)| spot.cache == asked.asker) {
        return Ok(word);
    }
    for (spot, line) in &held {
        match line.state {
            State::M => change.rewrite(*spot, line.settled_as(State::O)),
            State::E => change.rewrite(*spot, line.settled_as(State::S)),
            _ => {}
        }
    }
    let state = if held.is_empty() { State::E } else { State::S };
    change.place(asked.asker, asked.line(state, 0, 0, word))?;
    Ok(word)
}

/// "Load with a VID, otherwise. All lines of the address drop. The asker
/// places S-M (0, a) if one was M or O, else S-E (0, a)."
fn load_first(change: &mut Change, asked: Access) -> Result<u64, Refusal> {
    let word = settled_word(change.contents(), asked.address);
    let differs_from_memory = plain_lines(change.contents(), asked.address)
        .iter()
        .any(|(_, line)| matches!(line.state, State::M | State::O));
    let state = if differs_from_memory { State::SpecM } else { State::SpecE };
    change.drop_lines(asked.address, |_, _| true);
    change.place(asked.asker, asked.line(state, 0, asked.number, word))?;
    Ok(word)
}

pub(super) fn store(contents: &mut Contents, asked: Access, word: u64) -> Result<Answer, Refusal> {
    let owner = owner(contents, asked.address, asked.number);
    // "misspeculation comes before 11"
    if owner.is_some_and(|(_, line)| conflicts(&line, asked)) {
        upkeep::abort(contents);
        return Ok(Answer::Misspec);
    }
    Change::attempt(contents, |change| match owner {
        _ if asked.plain => store_plain(change, asked, word),
        Some((spot, line)) => store_version(change, asked, word, spot, line),
        None => store_first(change, asked, word),
    })?;
    Ok(Answer::Done)
}

/// "Owner S-O, or a < h in S-M or S-E: misspeculation"; for a plain store the
/// bound is "h > LCVID", which is the same test as its number is LCVID.
fn conflicts(owner: &Line, asked: Access) -> bool {
    owner.state == State::SpecO || asked.number < owner.h
}

/// "Else all lines of the address drop, the asker places M."
fn store_plain(change: &mut Change, asked: Access, word: u64) -> Result<(), Refusal> {
    change.drop_lines(asked.address, |_, _| true);
    change.place(asked.asker, asked.line(State::M, 0, 0, word))
}

/// "owner S-M with a = m: it and all S-S lines with that m drop"; "owner with
/// a > m: it becomes S-O (m, a) in its slot, S-S lines with that m drop".
fn store_version(
    change: &mut Change,
    asked: Access,
    word: u64,
    spot: Spot,
    owner: Line,
) -> Result<(), Refusal> {
    let same_version = asked.number == owner.m;
    if !same_version {
        let closed = Line { state: State::SpecO, h: asked.number, ..owner };
        change.rewrite(spot, closed);
    }
    change.drop_lines(asked.address, |at, line| {
        (at == spot && same_version) || (line.state == State::SpecS && line.m == owner.m)
    });
    change.place(asked.asker, asked.new_version(word))
}

/// "No speculative line live: all lines of the address drop; the asker places
/// S-O (0, a) with the old word, then S-M (a, a)."
fn store_first(change: &mut Change, asked: Access, word: u64) -> Result<(), Refusal> {
    let old_word = settled_word(change.contents(), asked.address);
    let old_version = asked.line(State::SpecO, 0, asked.number, old_word);
    change.drop_lines(asked.address, |_, _| true);
    change.place(asked.asker, old_version)?;
    change.place(asked.asker, asked.new_version(word))
}

fn plain_lines(contents: &Contents, address: u8) -> Vec<(Spot, Line)> {
    contents
        .lines()
        .filter(|(_, line)| line.address == address && !line.state.is_speculative())
        .map(|(spot, line)| (spot, *line))
        .collect()
}

/// "the word is that of the address's plain lines (they agree), else
/// memory's."
fn settled_word(contents: &Contents, address: u8) -> u64 {
    match plain_lines(contents, address).first() {
        Some((_, line)) => line.word,
        None => contents.memory[usize::from(address)],
    }
}
