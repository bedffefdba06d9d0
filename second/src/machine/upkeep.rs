//! Steps that settle or clear lines: abort, reset, evict.

use crate::contents::{Contents, Line, Slot, Spot, State};
use crate::step::{Answer, Refusal};

fn each_slot(contents: &mut Contents, settle: impl Fn(Line) -> Slot) {
    for slot in contents.caches.iter_mut().flatten() {
        *slot = slot.and_then(&settle);
    }
}

/// "S-S lines drop. Other speculative lines that LCVID hits become M (from
/// S-M, S-O) or E (from S-E) with VIDs 0, 0; the rest drop. Plain lines and
/// LCVID stay."
pub(super) fn abort(contents: &mut Contents) {
    let lcvid = contents.lcvid;
    each_slot(contents, |line| match line.state {
        State::SpecS => None,
        State::SpecM | State::SpecO => line.is_hit_by(lcvid).then(|| line.settled_as(State::M)),
        State::SpecE => line.is_hit_by(lcvid).then(|| line.settled_as(State::E)),
        State::M | State::O | State::E | State::S => Some(line),
    });
}

/// "S-M becomes M, S-E becomes E, both with VIDs 0, 0; S-O and S-S drop;
/// LCVID becomes 0 and a new flight begins."
pub(super) fn reset(contents: &mut Contents) -> Result<Answer, Refusal> {
    let lcvid = contents.lcvid;
    if contents.lines().any(|(_, line)| line.state.is_newest() && line.h > lcvid) {
        return Err(Refusal::FlightUnsettled);
    }
    each_slot(contents, |line| match line.state {
        State::SpecM => Some(line.settled_as(State::M)),
        State::SpecE => Some(line.settled_as(State::E)),
        State::SpecO | State::SpecS => None,
        State::M | State::O | State::E | State::S => Some(line),
    });
    contents.lcvid = 0;
    Ok(Answer::Done)
}

/// Dead lines hold no word anyone can still ask for; a settled S-M, on the
/// contrary, holds the only copy of its word.
pub(super) fn evict(contents: &mut Contents, spot: Spot) -> Result<Answer, Refusal> {
    let line = contents.slot_mut(spot).ok_or(Refusal::SlotIsEmpty)?;
    let lcvid = contents.lcvid;
    match line.state {
        State::SpecO | State::SpecS if line.is_dead(lcvid) => {}
        State::E | State::S | State::SpecS => {}
        State::M | State::O => write_back(contents, line),
        State::SpecM if line.h <= lcvid => {
            write_back(contents, line);
            drop_copies(contents, line);
        }
        State::SpecE if line.h <= lcvid => drop_copies(contents, line),
        State::SpecM | State::SpecE | State::SpecO => {
            abort(contents);
            return Ok(Answer::Overflow);
        }
    }
    *contents.slot_mut(spot) = None;
    Ok(Answer::Done)
}

fn write_back(contents: &mut Contents, line: Line) {
    contents.memory[usize::from(line.address)] = line.word;
}

/// "S-S lines with that m and address drop".
fn drop_copies(contents: &mut Contents, owner: Line) {
    each_slot(contents, |line| {
        let is_copy =
            line.state == State::SpecS && line.address == owner.address && line.m == owner.m;
        (!is_copy).then_some(line)
    });
}
