//! When lines live, hit and own. Visible to the model only, so that the
//! checker has to bring its own reading of the same sentences.

use crate::contents::{Contents, Line, Slot, Spot, State};

impl State {
    pub(in crate::machine) fn is_speculative(self) -> bool {
        matches!(self, State::SpecM | State::SpecO | State::SpecE | State::SpecS)
    }

    /// The newest version of a word, open above: no range ends it.
    pub(in crate::machine) fn is_newest(self) -> bool {
        matches!(self, State::SpecM | State::SpecE)
    }
}

impl Line {
    /// "Dead: an S-O or S-S line with h ≤ LCVID."
    pub(in crate::machine) fn is_dead(&self, lcvid: u8) -> bool {
        matches!(self.state, State::SpecO | State::SpecS) && self.h <= lcvid
    }

    /// "S-M and S-E hit if a ≥ m; S-O and S-S if m ≤ a < h." No access has a
    /// number below LCVID, so a dead line never passes this test.
    pub(in crate::machine) fn is_hit_by(&self, number: u8) -> bool {
        match self.state {
            State::SpecM | State::SpecE => self.m <= number,
            State::SpecO | State::SpecS => (self.m..self.h).contains(&number),
            State::M | State::O | State::E | State::S => false,
        }
    }

    /// A line out of speculation: "with VIDs 0, 0".
    pub(in crate::machine) fn settled_as(self, state: State) -> Line {
        Line { state, m: 0, h: 0, ..self }
    }
}

/// "free means empty, dead, or dropped by this very step"; what a step drops
/// is empty by the time it places, as "Dropping comes before placing".
pub(super) fn is_free(slot: &Slot, lcvid: u8) -> bool {
    slot.as_ref().is_none_or(|line| line.is_dead(lcvid))
}

/// "The owner for a is the S-M, S-E or live S-O line of the address that
/// hits." In a sound machine there is one exactly when a speculative line of
/// the address lives: the ranges join and start at or below LCVID.
pub(super) fn owner(contents: &Contents, address: u8, number: u8) -> Option<(Spot, Line)> {
    contents
        .lines()
        .find(|(_, line)| {
            line.address == address && line.state != State::SpecS && line.is_hit_by(number)
        })
        .map(|(spot, line)| (spot, *line))
}
