//! Slot changes of one access, kept undoable: refusal 11 shows itself only
//! when the last line finds no slot, and then "the machine comes back
//! unchanged".

use super::rules::is_free;
use crate::contents::{Contents, Line, Slot, Spot};
use crate::step::Refusal;

pub(super) struct Change<'a> {
    contents: &'a mut Contents,
    undo: Vec<(Spot, Slot)>,
}

impl<'a> Change<'a> {
    /// Does the work, or none of it.
    pub(super) fn attempt<T>(
        contents: &'a mut Contents,
        work: impl FnOnce(&mut Change) -> Result<T, Refusal>,
    ) -> Result<T, Refusal> {
        let mut change = Change { contents, undo: Vec::new() };
        let outcome = work(&mut change);
        if outcome.is_err() {
            change.take_back();
        }
        outcome
    }

    fn take_back(self) {
        for (spot, before) in self.undo.into_iter().rev() {
            *self.contents.slot_mut(spot) = before;
        }
    }

    pub(super) fn contents(&self) -> &Contents {
        self.contents
    }

    fn set(&mut self, spot: Spot, after: Slot) {
        let before = std::mem::replace(self.contents.slot_mut(spot), after);
        self.undo.push((spot, before));
    }

    /// Changes a line "in its slot".
    pub(super) fn rewrite(&mut self, spot: Spot, line: Line) {
        self.set(spot, Some(line));
    }

    /// "Drop empties slots, of dead lines too."
    pub(super) fn drop_lines(&mut self, address: u8, chosen: impl Fn(Spot, &Line) -> bool) {
        let spots: Vec<Spot> = self
            .contents
            .lines()
            .filter(|(spot, line)| line.address == address && chosen(*spot, line))
            .map(|(spot, _)| spot)
            .collect();
        for spot in spots {
            self.set(spot, None);
        }
    }

    /// "Place uses the lowest free slot of the asking cache."
    pub(super) fn place(&mut self, cache: usize, line: Line) -> Result<(), Refusal> {
        let lcvid = self.contents.lcvid;
        let slot = self.contents.caches[cache]
            .iter()
            .position(|slot| is_free(slot, lcvid))
            .ok_or(Refusal::NoRoom)?;
        self.set(Spot { cache, slot }, Some(line));
        Ok(())
    }
}
