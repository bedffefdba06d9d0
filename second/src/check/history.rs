//! Demand 3, as literally as can be: the whole list of accesses is kept,
//! struck, sorted and replayed on a memory without caches. Nothing is known
//! here of caches or lines; all of it comes from steps and their answers.

use crate::contents::Memory;
use crate::step::{Answer, Step};

#[derive(Clone, Copy, Debug)]
enum Deed {
    Loaded(u64),
    Stored(u64),
}

#[derive(Clone, Copy, Debug)]
struct Access {
    /// Counts every observed step, so that a fault names the load it is about.
    place: usize,
    flight: usize,
    /// As asked: 0 when plain, so a plain access is never struck by an abort.
    vid: u64,
    /// "a plain access counts as the VID so last committed when it was made".
    counts_as: u64,
    address: usize,
    deed: Deed,
    struck: bool,
}

/// A run so far, from a fresh machine on.
pub struct History {
    start: Memory,
    observed: usize,
    flight: usize,
    committed: u64,
    accesses: Vec<Access>,
}

impl History {
    /// "starting with the same words" as the fresh machine.
    pub fn new(start: Memory) -> History {
        History { start, observed: 0, flight: 0, committed: 0, accesses: Vec::new() }
    }

    /// Takes down a step and what it was answered; an answer that no step of
    /// that kind can be given is a fault of its own.
    pub fn observe(&mut self, step: Step, answer: Answer) -> Result<(), String> {
        self.observed += 1;
        match (step, answer) {
            // "Strike the refused ones."
            (_, Answer::Refused(_)) => {}
            (Step::Load { vid, at, .. }, Answer::Value(word)) => {
                self.note(vid, at, Deed::Loaded(word));
            }
            (Step::Store { vid, at, data, .. }, Answer::Done) => {
                self.note(vid, at, Deed::Stored(data));
            }
            // "strike the step that forced it": it is never taken down.
            (Step::Store { .. }, Answer::Misspec) => self.strike(),
            (Step::Evict { .. }, Answer::Overflow) => self.strike(),
            (Step::Abort, Answer::Done) => self.strike(),
            (Step::Commit { vid }, Answer::Done) => self.committed = vid,
            // "A flight begins at the start and after each reset."
            (Step::Reset, Answer::Done) => {
                self.flight += 1;
                self.committed = 0;
            }
            (Step::Evict { .. }, Answer::Done) => {}
            _ => return Err(format!("{step:?} can't be answered {answer:?}")),
        }
        Ok(())
    }

    /// "the last committed in" the flight at hand, "(0 if none)".
    pub fn last_committed(&self) -> u64 {
        self.committed
    }

    fn note(&mut self, vid: u64, at: u64, deed: Deed) {
        self.accesses.push(Access {
            place: self.observed,
            flight: self.flight,
            vid,
            counts_as: if vid == 0 { self.committed } else { vid },
            address: at as usize,
            deed,
            struck: false,
        });
    }

    /// "strike ... all loads and stores made in that flight with a VID above
    /// the last committed in it (0 if none)".
    fn strike(&mut self) {
        for access in &mut self.accesses {
            if access.flight == self.flight && access.vid > self.committed {
                access.struck = true;
            }
        }
    }

    /// "each load still standing returned what a memory without caches ...
    /// returns when the standing loads and stores run flight by flight, in
    /// each flight by VID, in one VID in list order".
    pub fn verify(&self) -> Result<(), String> {
        let mut standing: Vec<&Access> =
            self.accesses.iter().filter(|access| !access.struck).collect();
        // A stable sort, which keeps list order inside one VID.
        standing.sort_by_key(|access| (access.flight, access.counts_as));
        let mut memory = self.start;
        for access in standing {
            match access.deed {
                Deed::Stored(word) => memory[access.address] = word,
                Deed::Loaded(word) if word == memory[access.address] => {}
                Deed::Loaded(word) => {
                    let (place, due) = (access.place, memory[access.address]);
                    return Err(format!("demand 3 broken: step {place} loaded {word}, due {due}"));
                }
            }
        }
        Ok(())
    }
}

#[cfg(test)]
mod tests {
    use super::*;
    use crate::step::Refusal;

    fn load(vid: u64) -> Step {
        Step::Load { cache: 0, vid, at: 5 }
    }

    fn store(vid: u64, data: u64) -> Step {
        Step::Store { cache: 0, vid, at: 5, data }
    }

    fn holds(list: &[(Step, Answer)]) -> bool {
        let mut history = History::new([0; 64]);
        list.iter().all(|(step, answer)| {
            history.observe(*step, *answer).is_ok() && history.verify().is_ok()
        })
    }

    #[test]
    fn a_version_is_read_by_its_own_and_later_vids() {
        let stored = (store(2, 7), Answer::Done);
        assert!(holds(&[stored, (load(2), Answer::Value(7))]));
        assert!(holds(&[stored, (load(3), Answer::Value(7))]));
        assert!(holds(&[stored, (load(1), Answer::Value(0))]));
        assert!(!holds(&[stored, (load(3), Answer::Value(0))]));
        assert!(!holds(&[stored, (load(1), Answer::Value(7))]));
    }

    #[test]
    fn a_store_that_comes_too_late_breaks_a_standing_load() {
        let late = [(load(3), Answer::Value(0)), (store(2, 7), Answer::Done)];
        assert!(!holds(&late));
        let caught = [(load(3), Answer::Value(0)), (store(2, 7), Answer::Misspec)];
        assert!(holds(&caught));
    }

    #[test]
    fn refused_and_aborted_stores_leave_no_trace() {
        let refused = (store(1, 7), Answer::Refused(Refusal::NoRoom));
        assert!(holds(&[refused, (load(1), Answer::Value(0))]));
        let undone = [(store(1, 7), Answer::Done), (Step::Abort, Answer::Done)];
        assert!(holds(&[undone[0], undone[1], (load(1), Answer::Value(0))]));
        assert!(!holds(&[undone[0], undone[1], (load(1), Answer::Value(7))]));
    }

    #[test]
    fn plain_and_committed_stores_outlive_an_abort() {
        let plain = [(store(0, 7), Answer::Done), (Step::Abort, Answer::Done)];
        assert!(!holds(&[plain[0], plain[1], (load(0), Answer::Value(0))]));
        let commit = (Step::Commit { vid: 1 }, Answer::Done);
        let undone = (Step::Abort, Answer::Done);
        let stored = (store(1, 7), Answer::Done);
        assert!(holds(&[stored, commit, undone, (load(0), Answer::Value(7))]));
        assert!(!holds(&[stored, commit, undone, (load(0), Answer::Value(0))]));
    }

    #[test]
    fn a_new_flight_comes_after_all_of_the_old_one() {
        let old = [
            (store(1, 7), Answer::Done),
            (Step::Commit { vid: 1 }, Answer::Done),
            (Step::Reset, Answer::Done),
        ];
        assert!(holds(&[old[0], old[1], old[2], (load(0), Answer::Value(7))]));
        assert!(!holds(&[old[0], old[1], old[2], (load(0), Answer::Value(0))]));
    }

    #[test]
    fn an_answer_must_belong_to_its_step() {
        assert!(!holds(&[(load(1), Answer::Misspec)]));
        assert!(!holds(&[(store(1, 7), Answer::Value(7))]));
        assert!(!holds(&[(Step::Reset, Answer::Overflow)]));
    }
}
