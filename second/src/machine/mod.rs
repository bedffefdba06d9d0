//! The machine, changed in place. The refusals that need no search are judged
//! here before anything moves; the only one found half way, 11, is undone by
//! [`change::Change`].

mod access;
mod change;
mod rules;
mod upkeep;

use crate::check::house;
use crate::contents::{Contents, Memory, Spot, LAST_VID, MOST_CACHES, SLOTS, WORDS};
use crate::step::{Answer, Refusal, Step};
use access::Access;

/// A sound machine: it begins fresh or checked, and only steps change it.
#[derive(Clone, Debug, PartialEq, Eq)]
pub struct Machine {
    contents: Contents,
}

impl Machine {
    /// "A fresh machine has every slot empty, LCVID (last committed VID) 0, and
    /// a memory of 64 words given by the caller"; refusal "1 hands back a fresh
    /// one-cache machine with zero memory".
    pub fn make(caches: u64, memory: Memory) -> (Machine, Answer) {
        match index_below(caches, MOST_CACHES + 1) {
            Some(count @ 1..) => (Machine::fresh(count, memory), Answer::Done),
            _ => (Machine::fresh(1, [0; WORDS]), Answer::Refused(Refusal::CacheCount)),
        }
    }

    fn fresh(count: usize, memory: Memory) -> Machine {
        let caches = vec![[None; SLOTS]; count];
        Machine { contents: Contents { caches, memory, lcvid: 0 } }
    }

    /// Takes in a machine from outside. Refusal 2 is given here once, rather
    /// than at each step, because no step makes a sound machine unsound.
    pub fn adopt(contents: Contents) -> Result<Machine, Refusal> {
        match house::verify(&contents) {
            Ok(()) => Ok(Machine { contents }),
            Err(_) => Err(Refusal::Unsound),
        }
    }

    pub fn contents(&self) -> &Contents {
        &self.contents
    }

    /// Takes one step. A refused step leaves the machine as it was.
    pub fn step(&mut self, step: Step) -> Answer {
        self.try_step(step).unwrap_or_else(Answer::Refused)
    }

    fn try_step(&mut self, step: Step) -> Result<Answer, Refusal> {
        match step {
            Step::Load { cache, vid, at } => {
                let asked = self.admit(cache, vid, at)?;
                access::load(&mut self.contents, asked)
            }
            Step::Store { cache, vid, at, data } => {
                let asked = self.admit(cache, vid, at)?;
                access::store(&mut self.contents, asked, data)
            }
            Step::Commit { vid } => self.commit(vid),
            Step::Abort => {
                upkeep::abort(&mut self.contents);
                Ok(Answer::Done)
            }
            Step::Reset => upkeep::reset(&mut self.contents),
            Step::Evict { cache, slot } => {
                let cache = self.cache_index(cache)?;
                let slot = index_below(slot, SLOTS).ok_or(Refusal::NoSuchSlot)?;
                upkeep::evict(&mut self.contents, Spot { cache, slot })
            }
        }
    }

    /// "The order of checks is 2 to 11 as numbered": 3, 4, 6, 7 for accesses.
    fn admit(&self, cache: u64, vid: u64, at: u64) -> Result<Access, Refusal> {
        let asker = self.cache_index(cache)?;
        let address = index_below(at, WORDS).ok_or(Refusal::NoSuchAddress)? as u8;
        let vid = vid_of(vid)?;
        let lcvid = self.contents.lcvid;
        match vid {
            0 => Ok(Access { asker, address, plain: true, number: lcvid }),
            _ if vid <= lcvid => Err(Refusal::VidIsCommitted),
            _ => Ok(Access { asker, address, plain: false, number: vid }),
        }
    }

    fn cache_index(&self, cache: u64) -> Result<usize, Refusal> {
        index_below(cache, self.contents.caches.len()).ok_or(Refusal::NoSuchCache)
    }

    /// "Commit c: LCVID becomes c. Nothing else changes."
    fn commit(&mut self, vid: u64) -> Result<Answer, Refusal> {
        let vid = vid_of(vid)?;
        if vid != self.contents.lcvid + 1 {
            return Err(Refusal::CommitOutOfTurn);
        }
        self.contents.lcvid = vid;
        Ok(Answer::Done)
    }
}

fn index_below(number: u64, limit: usize) -> Option<usize> {
    usize::try_from(number).ok().filter(|index| *index < limit)
}

fn vid_of(number: u64) -> Result<u8, Refusal> {
    match u8::try_from(number) {
        Ok(vid) if vid <= LAST_VID => Ok(vid),
        _ => Err(Refusal::NoSuchVid),
    }
}
