//! What a trace leans to. A trace that does a bit of everything rarely gets
//! deep into anything, so each one keeps to a few habits.

use crate::random::Random;

#[derive(Clone, Copy, PartialEq, Eq)]
pub enum Move {
    Load,
    Store,
    PlainLoad,
    PlainStore,
    Commit,
    Abort,
    Reset,
    Evict,
    /// A way for a flight to end, followed by a look at what is left.
    Ending,
    /// A step that is to be refused.
    Wrong,
}

use Move::{Abort, Commit, Ending, Evict, Load, PlainLoad, PlainStore, Reset, Store, Wrong};

type Habits = &'static [(Move, u64)];

const MIXED: Habits = &[
    (Load, 30),
    (Store, 22),
    (PlainLoad, 12),
    (PlainStore, 5),
    (Commit, 12),
    (Abort, 2),
    (Reset, 2),
    (Evict, 8),
    (Ending, 3),
    (Wrong, 4),
];
/// Long rows of versions with copies everywhere.
const VERSIONS: Habits =
    &[(Load, 48), (Store, 36), (PlainLoad, 6), (Commit, 6), (Evict, 2), (Ending, 2)];
/// Many lines in few caches, until nothing fits.
const FULL: Habits = &[
    (Load, 40),
    (Store, 25),
    (PlainLoad, 14),
    (PlainStore, 6),
    (Commit, 6),
    (Evict, 6),
    (Ending, 1),
    (Wrong, 2),
];
/// Up to the last VID and over its edge.
const COMMITS: Habits = &[
    (Load, 16),
    (Store, 14),
    (PlainLoad, 8),
    (PlainStore, 2),
    (Commit, 50),
    (Reset, 1),
    (Evict, 5),
    (Ending, 1),
    (Wrong, 3),
];
const EVICTIONS: Habits = &[
    (Load, 24),
    (Store, 18),
    (PlainLoad, 14),
    (PlainStore, 6),
    (Commit, 14),
    (Evict, 22),
    (Ending, 2),
];
const PLAIN: Habits = &[
    (PlainLoad, 40),
    (PlainStore, 16),
    (Load, 12),
    (Store, 6),
    (Commit, 6),
    (Evict, 14),
    (Abort, 2),
    (Ending, 4),
];
const WRONGS: Habits = &[(Load, 16), (Store, 14), (Commit, 16), (Evict, 4), (Wrong, 50)];

/// One trace's habits and the ranges its numbers come from.
pub struct Lean {
    pub caches: u64,
    pub addresses: u64,
    /// How far VIDs run ahead of LCVID.
    pub ahead: u64,
    /// Whether most steps ask cache 0, to fill it.
    pub one_sided: bool,
    pub steps: u64,
    habits: Habits,
}

impl Lean {
    pub fn draw(random: &mut Random) -> Lean {
        let habits =
            random.pick(&[MIXED, MIXED, VERSIONS, FULL, FULL, COMMITS, EVICTIONS, PLAIN, WRONGS]);
        let full = std::ptr::eq(habits, FULL);
        let many = std::ptr::eq(habits, COMMITS) || full;
        let caches: &[u64] = if full { &[1, 1, 2, 2, 3] } else { &[1, 2, 2, 3, 3, 4] };
        let addresses: &[u64] = if full { &[9, 17, 20, 40, 64] } else { &[1, 1, 2, 2, 3, 5] };
        Lean {
            caches: random.pick(caches),
            addresses: random.pick(addresses),
            ahead: random.pick(&[1, 2, 3, 4, 6, 10, 63]),
            one_sided: full,
            steps: if many { 50 + random.below(100) } else { 1 + random.below(90) },
            habits,
        }
    }

    pub fn next_move(&self, random: &mut Random) -> Move {
        let whole = self.habits.iter().map(|habit| habit.1).sum();
        let mut left = random.below(whole);
        for (next, weight) in self.habits {
            if left < *weight {
                return *next;
            }
            left -= weight;
        }
        Move::Load
    }

    pub fn cache(&self, random: &mut Random) -> u64 {
        if self.one_sided && !random.one_in(4) {
            0
        } else {
            random.below(self.caches)
        }
    }

    /// Addresses are spread over all 64, with both ends among them.
    pub fn address(&self, random: &mut Random) -> u64 {
        let spread = 63 / self.addresses.max(2).saturating_sub(1);
        random.below(self.addresses) * spread
    }
}
