//! Steps that are to be refused, several numbers wrong at once among them:
//! the order of the checks shows only there.

use super::lean::Lean;
use super::steer::word;
use crate::random::Random;
use second::contents::{Contents, SLOTS};
use second::step::Step;

/// Just over the edge, or far enough to come back in if it were narrowed.
fn too_large(random: &mut Random, limit: u64) -> u64 {
    match random.below(6) {
        0 => limit + 1 + random.below(8),
        1 => 256 + random.below(limit),
        2 => (1 << 32) + random.below(limit),
        3 => u64::MAX - random.below(limit),
        _ => limit,
    }
}

pub fn step(random: &mut Random, lean: &Lean, now: &Contents) -> Step {
    match random.below(10) {
        0..=4 => access(random, lean, now),
        5 | 6 => commit(random, now),
        7 | 8 => evict(random, lean, now),
        _ => Step::Reset,
    }
}

/// Each of the three numbers is wrong or not; none wrong is a step as well.
fn access(random: &mut Random, lean: &Lean, now: &Contents) -> Step {
    let cache = if random.one_in(3) { too_large(random, lean.caches) } else { lean.cache(random) };
    let at = if random.one_in(3) { too_large(random, 64) } else { lean.address(random) };
    let lcvid = u64::from(now.lcvid);
    let vid = match random.below(5) {
        0 => too_large(random, 64),
        1 => lcvid,
        2 => lcvid + 1,
        3 => 1 + random.below(lcvid.max(1)),
        _ => 0,
    };
    if random.one_in(2) {
        Step::Load { cache, vid, at }
    } else {
        Step::Store { cache, vid, at, data: word(random) }
    }
}

fn commit(random: &mut Random, now: &Contents) -> Step {
    let lcvid = u64::from(now.lcvid);
    let large = too_large(random, 64);
    Step::Commit { vid: random.pick(&[0, lcvid, lcvid + 2, 63, 64, large]) }
}

fn evict(random: &mut Random, lean: &Lean, now: &Contents) -> Step {
    let cache = if random.one_in(4) { too_large(random, lean.caches) } else { lean.cache(random) };
    let slots = SLOTS as u64;
    let empty = now.caches[0].iter().position(Option::is_none).unwrap_or(0) as u64;
    let slot = match random.below(3) {
        0 => too_large(random, slots),
        1 => empty,
        _ => random.below(slots),
    };
    Step::Evict { cache, slot }
}
