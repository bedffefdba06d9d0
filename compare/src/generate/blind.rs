//! Traces drawn without a look at any machine.

use super::steer::word;
use crate::random::Random;
use second::step::Step;

/// The ranges of one blind trace; each one reaches a little too far.
struct Ranges {
    caches: u64,
    addresses: u64,
    vids: u64,
    slots: u64,
}

pub fn trace(random: &mut Random, steps: u64) -> Vec<u8> {
    let ranges = Ranges {
        caches: 1 + random.below(4),
        addresses: random.pick(&[1, 2, 3, 6, 20, 65]),
        vids: random.pick(&[3, 4, 6, 10, 66]),
        slots: random.pick(&[2, 4, 8, 17]),
    };
    let mut text = format!("caches={}\n", ranges.caches);
    let mut committed = 0;
    for _ in 0..steps {
        text.push_str(&step(random, &ranges, &mut committed).line());
    }
    text.into_bytes()
}

/// The count of commits is a guess: a commit may have been refused.
fn step(random: &mut Random, ranges: &Ranges, committed: &mut u64) -> Step {
    let bad_cache = u64::from(random.one_in(30));
    let cache = random.below(ranges.caches) + bad_cache;
    let at = random.below(ranges.addresses);
    let vid = match random.below(4) {
        0 => 0,
        1 => random.below(ranges.vids),
        _ => *committed + random.below(ranges.vids),
    };
    match random.below(20) {
        0..=8 => Step::Load { cache, vid, at },
        9..=14 => Step::Store { cache, vid, at, data: word(random) },
        15 | 16 => {
            *committed += 1;
            Step::Commit { vid: *committed }
        }
        17 | 18 => Step::Evict { cache, slot: random.below(ranges.slots) },
        _ if random.one_in(2) => Step::Abort,
        _ => {
            *committed = 0;
            Step::Reset
        }
    }
}
