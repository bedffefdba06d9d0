//! Texts at the limit of 65,536 bytes and past it.

use super::lean::Lean;
use super::steer;
use super::trace::Trace;
use crate::random::Random;
use second::step::Step;
use second::trace::MOST_BYTES;

/// More than the longest step line takes, four numbers of 20 digits.
const ROOM_FOR_ANY: usize = 180;
/// `op=abort cache=0 vid=0 at=0 data=0` and its LF, as long as the shortest
/// store.
const SHORTEST: usize = 35;
/// The most digits by which a store's data can be longer than one.
const MORE_DIGITS: usize = 19;

/// A trace that ends at the limit or a little before.
pub fn up_to_limit(random: &mut Random) -> Vec<u8> {
    let limit = if random.one_in(2) { MOST_BYTES } else { MOST_BYTES - random.place(40_000) };
    of_length(random, limit)
}

/// A good trace of exactly that many bytes: the last two stores take as many
/// digits as are left.
pub fn of_length(random: &mut Random, length: usize) -> Vec<u8> {
    let lean = Lean::draw(random);
    let mut trace = Trace::open(lean.caches);
    while length - trace.len() > ROOM_FOR_ANY {
        for step in steer::next_steps(random, &lean, trace.now()) {
            if length - trace.len() > ROOM_FOR_ANY {
                trace.add(step);
            }
        }
    }
    while length - trace.len() > 2 * (SHORTEST + MORE_DIGITS) {
        trace.add(Step::Abort);
    }
    for stores_left in [2, 1] {
        let over = length - trace.len() - stores_left * SHORTEST;
        let digits = 1 + over.min(MORE_DIGITS);
        trace.add(Step::Store { cache: 0, vid: 0, at: 0, data: ones(digits) });
    }
    trace.into_text()
}

/// 1, 11, 111 and so on.
fn ones(digits: usize) -> u64 {
    (0..digits).fold(0, |number, _| number * 10 + 1)
}

/// Around the limit and well past it; whole to the last byte or cut there.
pub fn around_limit(random: &mut Random) -> Vec<u8> {
    let near = MOST_BYTES + random.place(6) - 1;
    let length = random.pick(&[near, near, MOST_BYTES, MOST_BYTES + 1, 70_000]);
    if random.one_in(3) {
        let mut text = of_length(random, length + ROOM_FOR_ANY);
        text.truncate(length);
        return text;
    }
    of_length(random, length)
}
