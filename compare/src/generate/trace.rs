//! Good traces, step by step, with the second program's machine running along
//! so that the next step can be drawn near what the machine holds.

use super::lean::Lean;
use super::{blind, breaks, long, steer};
use crate::random::Random;
use second::contents::{Contents, SLOTS, WORDS};
use second::step::Step;
use second::Machine;

pub struct Trace {
    text: String,
    machine: Machine,
}

impl Trace {
    pub fn open(caches: u64) -> Trace {
        let (machine, _) = Machine::make(caches, [0; WORDS]);
        Trace { text: format!("caches={caches}\n"), machine }
    }

    pub fn add(&mut self, step: Step) {
        self.text.push_str(&step.line());
        self.machine.step(step);
    }

    pub fn now(&self) -> &Contents {
        self.machine.contents()
    }

    pub fn len(&self) -> usize {
        self.text.len()
    }

    pub fn into_text(self) -> Vec<u8> {
        self.text.into_bytes()
    }
}

/// A trace as the comparison plays it. A few begin with a refused first line
/// or have an unreadable one, so that traces alone show every refusal but that
/// of a text that is too long.
pub fn any(random: &mut Random) -> Vec<u8> {
    match random.below(120) {
        0 | 1 => refused_at_once(random),
        2..=6 => unreadable(random),
        7 => long::up_to_limit(random),
        _ => good(random),
    }
}

/// A share is drawn blind: what the machine holds must not decide alone what
/// is ever asked of it.
pub fn good(random: &mut Random) -> Vec<u8> {
    if random.one_in(5) {
        let steps = 1 + random.below(120);
        blind::trace(random, steps)
    } else {
        steered(random, None)
    }
}

/// A short one, for the damage.
pub fn short(random: &mut Random) -> Vec<u8> {
    let steps = 1 + random.below(25);
    if random.one_in(5) {
        blind::trace(random, steps)
    } else {
        steered(random, Some(steps))
    }
}

fn steered(random: &mut Random, steps: Option<u64>) -> Vec<u8> {
    let lean = Lean::draw(random);
    let mut trace = Trace::open(lean.caches);
    let mut left = steps.unwrap_or(lean.steps);
    while left > 0 {
        for step in steer::next_steps(random, &lean, trace.now()) {
            trace.add(step);
            left = left.saturating_sub(1);
        }
    }
    if random.one_in(4) {
        sweep(random, &mut trace, lean.caches);
    }
    trace.into_text()
}

/// Asks each slot of a cache in turn: the report then tells which ones held
/// a line, and so where lines were placed.
fn sweep(random: &mut Random, trace: &mut Trace, caches: u64) {
    let cache = random.below(caches);
    for slot in 0..SLOTS as u64 {
        trace.add(Step::Evict { cache, slot });
    }
}

fn refused_at_once(random: &mut Random) -> Vec<u8> {
    let caches = random.pick(&[0, 0, 5, 5, 5, 6, 255, 256, 257, (1 << 32) + 1, u64::MAX]);
    let mut text = format!("caches={caches}\n").into_bytes();
    let rest = short(random);
    text.extend(rest.split_inclusive(|byte| *byte == b'\n').skip(1).flatten());
    text
}

fn unreadable(random: &mut Random) -> Vec<u8> {
    let mut text = good(random);
    breaks::one(random, &mut text);
    text
}
