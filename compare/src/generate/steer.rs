//! Steps drawn with an eye on the machine: slots in use, VIDs at the edges of
//! lines, ends of flights that fit what is in flight.

use super::lean::{Lean, Move};
use super::wrong;
use crate::random::Random;
use second::contents::{Contents, Line, State, LAST_VID, SLOTS};
use second::step::Step;

pub fn next_steps(random: &mut Random, lean: &Lean, now: &Contents) -> Vec<Step> {
    let lcvid = u64::from(now.lcvid);
    let cache = lean.cache(random);
    let one = match lean.next_move(random) {
        Move::Load => {
            let at = address(random, lean, now, cache);
            Step::Load { cache, vid: vid(random, lean, now, at), at }
        }
        Move::Store => {
            let at = address(random, lean, now, cache);
            Step::Store { cache, vid: vid(random, lean, now, at), at, data: word(random) }
        }
        Move::PlainLoad => Step::Load { cache, vid: 0, at: address(random, lean, now, cache) },
        Move::PlainStore => {
            let at = address(random, lean, now, cache);
            Step::Store { cache, vid: 0, at, data: word(random) }
        }
        Move::Commit => return commit(random, lcvid),
        Move::Abort => Step::Abort,
        Move::Reset => Step::Reset,
        Move::Evict => return evict(random, now, cache),
        Move::Ending => return ending(random, now),
        Move::Wrong => wrong::step(random, lean, now),
    };
    vec![one]
}

/// Half of the time an address that the cache holds, so that a full cache is
/// asked for its own lines too.
fn address(random: &mut Random, lean: &Lean, now: &Contents, cache: u64) -> u64 {
    let held: Vec<u8> =
        now.caches[cache as usize].iter().flatten().map(|line| line.address).collect();
    if held.is_empty() || random.one_in(2) {
        lean.address(random)
    } else {
        u64::from(random.pick(&held))
    }
}

/// A VID above LCVID if there is one, often at the edge of a line's range.
fn vid(random: &mut Random, lean: &Lean, now: &Contents, at: u64) -> u64 {
    let lcvid = u64::from(now.lcvid);
    let last = u64::from(LAST_VID);
    if lcvid == last {
        return 0;
    }
    let lines: Vec<Line> = lines_at(now, at);
    let drawn = if lines.is_empty() || !random.one_in(4) {
        lcvid + 1 + random.below(lean.ahead)
    } else {
        let line = random.pick(&lines);
        let edge = u64::from(random.pick(&[line.m, line.h]));
        (edge + random.below(3)).saturating_sub(1)
    };
    drawn.clamp(lcvid + 1, last)
}

fn lines_at(now: &Contents, at: u64) -> Vec<Line> {
    now.lines().filter(|(_, line)| u64::from(line.address) == at).map(|(_, line)| *line).collect()
}

/// Mostly small words that tell the stores of a trace apart.
pub fn word(random: &mut Random) -> u64 {
    match random.below(20) {
        0 => 0,
        1 => u64::MAX - random.below(2),
        2 => random.next(),
        _ => 1 + random.below(9_999),
    }
}

/// At the last VID a flight can only end.
fn commit(random: &mut Random, lcvid: u64) -> Vec<Step> {
    if lcvid < u64::from(LAST_VID) {
        return vec![Step::Commit { vid: lcvid + 1 }];
    }
    match random.below(8) {
        0 => vec![Step::Commit { vid: lcvid + 1 }],
        1 | 2 => vec![Step::Reset],
        _ => vec![Step::Load { cache: 0, vid: 0, at: 0 }],
    }
}

/// A slot in use, and often a load of its address afterwards: only that shows
/// in the report whether the word was kept.
fn evict(random: &mut Random, now: &Contents, cache: u64) -> Vec<Step> {
    let held: Vec<(usize, &Line)> = now.caches[cache as usize]
        .iter()
        .enumerate()
        .filter_map(|(slot, held)| Some((slot, held.as_ref()?)))
        .collect();
    if held.is_empty() || random.one_in(10) {
        return vec![Step::Evict { cache, slot: random.below(SLOTS as u64) }];
    }
    let (slot, line) = random.pick(&held);
    let mut steps = vec![Step::Evict { cache, slot: slot as u64 }];
    let asking = random.below(now.caches.len() as u64);
    let at = u64::from(line.address);
    match random.below(4) {
        0 => {}
        1 => steps.extend(others_of(now, at)),
        _ => steps.push(Step::Load { cache: asking, vid: 0, at }),
    }
    steps
}

/// Evictions of all lines of an address: whether a copy went with its owner
/// shows in the report as refusal 10.
fn others_of(now: &Contents, at: u64) -> impl Iterator<Item = Step> + '_ {
    let lines = now.lines().filter(move |(_, line)| u64::from(line.address) == at);
    lines.map(|(spot, _)| Step::Evict { cache: spot.cache as u64, slot: spot.slot as u64 })
}

fn ending(random: &mut Random, now: &Contents) -> Vec<Step> {
    let lcvid = u64::from(now.lcvid);
    let commit_up_to = |last: u64| (lcvid + 1..=last).map(|vid| Step::Commit { vid });
    let top = highest_in_flight(now);
    let mut steps: Vec<Step> = match random.below(6) {
        0 => vec![Step::Abort],
        1 => vec![Step::Abort, Step::Reset],
        2 => commit_up_to(63).chain([Step::Commit { vid: 64 }, Step::Reset]).collect(),
        3 => commit_up_to(top).chain(evictions(random, now)).collect(),
        // One commit short of settled: refusal 9, or an overflow.
        4 => commit_up_to(top.saturating_sub(1)).chain([Step::Reset]).collect(),
        _ => commit_up_to(top).chain([Step::Reset]).collect(),
    };
    if random.one_in(2) {
        steps.extend(looks(random, now));
    }
    steps
}

fn highest_in_flight(now: &Contents) -> u64 {
    let newest = |line: &Line| matches!(line.state, State::SpecM | State::SpecE);
    let top = now.lines().filter(|(_, line)| newest(line)).map(|(_, line)| line.h).max();
    u64::from(top.unwrap_or(0))
}

/// All slots of one cache, in either direction.
fn evictions(random: &mut Random, now: &Contents) -> Vec<Step> {
    let cache = random.place(now.caches.len());
    let held = (0..SLOTS).filter(|slot| now.caches[cache][*slot].is_some());
    let mut steps: Vec<Step> =
        held.map(|slot| Step::Evict { cache: cache as u64, slot: slot as u64 }).collect();
    if random.one_in(2) {
        steps.reverse();
    }
    steps
}

/// Plain loads of what was held, from any cache.
fn looks(random: &mut Random, now: &Contents) -> Vec<Step> {
    let mut held: Vec<u8> = now.lines().map(|(_, line)| line.address).collect();
    held.sort_unstable();
    held.dedup();
    held.truncate(6);
    let caches = now.caches.len() as u64;
    held.into_iter()
        .map(|at| Step::Load { cache: random.below(caches), vid: 0, at: u64::from(at) })
        .collect()
}
