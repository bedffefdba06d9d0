//! Seeded random traces, steered to where caches fill, VIDs meet and flights
//! end. The steering looks at a machine, but only at its LCVID and lines. Also
//! such traces damaged.

use second::contents::{Contents, SLOTS, WORDS};
use second::step::Step;
use second::Machine;

/// SplitMix64.
pub struct Random(pub u64);

impl Random {
    pub fn next(&mut self) -> u64 {
        self.0 = self.0.wrapping_add(0x9E37_79B9_7F4A_7C15);
        let mut z = self.0;
        z = (z ^ (z >> 30)).wrapping_mul(0xBF58_476D_1CE4_E5B9);
        z = (z ^ (z >> 27)).wrapping_mul(0x94D0_49BB_1331_11EB);
        z ^ (z >> 31)
    }

    pub fn below(&mut self, limit: u64) -> u64 {
        self.next() % limit
    }

    pub fn one_in(&mut self, odds: u64) -> bool {
        self.below(odds) == 0
    }
}

pub fn setting(name: &str, otherwise: u64) -> u64 {
    std::env::var(name).map_or(otherwise, |text| text.parse().expect("a number"))
}

/// What one trace leans to.
struct Bent {
    caches: u64,
    addresses: u64,
    vids_ahead: u64,
    commits: u64,
    evictions: u64,
    endings: u64,
    mistakes: u64,
}

impl Bent {
    fn draw(random: &mut Random) -> Bent {
        const ADDRESSES: [u64; 8] = [1, 2, 2, 3, 4, 12, 20, 40];
        const AHEAD: [u64; 6] = [1, 2, 3, 4, 8, 63];
        const COMMITS: [u64; 4] = [3, 6, 12, 40];
        const EVICTIONS: [u64; 5] = [3, 8, 20, 60, 10_000];
        const ENDINGS: [u64; 4] = [15, 40, 120, 1_000];
        Bent {
            caches: 1 + random.below(4),
            addresses: ADDRESSES[random.below(8) as usize],
            vids_ahead: AHEAD[random.below(6) as usize],
            commits: COMMITS[random.below(4) as usize],
            evictions: EVICTIONS[random.below(5) as usize],
            endings: ENDINGS[random.below(4) as usize],
            mistakes: [30, 200][random.below(2) as usize],
        }
    }
}

/// A trace of about as many steps as asked for.
pub fn trace(random: &mut Random, steps: usize) -> String {
    let bent = Bent::draw(random);
    let (mut machine, _) = Machine::make(bent.caches, [0; WORDS]);
    let mut text = format!("caches={}\n", bent.caches);
    let mut taken = 0;
    while taken < steps {
        for step in next_steps(random, &bent, machine.contents()) {
            machine.step(step);
            text.push_str(&step.line());
            taken += 1;
        }
    }
    text
}

fn next_steps(random: &mut Random, bent: &Bent, now: &Contents) -> Vec<Step> {
    let lcvid = u64::from(now.lcvid);
    if random.one_in(bent.mistakes) {
        return vec![mistake(random, bent, lcvid)];
    }
    if random.one_in(bent.endings) {
        return ending(random, lcvid);
    }
    if random.one_in(bent.commits) {
        let full = lcvid == 63 && !random.one_in(4);
        return vec![if full { Step::Reset } else { Step::Commit { vid: lcvid + 1 } }];
    }
    let cache = random.below(bent.caches);
    if random.one_in(bent.evictions) {
        return vec![Step::Evict { cache, slot: likely_slot(random, now, cache as usize) }];
    }
    vec![access(random, bent, cache, lcvid)]
}

fn access(random: &mut Random, bent: &Bent, cache: u64, lcvid: u64) -> Step {
    let at = random.below(bent.addresses);
    let ahead = 1 + random.below(bent.vids_ahead);
    let vid = if lcvid >= 63 || random.one_in(4) { 0 } else { (lcvid + ahead).min(63) };
    if random.one_in(2) {
        Step::Load { cache, vid, at }
    } else {
        Step::Store { cache, vid, at, data: 1 + random.below(1_000_000) }
    }
}

fn likely_slot(random: &mut Random, now: &Contents, cache: usize) -> u64 {
    let held: Vec<usize> = (0..SLOTS).filter(|slot| now.caches[cache][*slot].is_some()).collect();
    match held.len() {
        0 => random.below(SLOTS as u64),
        some => held[random.below(some as u64) as usize] as u64,
    }
}

/// Ways a flight comes to its end, whole or not.
fn ending(random: &mut Random, lcvid: u64) -> Vec<Step> {
    let commit_up_to = |last: u64| (lcvid + 1..=last).map(|vid| Step::Commit { vid });
    match random.below(5) {
        0 => vec![Step::Abort],
        1 => vec![Step::Reset],
        2 => vec![Step::Abort, Step::Reset],
        3 => commit_up_to(63).collect(),
        _ => commit_up_to(63).chain([Step::Reset]).collect(),
    }
}

fn mistake(random: &mut Random, bent: &Bent, lcvid: u64) -> Step {
    let large = if random.one_in(2) { 64 } else { u64::MAX - random.below(300) };
    let at = random.below(bent.addresses);
    match random.below(9) {
        0 => Step::Load { cache: bent.caches, vid: large, at: large },
        1 => Step::Store { cache: 0, vid: large, at: large, data: large },
        2 => Step::Load { cache: 0, vid: large, at },
        3 => Step::Store { cache: 0, vid: lcvid, at, data: 7 },
        4 => Step::Load { cache: 0, vid: 1, at },
        5 => Step::Commit { vid: [0, lcvid, lcvid + 2, large][random.below(4) as usize] },
        6 => Step::Evict { cache: 0, slot: 16 },
        7 => Step::Evict { cache: large, slot: large },
        _ => Step::Evict { cache: 0, slot: random.below(16) },
    }
}

/// A trace with a few bytes changed, left out or put in, numbers replaced or
/// its end cut off.
pub fn damaged(random: &mut Random, steps: usize) -> Vec<u8> {
    let mut text = trace(random, steps).into_bytes();
    for _ in 0..1 + random.below(3) {
        // A cut may have left nothing to damage.
        if text.is_empty() {
            break;
        }
        let place = random.below(text.len() as u64) as usize;
        let likely = b"\n\r 0123456789=abcdelmoprstv\x00\xff";
        let byte = likely[random.below(likely.len() as u64) as usize];
        match random.below(7) {
            0 => text[place] = byte,
            1 => text.insert(place, byte),
            2 => drop(text.remove(place)),
            3 => text.truncate(place + 1),
            _ => replace_number(random, &mut text, place),
        }
    }
    text
}

/// The first number behind the place, if there is one.
fn replace_number(random: &mut Random, text: &mut Vec<u8>, place: usize) {
    const INSTEAD: [&str; 12] = [
        "",
        "5",
        "05",
        "00",
        "63",
        "18446744073709551615",
        "18446744073709551616",
        "018446744073709551616",
        "20000000000000000000",
        "184467440737095516150",
        "99999999999999999999999999999999",
        "-1",
    ];
    let instead = INSTEAD[random.below(INSTEAD.len() as u64) as usize];
    let is_digit = |at: &usize| text[*at].is_ascii_digit();
    if let Some(from) = (place..text.len()).find(is_digit) {
        let to = (from..text.len()).find(|at| !is_digit(at)).unwrap_or(text.len());
        drop(text.splice(from..to, instead.bytes()));
    }
}
