//! "House rules for a machine", read over the bare contents. Liveness is told
//! anew here rather than asked of the model.

use crate::contents::{Contents, Line, State, LAST_VID, MOST_CACHES, WORDS};

type Verdict = Result<(), String>;

fn require(holds: bool, rule: &str) -> Verdict {
    if holds {
        Ok(())
    } else {
        Err(rule.to_string())
    }
}

#[derive(Clone, Copy)]
struct Held {
    cache: usize,
    line: Line,
}

/// Whether a machine is sound; if not, the first rule it breaks. "unused
/// caches are empty" and "empty slots are zero" need no look: contents have
/// room for neither.
pub fn verify(contents: &Contents) -> Verdict {
    let count = contents.caches.len();
    require((1..=MOST_CACHES).contains(&count), "the cache count is 1 to 4")?;
    require(contents.lcvid <= LAST_VID, "LCVID ≤ 63")?;
    for (_, line) in contents.lines() {
        verify_line(line)?;
    }
    for address in 0..WORDS {
        let live = live_lines(contents, address);
        verify_address(contents, address, &live)
            .map_err(|rule| format!("{rule} (address {address})"))?;
    }
    Ok(())
}

fn is_plain(line: &Line) -> bool {
    matches!(line.state, State::M | State::O | State::E | State::S)
}

fn verify_line(line: &Line) -> Verdict {
    let Line { m, h, .. } = *line;
    require(usize::from(line.address) < WORDS, "addresses are below 64")?;
    match line.state {
        State::M | State::O | State::E | State::S => {
            require((m, h) == (0, 0), "plain lines have VIDs 0, 0")
        }
        State::SpecM | State::SpecE => {
            let bounded = m <= h && (1..=63).contains(&h);
            require(bounded, "S-M and S-E have m ≤ h ≤ 63 and h ≥ 1")?;
            require(line.state == State::SpecM || m == 0, "S-E has m = 0")
        }
        State::SpecO => require(m < h && h <= 63, "S-O has m < h ≤ 63"),
        State::SpecS => require(m < h && h <= 64, "S-S has m < h ≤ 64"),
    }
}

/// "Dead: an S-O or S-S line with h ≤ LCVID. ... Live: every other line that
/// isn't I."
fn live_lines(contents: &Contents, address: usize) -> Vec<Held> {
    contents
        .lines()
        .filter(|(_, line)| usize::from(line.address) == address)
        .filter(|(_, line)| match line.state {
            State::SpecO | State::SpecS => line.h > contents.lcvid,
            _ => true,
        })
        .map(|(spot, line)| Held { cache: spot.cache, line: *line })
        .collect()
}

fn verify_address(contents: &Contents, address: usize, live: &[Held]) -> Verdict {
    verify_pairs(live)?;
    verify_plain(live, contents.memory[address])?;
    if live.iter().any(|held| !is_plain(&held.line)) {
        verify_versions(live, contents.memory[address], contents.lcvid)?;
    }
    live.iter()
        .filter(|held| held.line.state == State::SpecS)
        .try_for_each(|copy| verify_copy(*copy, live, contents.lcvid))
}

/// The fixed table, a row a state; I has no row as it is never paired.
fn stands_with(state: State) -> &'static [State] {
    use State::{SpecE, SpecM, SpecO, SpecS, O, S};
    match state {
        State::M | State::E => &[],
        State::O => &[S],
        State::S => &[O, S],
        State::SpecM => &[SpecO, SpecS],
        State::SpecO => &[SpecM, SpecO, SpecS],
        State::SpecE => &[SpecS],
        State::SpecS => &[SpecM, SpecO, SpecE, SpecS],
    }
}

fn verify_pairs(live: &[Held]) -> Verdict {
    for (place, one) in live.iter().enumerate() {
        for other in &live[place + 1..] {
            let (one, other) = (one.line.state, other.line.state);
            let allowed = stands_with(one).contains(&other);
            require(allowed, &format!("{one} and {other} don't stand together"))?;
        }
    }
    Ok(())
}

fn verify_plain(live: &[Held], memory: u64) -> Verdict {
    let plain: Vec<&Held> = live.iter().filter(|held| is_plain(&held.line)).collect();
    for (place, one) in plain.iter().enumerate() {
        let alone = plain[place + 1..].iter().all(|other| other.cache != one.cache);
        require(alone, "No cache holds two plain lines of it")?;
    }
    let owned = plain.iter().find(|held| held.line.state == State::O);
    let shared_word = owned.map_or(memory, |held| held.line.word);
    for held in plain {
        match held.line.state {
            State::E => require(held.line.word == memory, "E equals memory")?,
            State::S => {
                let rule = "S equals memory where there is no O, beside O equals O";
                require(held.line.word == shared_word, rule)?;
            }
            _ => {}
        }
    }
    Ok(())
}

/// "exactly one S-M or S-E; S-E equals memory; the live S-O ranges from m to h
/// join end to end up to the m of S-M; the lowest m is at most LCVID."
fn verify_versions(live: &[Held], memory: u64, lcvid: u8) -> Verdict {
    let newest: Vec<Line> = live
        .iter()
        .map(|held| held.line)
        .filter(|line| matches!(line.state, State::SpecM | State::SpecE))
        .collect();
    let [newest] = newest[..] else {
        return Err("there is exactly one S-M or S-E".to_string());
    };
    if newest.state == State::SpecE {
        require(newest.word == memory, "S-E equals memory")?;
    }
    let mut ranges: Vec<(u8, u8)> = live
        .iter()
        .filter(|held| held.line.state == State::SpecO)
        .map(|held| (held.line.m, held.line.h))
        .collect();
    ranges.sort_unstable();
    let ends = ranges.iter().map(|range| range.1);
    let starts = ranges.iter().map(|range| range.0).skip(1).chain([newest.m]);
    let joined = ends.eq(starts.take(ranges.len()));
    require(joined, "S-O ranges join end to end up to the m of S-M")?;
    let lowest = live.iter().map(|held| held.line.m).min();
    require(lowest.is_some_and(|m| m <= lcvid), "the lowest m is at most LCVID")
}

/// "Each S-S has exactly one owner line with its m, in another cache, with the
/// same word. Its h is at most the larger of the owner's h and LCVID, plus 1;
/// for an S-O owner also at most the owner's h. No cache holds two with the
/// same m."
fn verify_copy(copy: Held, live: &[Held], lcvid: u8) -> Verdict {
    let same_m = || live.iter().filter(|held| held.line.m == copy.line.m);
    let owners: Vec<&Held> = same_m()
        .filter(|held| matches!(held.line.state, State::SpecM | State::SpecE | State::SpecO))
        .collect();
    let [owner] = owners[..] else {
        return Err("each S-S has exactly one owner line with its m".to_string());
    };
    require(owner.cache != copy.cache, "an S-S has its owner in another cache")?;
    require(owner.line.word == copy.line.word, "an S-S has its owner's word")?;
    let reach = owner.line.h.max(lcvid) + 1;
    require(copy.line.h <= reach, "S-S h ≤ max(owner's h, LCVID) + 1")?;
    let in_range = owner.line.state != State::SpecO || copy.line.h <= owner.line.h;
    require(in_range, "S-S h ≤ h of its S-O owner")?;
    let twins = same_m().filter(|held| held.line.state == State::SpecS && held.cache == copy.cache);
    require(twins.count() == 1, "No cache holds two S-S with the same m")
}

#[cfg(test)]
mod tests;
