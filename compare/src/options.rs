//! The command line.

use crate::generate::Name;
use std::path::PathBuf;

pub const USAGE: &str = "usage: compare [--seed S] [--traces N] [--damaged M] [--machines K]
               [--record FILE] -- COMMAND ARG..
       compare [the same counts] --against FILE
       compare [--seed S] --show trace|damaged INDEX";

const MACHINES: u64 = 600;

#[derive(Clone, Copy, Debug, PartialEq, Eq)]
pub struct Counts {
    pub seed: u64,
    pub traces: u64,
    pub damaged: u64,
    pub machines: u64,
}

#[derive(Debug, PartialEq, Eq)]
pub enum Task {
    Against(PathBuf),
    Run { command: Vec<String>, record: Option<PathBuf> },
    Show(Name),
}

/// What was read so far; `None` is what the command line left out.
#[derive(Default)]
struct Found {
    machines: Option<u64>,
    record: Option<PathBuf>,
    against: Option<PathBuf>,
    show: Option<Name>,
    command: Vec<String>,
}

pub fn parse(words: impl Iterator<Item = String>) -> Result<(Counts, Task), String> {
    let mut words = words;
    let mut counts = Counts { seed: 1, traces: 2_000, damaged: 2_000, machines: 0 };
    let mut found = Found::default();
    while let Some(word) = words.next() {
        match word.as_str() {
            "--seed" => counts.seed = number(words.next())?,
            "--traces" => counts.traces = number(words.next())?,
            "--damaged" => counts.damaged = number(words.next())?,
            "--machines" => found.machines = Some(number(words.next())?),
            "--record" => found.record = Some(path(words.next())?),
            "--against" => found.against = Some(path(words.next())?),
            "--show" => found.show = Some(name(words.next(), words.next())?),
            "--" => found.command = words.by_ref().collect(),
            _ => return Err(format!("{word} is no option")),
        }
    }
    counts.machines = found.machines.unwrap_or(MACHINES.min(counts.traces));
    if counts.machines > counts.traces {
        return Err("more machines than traces".to_string());
    }
    Ok((counts, task(found)?))
}

fn task(found: Found) -> Result<Task, String> {
    let Found { record, against, show, command, .. } = found;
    match (against, show, command.is_empty()) {
        (None, None, false) => Ok(Task::Run { command, record }),
        (Some(path), None, true) if record.is_none() => Ok(Task::Against(path)),
        (None, Some(name), true) if record.is_none() => Ok(Task::Show(name)),
        _ => Err("one of a command, --against and --show is wanted".to_string()),
    }
}

fn number(word: Option<String>) -> Result<u64, String> {
    let word = word.ok_or("a number is missing")?;
    word.parse().map_err(|_| format!("{word} is no number"))
}

fn path(word: Option<String>) -> Result<PathBuf, String> {
    word.map(PathBuf::from).ok_or_else(|| "a file's name is missing".to_string())
}

fn name(kind: Option<String>, index: Option<String>) -> Result<Name, String> {
    let index = number(index)?;
    match kind.as_deref() {
        Some("trace") => Ok(Name::trace(index)),
        Some("damaged") => Ok(Name::damaged(index)),
        _ => Err("--show wants trace or damaged".to_string()),
    }
}
