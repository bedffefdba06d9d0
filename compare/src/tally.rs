//! How often each answer came up. A run that never saw some answer has not
//! compared it, so that is a failure too.

use std::collections::BTreeMap;
use std::fmt;

/// 2 and 13 never come up in a trace: they need a machine from outside or a
/// buffer.
const EXPECTED: [&str; 20] = [
    "value",
    "done",
    "misspec",
    "overflow",
    "refused-1",
    "refused-3",
    "refused-4",
    "refused-5",
    "refused-6",
    "refused-7",
    "refused-8",
    "refused-9",
    "refused-10",
    "refused-11",
    "refused-12a",
    "refused-12b",
    "refused-12c",
    "refused-12d",
    "refused-12e",
    "refused-14",
];

#[derive(Default)]
pub struct Tally {
    lines: u64,
    answers: BTreeMap<String, u64>,
}

impl Tally {
    pub fn count(&mut self, report: &[u8]) {
        for line in String::from_utf8_lossy(report).lines() {
            self.lines += 1;
            let field = line.split(' ').find_map(|word| word.strip_prefix("answer="));
            *self.answers.entry(field.unwrap_or("none").to_string()).or_default() += 1;
        }
    }

    fn of(&self, answer: &str) -> u64 {
        self.answers.get(answer).copied().unwrap_or(0)
    }

    pub fn missing(&self) -> Vec<&'static str> {
        EXPECTED.into_iter().filter(|answer| self.of(answer) == 0).collect()
    }
}

impl fmt::Display for Tally {
    fn fmt(&self, out: &mut fmt::Formatter<'_>) -> fmt::Result {
        write!(out, "{} steps:", self.lines)?;
        EXPECTED.iter().try_for_each(|answer| write!(out, " {answer}={}", self.of(answer)))
    }
}
