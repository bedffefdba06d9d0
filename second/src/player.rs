//! Playing a trace: reader in, machine in the middle, report lines out.

use crate::contents::WORDS;
use crate::machine::Machine;
use crate::report::ReportLine;
use crate::step::{Answer, Refusal, Step};
use crate::trace::TraceReader;

pub struct Player<'a> {
    trace: TraceReader<'a>,
    machine: Machine,
    number: u64,
    stopped: bool,
}

pub struct Turn {
    /// What was asked; `None` when the line is unreadable.
    pub step: Option<Step>,
    pub line: ReportLine,
}

impl<'a> Player<'a> {
    /// "starts from zero memory"; "the first line counts as step 0, printed
    /// only when refused (1 or 12, lcvid=0)"; "a text that is too long gives
    /// the one line `step=0 answer=refused-14 data=0 lcvid=0`".
    pub fn open(text: &'a [u8]) -> Result<Self, ReportLine> {
        let step_zero = |answer| ReportLine { number: 0, answer, lcvid: 0 };
        let refused = |reason: Refusal| step_zero(Answer::Refused(reason));
        let mut trace = TraceReader::open(text).map_err(refused)?;
        let count = trace.cache_count().map_err(refused)?;
        match Machine::make(count, [0; WORDS]) {
            (machine, Answer::Done) => Ok(Player { trace, machine, number: 0, stopped: false }),
            (_, refusal) => Err(step_zero(refusal)),
        }
    }

    pub fn machine(&self) -> &Machine {
        &self.machine
    }

    /// "A refused step doesn't stop the run; 12 ... prints its line and
    /// stops".
    pub fn turn(&mut self) -> Option<Turn> {
        if self.stopped {
            return None;
        }
        let read = self.trace.step()?;
        self.number += 1;
        let (step, answer) = match read {
            Ok(step) => (Some(step), self.machine.step(step)),
            Err(reason) => (None, Answer::Refused(reason)),
        };
        self.stopped = step.is_none();
        let lcvid = self.machine.contents().lcvid;
        let line = ReportLine { number: self.number, answer, lcvid };
        Some(Turn { step, line })
    }
}

/// The report of a trace text.
pub fn play(text: &[u8]) -> Vec<u8> {
    play_with(text, |line, _| format!("{line}\n"))
}

/// The report with the whole machine behind each step's line.
pub fn play_showing_machine(text: &[u8]) -> Vec<u8> {
    play_with(text, |line, machine| format!("{line}{}\n", machine.contents()))
}

fn play_with(text: &[u8], written: impl Fn(&ReportLine, &Machine) -> String) -> Vec<u8> {
    let mut player = match Player::open(text) {
        Ok(player) => player,
        Err(refused) => return format!("{refused}\n").into_bytes(),
    };
    let mut report = String::new();
    while let Some(turn) = player.turn() {
        report.push_str(&written(&turn.line, player.machine()));
    }
    report.into_bytes()
}
