//! A whole run: every text, both programs, the checks, the counts.

use crate::difference::{say, shown_text, Difference};
use crate::frames::{Answer, Form, Frame};
use crate::generate::{self, Kind, Name};
use crate::options::Counts;
use crate::program::Program;
use crate::record::{Record, Recorder};
use crate::shrink::shrink;
use crate::tally::Tally;
use std::io;
use std::ops::ControlFlow;
use std::path::Path;

/// Frames in one run of the program: enough to make its start cheap, few
/// enough to keep their texts in memory however long the run.
const BATCH: usize = 1_000;

/// Reports first and machines last, so that a difference that the reports
/// show is found as one of theirs.
fn plan(counts: &Counts) -> Vec<(Name, Form)> {
    let Counts { traces, damaged, machines, .. } = *counts;
    let reports = (0..traces).map(Name::trace).chain((0..damaged).map(Name::damaged));
    // Spread evenly over the traces.
    let shown = (0..machines).map(|nth| {
        Name::trace((u128::from(nth) * u128::from(traces) / u128::from(machines)) as u64)
    });
    let reports = reports.map(|name| (name, Form::Report));
    reports.chain(shown.map(|name| (name, Form::Machine))).collect()
}

/// A trace on which the second program's own checker found a fault.
struct Fault {
    name: Name,
    text: Vec<u8>,
}

#[derive(Default)]
struct Judge {
    tally: Tally,
    /// Told at the end only: a difference says more about both programs.
    fault: Option<Fault>,
}

impl Judge {
    fn judge(&mut self, name: Name, frame: &Frame, proved: Answer) -> Option<Difference> {
        if frame.form == Form::Report {
            self.tally.count(&proved.report);
        }
        let difference = Difference::find(name, frame.form, &frame.text, proved);
        if frame.form == Form::Report && difference.is_none() {
            self.check(name, &frame.text);
        }
        difference
    }

    fn check(&mut self, name: Name, text: &[u8]) {
        if name.kind == Kind::Trace && self.fault.is_none() && second::check(text).is_err() {
            self.fault = Some(Fault { name, text: text.to_vec() });
        }
    }

    /// What is left to say when nothing differed; whether all is well.
    fn conclude(self, counts: &Counts) -> io::Result<bool> {
        let Counts { seed, traces, damaged, machines } = counts;
        if let Some(fault) = self.fault {
            print_fault(*seed, fault)?;
            return Ok(false);
        }
        let missing = self.tally.missing();
        if !missing.is_empty() {
            let missing = missing.join(", ");
            say(&format!("missing: seed {seed}: no text was answered {missing}\n"));
            return Ok(false);
        }
        let texts = traces + damaged;
        let shares = format!("{traces} traces, {damaged} damaged; {machines} with machines");
        say(&format!("same: seed {seed}, {texts} texts ({shares}), {}\n", self.tally));
        Ok(true)
    }
}

fn print_fault(seed: u64, fault: Fault) -> io::Result<()> {
    let Fault { name, text } = fault;
    let mut test =
        |texts: Vec<Vec<u8>>| Ok(texts.iter().position(|text| second::check(text).is_err()));
    let short = shrink(text, false, &mut test)?;
    let what = second::check(&short).err().map_or(String::new(), |fault| fault.to_string());
    say(&format!("fault of the second program: seed {seed}, {name}\n{what}\n"));
    say(&format!("shortest text that still shows a fault:\n{}", shown_text(&short)));
    Ok(())
}

/// Both programs side by side; whether they agreed on everything.
pub fn with_program(counts: &Counts, program: &Program, record: Option<&Path>) -> io::Result<bool> {
    let mut recorder = record.map(|path| Recorder::create(path, counts)).transpose()?;
    let mut judge = Judge::default();
    for batch in plan(counts).chunks(BATCH) {
        let made = |(name, form): &(Name, Form)| Frame {
            form: *form,
            text: generate::text(counts.seed, *name),
        };
        let frames: Vec<Frame> = batch.iter().map(made).collect();
        let mut found = None;
        program.play(&frames, |place, answer| {
            if let Some(recorder) = &mut recorder {
                recorder.note(&frames[place], &answer)?;
            }
            found = judge.judge(batch[place].0, &frames[place], answer);
            Ok(if found.is_some() { ControlFlow::Break(()) } else { ControlFlow::Continue(()) })
        })?;
        if let Some(difference) = found {
            print_shrunk(counts.seed, program, difference)?;
            return Ok(false);
        }
    }
    recorder.map_or(Ok(()), Recorder::finish)?;
    judge.conclude(counts)
}

fn print_shrunk(seed: u64, program: &Program, difference: Difference) -> io::Result<()> {
    let Difference { name, form, .. } = difference;
    let whole = difference.text.len();
    let text = difference.text.clone();
    // Each text that the shrinking takes over comes with its difference.
    let mut shortest = difference;
    shrink(text, name.kind == Kind::Damaged, &mut |texts| {
        let found = first_difference(program, name, form, texts)?;
        Ok(found.map(|(place, difference)| {
            shortest = difference;
            place
        }))
    })?;
    say(&shortest.told(seed, Some(whole)));
    Ok(())
}

fn first_difference(
    program: &Program,
    name: Name,
    form: Form,
    texts: Vec<Vec<u8>>,
) -> io::Result<Option<(usize, Difference)>> {
    let frames: Vec<Frame> = texts.into_iter().map(|text| Frame { form, text }).collect();
    let mut found = None;
    program.play(&frames, |place, answer| {
        let difference = Difference::find(name, form, &frames[place].text, answer);
        found = difference.map(|difference| (place, difference));
        Ok(if found.is_some() { ControlFlow::Break(()) } else { ControlFlow::Continue(()) })
    })?;
    Ok(found)
}

/// The second program against what the proved one answered earlier.
pub fn with_record(counts: &Counts, path: &Path) -> io::Result<bool> {
    let mut record = Record::open(path, counts)?;
    let mut judge = Judge::default();
    for (name, form) in plan(counts) {
        let (frame, answer) = record.next()?;
        if frame.form != form {
            return Err(io::Error::other("the record's frames are in another order"));
        }
        if let Some(difference) = judge.judge(name, &frame, answer) {
            say(&difference.told(counts.seed, None));
            return Ok(false);
        }
    }
    record.finish()?;
    judge.conclude(counts)
}
