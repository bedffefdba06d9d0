//! Compares Ladomysh's proved program with the second one: seeded traces and
//! damaged texts, reports and machines, byte for byte.

mod difference;
mod frames;
mod generate;
mod options;
mod program;
mod random;
mod record;
mod run;
mod shrink;
mod tally;

use options::{Counts, Task};
use program::Program;
use std::io::{self, Write};
use std::process::ExitCode;

/// A difference, a fault or an answer that never came up.
const FAILED: u8 = 1;
/// A wrong command line, a program that can't be run, a broken record.
const TROUBLE: u8 = 2;

fn main() -> ExitCode {
    let (counts, task) = match options::parse(std::env::args().skip(1)) {
        Ok(parsed) => parsed,
        Err(what) => {
            eprintln!("compare: {what}\n{}", options::USAGE);
            return ExitCode::from(TROUBLE);
        }
    };
    match carry_out(&counts, task) {
        Ok(true) => ExitCode::SUCCESS,
        Ok(false) => ExitCode::from(FAILED),
        Err(error) => {
            eprintln!("compare: {error}");
            ExitCode::from(TROUBLE)
        }
    }
}

fn carry_out(counts: &Counts, task: Task) -> io::Result<bool> {
    match task {
        Task::Against(path) => run::with_record(counts, &path),
        Task::Run { command, record } => {
            run::with_program(counts, &Program { command }, record.as_deref())
        }
        Task::Show(name) => {
            io::stdout().write_all(&generate::text(counts.seed, name))?;
            Ok(true)
        }
    }
}
