//! The playing program: a trace on standard input, its report on standard
//! output.

use second::batch::{read_frame, write_frame};
use second::{check, play, play_showing_machine};
use std::io::{self, BufReader, BufWriter, Read, Write};
use std::process::ExitCode;

const USAGE: &str = "usage: second [--batch] [--machine | --check] < text";
const CHECK_FAILED: u8 = 1;
const TROUBLE: u8 = 2;

#[derive(Clone, Copy, PartialEq, Eq)]
enum Mode {
    Report,
    Machine,
    Check,
}

/// Why the program ends early: what to say, and its exit code.
struct Stop {
    message: String,
    code: u8,
}

impl From<io::Error> for Stop {
    fn from(error: io::Error) -> Stop {
        Stop { message: error.to_string(), code: TROUBLE }
    }
}

fn main() -> ExitCode {
    match run() {
        Ok(()) => ExitCode::SUCCESS,
        Err(stop) => {
            eprintln!("second: {}", stop.message);
            ExitCode::from(stop.code)
        }
    }
}

fn run() -> Result<(), Stop> {
    let (mode, batch) = options(std::env::args().skip(1))?;
    let mut input = BufReader::new(io::stdin().lock());
    let mut output = BufWriter::new(io::stdout().lock());
    if batch {
        return run_batch(mode, &mut input, &mut output);
    }
    let mut text = Vec::new();
    input.read_to_end(&mut text)?;
    let report = report(mode, &text).map_err(failed)?;
    output.write_all(&report)?;
    Ok(output.flush()?)
}

fn options(words: impl Iterator<Item = String>) -> Result<(Mode, bool), Stop> {
    let mut mode = Mode::Report;
    let mut batch = false;
    for word in words {
        match word.as_str() {
            "--batch" if !batch => batch = true,
            "--machine" if mode == Mode::Report => mode = Mode::Machine,
            "--check" if mode == Mode::Report => mode = Mode::Check,
            _ => return Err(Stop { message: USAGE.to_string(), code: TROUBLE }),
        }
    }
    Ok((mode, batch))
}

fn run_batch<R: Read, W: Write>(
    mode: Mode,
    input: &mut BufReader<R>,
    output: &mut W,
) -> Result<(), Stop> {
    let mut number = 0u64;
    while let Some(text) = read_frame(input)? {
        number += 1;
        let report = report(mode, &text).map_err(|what| failed(format!("text {number}: {what}")));
        if report.is_err() {
            output.flush()?;
        }
        write_frame(output, &report?)?;
        // A driver may wait for this report before it sends the next text.
        if input.buffer().is_empty() {
            output.flush()?;
        }
    }
    Ok(output.flush()?)
}

fn report(mode: Mode, text: &[u8]) -> Result<Vec<u8>, String> {
    match mode {
        Mode::Report => Ok(play(text)),
        Mode::Machine => Ok(play_showing_machine(text)),
        Mode::Check => check(text).map_err(|fault| fault.to_string()),
    }
}

fn failed(message: String) -> Stop {
    Stop { message, code: CHECK_FAILED }
}
