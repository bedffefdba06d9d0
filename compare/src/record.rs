//! A record of what the proved program answered: a head with seed and counts,
//! each frame followed by its answer, and a last line that says it is whole.
//!
//! The frames are in it because a mistake planted in the second program would
//! change the traces that are drawn with its machine running along. Played
//! from the record, the texts stay those that the answers belong to.

use crate::frames::{read_answer, read_frame, write_answer, write_frame, Answer, Frame};
use crate::options::Counts;
use std::fs::File;
use std::io::{self, BufRead, BufReader, BufWriter, Write};
use std::path::Path;

const WHOLE: &[u8] = b"whole\n";

fn head(counts: &Counts) -> String {
    let Counts { seed, traces, damaged, machines } = counts;
    format!("record --seed {seed} --traces {traces} --damaged {damaged} --machines {machines}\n")
}

pub struct Recorder {
    output: BufWriter<File>,
}

impl Recorder {
    pub fn create(path: &Path, counts: &Counts) -> io::Result<Recorder> {
        let mut output = BufWriter::new(File::create(path)?);
        output.write_all(head(counts).as_bytes())?;
        Ok(Recorder { output })
    }

    pub fn note(&mut self, frame: &Frame, answer: &Answer) -> io::Result<()> {
        write_frame(&mut self.output, frame)?;
        write_answer(&mut self.output, &answer.report)
    }

    /// Only a run without a difference gets here.
    pub fn finish(mut self) -> io::Result<()> {
        self.output.write_all(WHOLE)?;
        self.output.flush()
    }
}

pub struct Record {
    input: BufReader<File>,
}

impl Record {
    /// Refuses a record of another run: its texts would be others.
    pub fn open(path: &Path, counts: &Counts) -> io::Result<Record> {
        let mut input = BufReader::new(File::open(path)?);
        let mut found = Vec::new();
        input.read_until(b'\n', &mut found)?;
        if found != head(counts).as_bytes() {
            let found = String::from_utf8_lossy(&found);
            return Err(broken(&format!("a record of another run: {}", found.trim_end())));
        }
        Ok(Record { input })
    }

    pub fn next(&mut self) -> io::Result<(Frame, Answer)> {
        let frame = read_frame(&mut self.input)?.ok_or_else(|| broken("the record ends early"))?;
        Ok((frame, read_answer(&mut self.input)?))
    }

    pub fn finish(mut self) -> io::Result<()> {
        let mut last = Vec::new();
        self.input.read_until(b'\n', &mut last)?;
        if last == WHOLE {
            Ok(())
        } else {
            Err(broken("the record isn't whole"))
        }
    }
}

fn broken(what: &str) -> io::Error {
    io::Error::new(io::ErrorKind::InvalidData, what)
}
