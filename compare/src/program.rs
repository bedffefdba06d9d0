//! The proved program as a child process.

use crate::frames::{read_answer, write_frame, Answer, Frame};
use std::io::{self, BufReader, BufWriter, Read, Write};
use std::ops::ControlFlow;
use std::process::{Child, ChildStdin, ChildStdout, Command, Stdio};
use std::thread;

pub struct Program {
    pub command: Vec<String>,
}

impl Program {
    /// Plays all frames in one run and hands the answers over in order, until
    /// `see` breaks off. A thread of its own writes the frames: were one to
    /// write and then read, both sides would wait once a pipe is full.
    pub fn play(
        &self,
        frames: &[Frame],
        see: impl FnMut(usize, Answer) -> io::Result<ControlFlow<()>>,
    ) -> io::Result<()> {
        let mut child = self.start()?;
        let (Some(input), Some(output)) = (child.stdin.take(), child.stdout.take()) else {
            return Err(io::Error::other("no pipes to the program"));
        };
        let outcome = thread::scope(|scope| {
            scope.spawn(|| write_all(input, frames));
            let mut output = BufReader::new(output);
            let outcome = read_all(&mut output, frames.len(), see);
            // The writer may still be at it when the reader has seen enough.
            // The output stays open until then: the program shall not complain.
            if !matches!(outcome, Ok(ControlFlow::Continue(()))) {
                let _ = child.kill();
            }
            outcome
        });
        let status = child.wait()?;
        match outcome? {
            ControlFlow::Continue(()) if !status.success() => {
                Err(io::Error::other(format!("the program ended with {status}")))
            }
            _ => Ok(()),
        }
    }

    fn start(&self) -> io::Result<Child> {
        let (name, words) = self.command.split_first().ok_or(io::ErrorKind::InvalidInput)?;
        Command::new(name)
            .args(words)
            .stdin(Stdio::piped())
            .stdout(Stdio::piped())
            .spawn()
            .map_err(|error| io::Error::new(error.kind(), format!("{name}: {error}")))
    }
}

/// A program that breaks off closes its pipe; the missing answers tell that.
fn write_all(input: ChildStdin, frames: &[Frame]) {
    let mut input = BufWriter::new(input);
    for frame in frames {
        if write_frame(&mut input, frame).is_err() {
            return;
        }
    }
    let _ = input.flush();
}

fn read_all(
    output: &mut BufReader<ChildStdout>,
    count: usize,
    mut see: impl FnMut(usize, Answer) -> io::Result<ControlFlow<()>>,
) -> io::Result<ControlFlow<()>> {
    for place in 0..count {
        if see(place, read_answer(output)?)?.is_break() {
            return Ok(ControlFlow::Break(()));
        }
    }
    match output.read(&mut [0])? {
        0 => Ok(ControlFlow::Continue(())),
        _ => Err(io::Error::other("the program said more than it was asked")),
    }
}
