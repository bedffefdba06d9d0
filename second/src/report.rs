//! Writing report lines.

use crate::step::{Answer, Refusal};
use std::fmt;

/// "one line a step ...: step number from 1, answer, data (the loaded value,
/// else 0), LCVID after the step".
#[derive(Clone, Copy, Debug, PartialEq, Eq)]
pub struct ReportLine {
    /// "the first line counts as step 0".
    pub number: u64,
    pub answer: Answer,
    pub lcvid: u8,
}

/// The line without its LF, so that a machine can be shown behind it.
impl fmt::Display for ReportLine {
    fn fmt(&self, out: &mut fmt::Formatter<'_>) -> fmt::Result {
        let ReportLine { number, answer, lcvid } = self;
        let data = answer.data();
        write!(out, "step={number} answer={answer} data={data} lcvid={lcvid}")?;
        match answer {
            // "End that report line with ` col=` and the byte column".
            Answer::Refused(Refusal::Unreadable(broken)) => write!(out, " col={}", broken.column),
            _ => Ok(()),
        }
    }
}

impl ReportLine {
    /// "Each report line is written into the caller's buffer from a place in
    /// its middle; bytes before the place and after the line stay." Gives the
    /// place behind the line.
    pub fn write_at(&self, buffer: &mut [u8], place: usize) -> Result<usize, Refusal> {
        let line = format!("{self}\n");
        buffer
            .get_mut(place..)
            .and_then(|rest| rest.get_mut(..line.len()))
            .ok_or(Refusal::ReportDoesNotFit)?
            .copy_from_slice(line.as_bytes());
        Ok(place + line.len())
    }
}
