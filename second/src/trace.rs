//! Reading trace text, line by line.

use crate::line::{read_line, Form, FIRST_LINE, STEP_LINES};
use crate::step::{Refusal, Step};

/// "At most 65,536 bytes".
pub const MOST_BYTES: usize = 65_536;

/// "The trace reader keeps the text and its place together."
pub struct TraceReader<'a> {
    text: &'a [u8],
    place: usize,
}

impl<'a> TraceReader<'a> {
    /// Refuses a text that is too long before any of it is read: it "becomes
    /// 14, without `col=`".
    pub fn open(text: &'a [u8]) -> Result<Self, Refusal> {
        if text.len() > MOST_BYTES {
            return Err(Refusal::TextTooLong);
        }
        Ok(TraceReader { text, place: 0 })
    }

    /// "first line `caches=N`"; it must be there, also where the text is empty.
    pub fn cache_count(&mut self) -> Result<u64, Refusal> {
        self.line(&FIRST_LINE)
    }

    /// The next step, or `None` where the text ends behind a whole line.
    pub fn step(&mut self) -> Option<Result<Step, Refusal>> {
        (self.place < self.text.len()).then(|| self.line(&STEP_LINES))
    }

    /// "The column counts bytes within the line that breaks", so the line gets
    /// the text from its own first byte on.
    fn line<T>(&mut self, forms: &[Form<T>]) -> Result<T, Refusal> {
        let rest = &self.text[self.place..];
        let read = read_line(forms, rest).map_err(Refusal::Unreadable)?;
        self.place += read.length;
        Ok(read.says)
    }
}
