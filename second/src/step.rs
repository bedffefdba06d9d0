//! What is asked of a machine and what it answers.

use std::fmt;

/// One step as asked. The numbers are as wide as a trace can write them,
/// because judging them is the machine's business (refusals 3 to 8).
#[derive(Clone, Copy, Debug, PartialEq, Eq)]
pub enum Step {
    Load { cache: u64, vid: u64, at: u64 },
    Store { cache: u64, vid: u64, at: u64, data: u64 },
    Commit { vid: u64 },
    Abort,
    Reset,
    Evict { cache: u64, slot: u64 },
}

impl Step {
    /// Its line in a trace: "A key that the op doesn't use must be 0", "For
    /// evict, `at` is the slot."
    pub fn line(self) -> String {
        let (op, cache, vid, at, data) = match self {
            Step::Load { cache, vid, at } => ("load", cache, vid, at, 0),
            Step::Store { cache, vid, at, data } => ("store", cache, vid, at, data),
            Step::Commit { vid } => ("commit", 0, vid, 0, 0),
            Step::Abort => ("abort", 0, 0, 0, 0),
            Step::Reset => ("reset", 0, 0, 0, 0),
            Step::Evict { cache, slot } => ("evict", cache, 0, slot, 0),
        };
        format!("op={op} cache={cache} vid={vid} at={at} data={data}\n")
    }
}

/// "Answers: value (a load), done (any other step), or instead misspec,
/// overflow, refused-N."
#[derive(Clone, Copy, Debug, PartialEq, Eq)]
pub enum Answer {
    Value(u64),
    Done,
    Misspec,
    Overflow,
    Refused(Refusal),
}

impl Answer {
    /// "data (the loaded value, else 0)".
    pub fn data(self) -> u64 {
        match self {
            Answer::Value(word) => word,
            _ => 0,
        }
    }
}

impl fmt::Display for Answer {
    fn fmt(&self, out: &mut fmt::Formatter<'_>) -> fmt::Result {
        match self {
            Answer::Value(_) => out.write_str("value"),
            Answer::Done => out.write_str("done"),
            Answer::Misspec => out.write_str("misspec"),
            Answer::Overflow => out.write_str("overflow"),
            Answer::Refused(reason) => write!(out, "refused-{reason}"),
        }
    }
}

/// "Numbers given on refusal".
#[derive(Clone, Copy, Debug, PartialEq, Eq)]
pub enum Refusal {
    /// "making a machine: caches not 1 to 4"
    CacheCount,
    /// "machine not sound"
    Unsound,
    /// "load, store, evict: cache not below the count"
    NoSuchCache,
    /// "load, store: address above 63"
    NoSuchAddress,
    /// "evict: slot above 15"
    NoSuchSlot,
    /// "load, store, commit: VID above 63"
    NoSuchVid,
    /// "load, store: VID from 1 to LCVID"
    VidIsCommitted,
    /// "commit: VID is not LCVID + 1"
    CommitOutOfTurn,
    /// "reset: some S-M or S-E has h above LCVID"
    FlightUnsettled,
    /// "evict: slot is I"
    SlotIsEmpty,
    /// "load, store: fewer free slots than lines to place, in a step that
    /// doesn't misspeculate"
    NoRoom,
    /// "trace text: line unreadable"; "12 splits into 12a to 12e"
    Unreadable(Break),
    /// "report line doesn't fit from the given place, or the place is past
    /// the buffer's end"
    ReportDoesNotFit,
    /// "a text over 65,536 bytes becomes 14"
    TextTooLong,
}

/// The number as the table has it, with the letter of a 12.
impl fmt::Display for Refusal {
    fn fmt(&self, out: &mut fmt::Formatter<'_>) -> fmt::Result {
        out.write_str(match self {
            Refusal::CacheCount => "1",
            Refusal::Unsound => "2",
            Refusal::NoSuchCache => "3",
            Refusal::NoSuchAddress => "4",
            Refusal::NoSuchSlot => "5",
            Refusal::NoSuchVid => "6",
            Refusal::VidIsCommitted => "7",
            Refusal::CommitOutOfTurn => "8",
            Refusal::FlightUnsettled => "9",
            Refusal::SlotIsEmpty => "10",
            Refusal::NoRoom => "11",
            Refusal::Unreadable(broken) => broken.kind.number(),
            Refusal::ReportDoesNotFit => "13",
            Refusal::TextTooLong => "14",
        })
    }
}

/// Where an unreadable line breaks, and how.
#[derive(Clone, Copy, Debug, PartialEq, Eq)]
pub struct Break {
    pub kind: Kind,
    /// "the byte column, from 1", "within the line that breaks".
    pub column: usize,
}

/// The kinds of break "in that list's order".
#[derive(Clone, Copy, Debug, PartialEq, Eq)]
pub enum Kind {
    /// "wrong key (any fixed text or op name broken off)"
    WrongKey,
    /// "bad number (no digit where one must stand, or a digit after a leading
    /// zero)"
    BadNumber,
    /// "number too large"
    TooLarge,
    /// "key not zero where it must be"
    NotZero,
    /// "missing line end (another byte than a digit or LF after a digit of the
    /// line's last number, or the text is empty or ends inside a line ...)"
    NoLineEnd,
}

impl Kind {
    fn number(self) -> &'static str {
        match self {
            Kind::WrongKey => "12a",
            Kind::BadNumber => "12b",
            Kind::TooLarge => "12c",
            Kind::NotZero => "12d",
            Kind::NoLineEnd => "12e",
        }
    }
}
