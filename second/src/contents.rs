//! What a machine holds, as bare data. No rule of document 01 lives here, so
//! the model and the checker can share it without sharing any judgement.

use std::fmt;

/// "1 to 4 caches".
pub const MOST_CACHES: usize = 4;
/// "16 slots each".
pub const SLOTS: usize = 16;
/// "64 addresses (0 to 63), each one 64-bit word".
pub const WORDS: usize = 64;
/// "VIDs are 6 bits: transactions 1 to 63".
pub const LAST_VID: u8 = 63;

pub type Memory = [u64; WORDS];
/// State I is `None`, so an empty slot has no other fields to keep zero.
pub type Slot = Option<Line>;
pub type Cache = [Slot; SLOTS];

/// I is missing: an empty slot has no line, so no line has that state.
#[derive(Clone, Copy, Debug, PartialEq, Eq)]
pub enum State {
    M,
    O,
    E,
    S,
    SpecM,
    SpecO,
    SpecE,
    SpecS,
}

impl fmt::Display for State {
    fn fmt(&self, out: &mut fmt::Formatter<'_>) -> fmt::Result {
        out.write_str(match self {
            State::M => "M",
            State::O => "O",
            State::E => "E",
            State::S => "S",
            State::SpecM => "S-M",
            State::SpecO => "S-O",
            State::SpecE => "S-E",
            State::SpecS => "S-S",
        })
    }
}

/// "A line has a state, an address, a modified VID m, a high VID h and a word."
#[derive(Clone, Copy, Debug, PartialEq, Eq)]
pub struct Line {
    pub state: State,
    pub address: u8,
    pub m: u8,
    pub h: u8,
    pub word: u64,
}

impl fmt::Display for Line {
    fn fmt(&self, out: &mut fmt::Formatter<'_>) -> fmt::Result {
        let Line { state, address, m, h, word } = self;
        write!(out, "{state} a{address} m{m} h{h} w{word}")
    }
}

#[derive(Clone, Copy, Debug, PartialEq, Eq)]
pub struct Spot {
    pub cache: usize,
    pub slot: usize,
}

/// Everything a machine holds. Caches beyond the count do not exist here, so
/// there are no unused ones to keep empty.
#[derive(Clone, Debug, PartialEq, Eq)]
pub struct Contents {
    pub caches: Vec<Cache>,
    pub memory: Memory,
    pub lcvid: u8,
}

impl Contents {
    /// Every line that isn't I, dead ones too, in cache and slot order.
    pub fn lines(&self) -> impl Iterator<Item = (Spot, &Line)> {
        self.caches.iter().enumerate().flat_map(|(cache, slots)| {
            slots
                .iter()
                .enumerate()
                .filter_map(move |(slot, held)| Some((Spot { cache, slot }, held.as_ref()?)))
        })
    }

    pub fn slot_mut(&mut self, spot: Spot) -> &mut Slot {
        &mut self.caches[spot.cache][spot.slot]
    }
}

/// The whole machine on one line of text, as it stands behind a report line.
impl fmt::Display for Contents {
    fn fmt(&self, out: &mut fmt::Formatter<'_>) -> fmt::Result {
        out.write_str(" |")?;
        for (nth, (spot, line)) in self.lines().enumerate() {
            let gap = if nth == 0 { " " } else { "; " };
            write!(out, "{gap}c{}s{}:{line}", spot.cache, spot.slot)?;
        }
        out.write_str(" | mem")?;
        for (address, word) in self.memory.iter().enumerate() {
            if *word != 0 {
                write!(out, " {address}={word}")?;
            }
        }
        Ok(())
    }
}
