//! Seeded texts: traces, and traces that were damaged.

mod blind;
mod breaks;
mod damage;
mod lean;
mod long;
mod steer;
mod trace;
mod wrong;

pub use breaks::numbers;

use crate::random::{seed_of, Random};
use std::fmt;

#[derive(Clone, Copy, Debug, PartialEq, Eq)]
pub enum Kind {
    Trace,
    Damaged,
}

/// Which text of a run: its kind and its number in that kind, so that the
/// name doesn't change with the counts of a run.
#[derive(Clone, Copy, Debug, PartialEq, Eq)]
pub struct Name {
    pub kind: Kind,
    pub index: u64,
}

impl Name {
    pub fn trace(index: u64) -> Name {
        Name { kind: Kind::Trace, index }
    }

    pub fn damaged(index: u64) -> Name {
        Name { kind: Kind::Damaged, index }
    }
}

impl fmt::Display for Name {
    fn fmt(&self, out: &mut fmt::Formatter<'_>) -> fmt::Result {
        match self.kind {
            Kind::Trace => write!(out, "trace {}", self.index),
            Kind::Damaged => write!(out, "damaged {}", self.index),
        }
    }
}

pub fn text(seed: u64, name: Name) -> Vec<u8> {
    let mut random = Random::new(seed_of(seed, name.kind as u64, name.index));
    match name.kind {
        Kind::Trace => trace::any(&mut random),
        Kind::Damaged => damage::any(&mut random),
    }
}

#[cfg(test)]
mod tests;
