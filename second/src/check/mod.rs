//! Checks a run from outside: it sees each step, its answer and the machine
//! afterwards, and calls none of the model's rules.

pub mod history;
pub mod house;

use crate::contents::{Contents, WORDS};
use crate::player::{Player, Turn};
use crate::step::Answer;
use history::History;
use std::fmt;

#[derive(Debug, PartialEq, Eq)]
pub struct Fault {
    pub step: u64,
    pub what: String,
}

impl fmt::Display for Fault {
    fn fmt(&self, out: &mut fmt::Formatter<'_>) -> fmt::Result {
        write!(out, "step {}: {}", self.step, self.what)
    }
}

/// Plays a text and checks after every step; gives the report.
pub fn check(text: &[u8]) -> Result<Vec<u8>, Fault> {
    let mut player = match Player::open(text) {
        Ok(player) => player,
        Err(refused) => return Ok(format!("{refused}\n").into_bytes()),
    };
    let mut history = History::new([0; WORDS]);
    let mut report = String::new();
    let mut before = player.machine().contents().clone();
    while let Some(turn) = player.turn() {
        let after = player.machine().contents();
        check_turn(&mut history, &turn, &before, after).map_err(|what| {
            let step = turn.line.number;
            Fault { step, what }
        })?;
        before.clone_from(after);
        report.push_str(&format!("{}\n", turn.line));
    }
    Ok(report.into_bytes())
}

fn check_turn(
    history: &mut History,
    turn: &Turn,
    before: &Contents,
    after: &Contents,
) -> Result<(), String> {
    let answer = turn.line.answer;
    if matches!(answer, Answer::Refused(_)) && before != after {
        return Err(format!("{answer} changed the machine from{before} to{after}"));
    }
    house::verify(after).map_err(|what| format!("house rule broken: {what}; machine{after}"))?;
    if let Some(step) = turn.step {
        history.observe(step, answer)?;
    }
    let (reported, committed) = (turn.line.lcvid, history.last_committed());
    if u64::from(reported) != committed {
        return Err(format!("lcvid={reported} reported, but {committed} was last committed"));
    }
    history.verify()
}
