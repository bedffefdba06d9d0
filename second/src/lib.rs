//! Ladomysh, second program: the machine, the traces and the report of
//! document 01 and its request 2026-01, written from their words alone so that
//! another program of the same documents can be compared with it.

pub mod batch;
pub mod check;
pub mod contents;
mod line;
pub mod machine;
pub mod player;
pub mod report;
pub mod step;
pub mod trace;

pub use check::check;
pub use machine::Machine;
pub use player::{play, play_showing_machine};
