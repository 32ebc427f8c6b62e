//! The original's text, unchanged, and below it the modules that reach its private fields and functions.
#![allow(dead_code, clippy::all)]

include!(env!("PIT_RS_TEXT"));

pub mod added;
pub mod added_tick;
pub mod baseline;
mod baseline_ticks;
pub mod board;
pub mod board_operation;
pub mod board_time;
pub mod control;
pub mod many_counts;
pub mod operation;
pub mod record;
pub mod remembered;
pub mod standing_board;
pub mod stands;
pub mod ticking;
pub mod words;
