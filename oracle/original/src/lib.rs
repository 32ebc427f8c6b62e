//! The original pit.rs of MartyPC, compiled from its unchanged text, and what runs it on records and boards of bytes.
//!
//! `bus`, `cpu_common` and `updatable` stand for the modules of MartyPC that the text names; each says what it leaves out.

pub mod bus;
pub mod cpu_common;
mod lines;
pub mod panics;
pub mod pit;
pub mod updatable;

/// "pinned", or "altered" where the build was told to take a text with another digest.
pub const TEXT: &str = env!("PIT_RS_IS");
