//! What is due of the calls of request L7: a full check, a trace marked, a replay from a checkpoint. Each rule stands under its sentence of document 02. The section's form is judged by
//! trace_reader.rs, the boards are those that the original's replay leaves (trace_replay.rs), and which bytes are a board's is the table of docs/ENCODING.md.

use crate::board_fields::all;
use crate::reference::Reference;
use crate::trace_reader::{read, Checkpoint, Fault, Trace, BETWEEN};
use crate::trace_replay::{refusal_line, replay, run_from, Replayed};
use original::pit::board::Board;

const CHECKPOINT: u32 = 18;

/// A sound trace without a third section, and what its replay on the original leaves.
pub struct Bare {
    pub bytes: Vec<u8>,
    pub replayed: Replayed,
}

impl Bare {
    pub fn of(reference: &mut Reference, bytes: Vec<u8>) -> Self {
        let replayed = replay(reference, &bytes);
        assert!(replayed.answers.is_ok(), "a sound trace");
        Self { bytes, replayed }
    }

    /// "a count, then the whole board as it stands after each 256 operations, in an encoding set down in docs/".
    pub fn section(&self) -> Vec<u8> {
        section_of(&self.replayed.boards)
    }

    /// The trace with this section behind its last operation.
    pub fn marked(&self) -> Vec<u8> {
        self.followed_by(&self.section())
    }

    pub fn followed_by(&self, bytes: &[u8]) -> Vec<u8> {
        [&self.bytes[..], bytes].concat()
    }
}

/// A third section of these boards, whatever the trace before it.
pub fn section_of(boards: &[Board]) -> Vec<u8> {
    let count = (boards.len() as u32).to_le_bytes();
    count.into_iter().chain(boards.iter().flatten().copied()).collect()
}

/// Whether bytes are those of a board: each field is at most its limit.
pub fn readable(bytes: &Board) -> bool {
    all().all(|field| field.get(bytes) <= field.field.limit)
}

/// A replay from a checkpoint: its lines, and how many operations are behind the checkpoint.
pub struct From {
    pub text: String,
    pub operations: usize,
    /// Whether the checkpoint is not the trace's own board.
    pub other: bool,
    pub fault: Option<&'static str>,
}

/// Bytes that are asked about, read, and the bare trace that they are about where they are sound.
pub struct Asked<'a> {
    pub bytes: &'a [u8],
    bare: &'a Bare,
    read: Result<Trace, Fault>,
}

impl<'a> Asked<'a> {
    pub fn of(bytes: &'a [u8], bare: &'a Bare) -> Self {
        let read = read(bytes);
        let its_own = read.as_ref().map_or(true, |trace| bytes[..trace.end] == bare.bytes);
        assert!(its_own, "the operations of another trace");
        Self { bytes, bare, read }
    }

    /// How many checkpoints are there.
    pub fn checkpoints(&self) -> u32 {
        let section = self.read.as_ref().ok().and_then(|trace| trace.checkpoints.as_ref());
        section.map_or(0, |checkpoints| checkpoints.len() as u32)
    }

    /// What a plain replay leaves. 18 is for "the full check, and for a replay from" a checkpoint, so it looks at the section's form alone.
    pub fn replayed(&self) -> Result<&Replayed, Replayed> {
        match &self.read {
            Ok(_) => Ok(&self.bare.replayed),
            Err(fault) => Err(Replayed::refused(*fault)),
        }
    }

    /// "A full check replays the trace and compares every checkpoint." How many are right: none where the section is missing.
    pub fn checked(&self) -> Result<usize, Fault> {
        // "after all faults of form"
        let trace = self.read.as_ref().map_err(|fault| *fault)?;
        let checkpoints = trace.checkpoints.as_deref().unwrap_or_default();
        let pairs = checkpoints.iter().zip(&self.bare.replayed.boards);
        // "18 for the first checkpoint whose bytes differ, unreadable ones too"
        match pairs.into_iter().find(|(checkpoint, board)| checkpoint.bytes != **board) {
            Some((checkpoint, _)) => Err(Fault::outside(CHECKPOINT, checkpoint.place)),
            None => Ok(checkpoints.len()),
        }
    }

    /// The line that a full check writes.
    pub fn check_line(&self) -> String {
        self.checked().map_or_else(refusal_line, |number| format!("checked {number}\n"))
    }

    /// The trace's bytes up to its last operation, with the section made anew.
    pub fn marked(&self) -> Result<Vec<u8>, Fault> {
        self.read.as_ref().map(|_| self.bare.marked()).map_err(|fault| *fault)
    }

    /// What a replay from a checkpoint prints.
    pub fn from(&self, reference: &mut Reference, number: u32) -> Result<From, Fault> {
        let trace = self.read.as_ref().map_err(|fault| *fault)?;
        let checkpoint = self.start(trace, number)?;
        let first = BETWEEN * (number as usize + 1);
        let operations = trace.operations.len() - first;
        if checkpoint.bytes == self.bare.replayed.boards[number as usize] {
            return Ok(From { text: self.tail(first), operations, other: false, fault: None });
        }
        // A board that is readable is gone on with, also one of another model or divisor.
        let replayed = run_from(reference, checkpoint.bytes, trace, first, "");
        Ok(From { text: replayed.text, operations, other: true, fault: replayed.fault })
    }

    /// "18 .. for a replay from one that is missing or unreadable"
    fn start<'t>(&self, trace: &'t Trace, number: u32) -> Result<&'t Checkpoint, Fault> {
        let checkpoints = trace.checkpoints.as_deref().unwrap_or_default();
        let Some(checkpoint) = checkpoints.get(number as usize) else { return Err(Fault::outside(CHECKPOINT, self.bytes.len())) };
        if !readable(&checkpoint.bytes) {
            return Err(Fault::outside(CHECKPOINT, checkpoint.place));
        }
        Ok(checkpoint)
    }

    /// "the same lines as a replay from the start would from there": without the head and the lines before.
    fn tail(&self, first: usize) -> String {
        self.bare.replayed.text.split_inclusive('\n').skip(1 + first).collect()
    }
}
