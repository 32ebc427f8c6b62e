//! Checkpoints beside our own plain replay of the same trace: replays that begin at one, the full check, and the making of a section. The trace is the mixed one of 4,096 operations with its section
//! three; the original has no checkpoints, so beside these stands its replay of the operations from the start.

use crate::measure::medians;
use crate::ours;
use crate::workloads::{self, Workload};
use crate::ROOM;
use original::pit::baseline;
use std::hint::black_box;

/// Of the sixteen checkpoints the last, behind which nothing is left, the one before it, and the one in the middle.
const FROM: [(&str, u32); 3] = [
    ("from checkpoint 15, no operation behind it", 15),
    ("from checkpoint 14, 256 operations", 14),
    ("from checkpoint 7, 2,048 operations", 7),
];

/// Nanoseconds of one of the calls, of our plain replay and of the original's.
pub type Row = (&'static str, [f64; 3]);

pub fn rows(repetitions: usize) -> Vec<Row> {
    let workload = workloads::growing().pop().expect("the longest mixed trace");
    let marked = marked(&workload);
    let mut rows: Vec<Row> = FROM.iter().map(|(name, number)| (*name, from(&workload, &marked, *number, repetitions))).collect();
    assert_eq!(text(ours::check, &marked), b"checked 16\n", "the full check passes");
    rows.push(("full check of 16 checkpoints", beside(&workload, &marked, ours::check, repetitions)));
    rows.push(("section three made anew", beside(&workload, &marked, ours::mark, repetitions)));
    rows
}

/// The trace with its section three.
fn marked(workload: &Workload) -> Vec<u8> {
    let marked = text(ours::mark, &workload.trace);
    let original = text(baseline::replay, &workload.trace);
    assert!(text(ours::mark, &marked) == marked, "marked twice it is the same");
    assert!(text(ours::replay, &marked) == original, "the section changes no line");
    marked
}

/// What a call writes.
fn text(call: impl Fn(&[u8], &mut [u8]) -> Option<usize>, trace: &[u8]) -> Vec<u8> {
    let mut out = vec![0xA5; ROOM];
    let len = call(trace, &mut out).expect("a sound trace");
    out.truncate(len);
    out
}

/// A replay from a checkpoint, whose lines must be the last ones of the plain replay.
fn from(workload: &Workload, marked: &[u8], number: u32, repetitions: usize) -> [f64; 3] {
    let replay_from = |trace: &[u8], out: &mut [u8]| ours::replay_from(trace, out, number);
    let (lines, all) = (text(replay_from, marked), text(ours::replay, marked));
    let left = workload.operations - 256 * (number as usize + 1);
    let many = lines.iter().filter(|byte| **byte == b'\n').count();
    assert!(many == left + 1 && all.ends_with(&lines), "the lines from checkpoint {number} are others");
    beside(workload, marked, replay_from, repetitions)
}

fn beside(workload: &Workload, marked: &[u8], call: impl Fn(&[u8], &mut [u8]) -> Option<usize>, repetitions: usize) -> [f64; 3] {
    let mut outs = [(); 3].map(|()| vec![0; ROOM]);
    let [one, other, third] = outs.each_mut();
    let mut ours = || {
        black_box(call(black_box(marked), one));
    };
    let mut plain = || {
        black_box(ours::replay(black_box(marked), other));
    };
    let mut original = || {
        black_box(baseline::replay(black_box(&workload.trace), third));
    };
    medians(workload.figures, repetitions, [&mut ours, &mut plain, &mut original])
}
