//! One call at a time, our board in bytes between the calls, through today's archive or an old one, beside the original.

use crate::measure::medians;
use crate::ours::{Board, Door, NEW, OLD};
use crate::workloads::Single;
use original::pit::baseline::{self, Baseline};
use std::hint::black_box;

/// Nanoseconds of ours and of the original.
pub fn beside_original(single: &Single, repetitions: usize) -> [f64; 2] {
    agree(single, &[NEW]);
    medians(single.number(), repetitions, [&mut ours(single, NEW), &mut original(single)])
}

/// Nanoseconds of the old archive, of today's and of the original.
pub fn of_two(single: &Single, repetitions: usize) -> [f64; 3] {
    agree(single, &[OLD, NEW]);
    medians(single.number(), repetitions, [&mut ours(single, OLD), &mut ours(single, NEW), &mut original(single)])
}

/// All must answer the same, also when the operations come again.
fn agree(single: &Single, doors: &[Door]) {
    let mut timer = Baseline::fresh(&single.all.trace);
    let mut boards: Vec<Board> = doors.iter().map(|door| single.fresh(*door)).collect();
    let first: Vec<_> = single.all.each().enumerate().collect();
    for (index, (code, target, number)) in first.iter().chain(&first[single.begun..]) {
        let theirs = baseline::one(&mut timer, &single.all.trace, *index);
        for board in &mut boards {
            assert_eq!(board.operation(*code, *target, *number), theirs.into(), "{}: the sides differ", single.all.name);
        }
    }
}

fn ours(single: &Single, door: Door) -> impl FnMut() {
    let mut board = single.fresh(door);
    let mut operations: Vec<_> = single.all.each().collect();
    for (code, target, number) in operations.drain(..single.begun) {
        board.operation(code, target, number);
    }
    move || {
        for (code, target, number) in &operations {
            black_box(board.operation(*code, *target, *number));
        }
    }
}

fn original(single: &Single) -> impl FnMut() + '_ {
    let trace = &single.all.trace[..];
    let mut timer = Baseline::fresh(trace);
    for index in 0..single.begun {
        baseline::one(&mut timer, trace, index);
    }
    move || {
        for index in single.begun..single.all.operations {
            black_box(baseline::one(&mut timer, black_box(trace), index));
        }
    }
}
