//! Owed ticks worked off in one call, beside the original's own `run` over the same ticks. Both begin with a time call of 65,536 times the divisor: ours divides and leaves the ticks owed, the
//! original takes the divisor away again and again and ticks as it goes. Channel 0 counts in mode 2 or 3 on the 8253, the others wait for a count. The two ticks are not the same (docs/TICK.md,
//! rows R1 to R13), but on these boards element, output and the number of output changes are, which is looked at first.

use crate::measure::medians;
use crate::ours::{Board, NEW};
use original::pit::baseline::{self, Baseline};
use std::hint::black_box;

const TICKS: u32 = 65_536;
const DIVISOR: u32 = 12;
/// Enough for the events of every row: a change of the output every ninth tick.
const EVENT_ROOM: usize = 32_768;

/// A row's name, its control byte for channel 0 and its count.
const ROWS: [(&str, u32, u32); 6] = [
    ("65,536 ticks, mode 2, count 0", 0x34, 0),
    ("65,536 ticks, mode 2, count 18", 0x34, 18),
    ("65,536 ticks, mode 3, count 0", 0x36, 0),
    ("65,536 ticks, mode 3, count 18", 0x36, 18),
    ("65,536 ticks, mode 2, count 0, BCD", 0x35, 0),
    ("65,536 ticks, mode 3, count 0, BCD", 0x37, 0),
];

/// Each row's name, and the nanoseconds of both sides.
pub fn rows(repetitions: usize) -> Vec<(&'static str, [f64; 2])> {
    ROWS.iter().map(|(name, control, count)| (*name, row(name, *control, *count, repetitions))).collect()
}

fn row(name: &str, control: u32, count: u32, repetitions: usize) -> [f64; 2] {
    let (mut board, mut timer) = begun(control, count);
    let mut events = vec![0; EVENT_ROOM];
    let mut told = 0;
    for _ in 0..4 {
        let written = worked(&mut board, &mut events);
        let calls = timer.run_with_ticks(TICKS * DIVISOR);
        told += written / 2;
        assert!(board.shown() == timer.shown(0) && told == calls, "{name}: the two sides differ");
    }
    let mut one = || {
        black_box(worked(&mut board, &mut events));
    };
    let mut other = || {
        black_box(timer.run_with_ticks(black_box(TICKS * DIVISOR)));
    };
    medians(1, repetitions, [&mut one, &mut other])
}

/// A mode set and a count of two bytes on both sides, on the 8253. The bus calls of the mode set are taken back: only those of the ticks are counted.
fn begun(control: u32, count: u32) -> (Board, Baseline) {
    let operations = [(0x43, control), (0x40, count & 0xFF), (0x40, count >> 8)];
    let mut board = Board::fresh(NEW, 0, DIVISOR);
    let mut trace: Vec<u8> = [2, DIVISOR, 0, operations.len() as u32].iter().flat_map(|number: &u32| number.to_le_bytes()).collect();
    for (port, byte) in operations {
        board.operation(1, port, byte);
        trace.extend([1, port as u8, byte as u8, 0, 0, 0]);
    }
    let mut timer = Baseline::fresh(&trace);
    for index in 0..operations.len() {
        baseline::one(&mut timer, &trace, index);
    }
    timer.forget_calls();
    (board, timer)
}

/// A run and all of its ticks; how many event bytes they write.
fn worked(board: &mut Board, events: &mut [u8]) -> u64 {
    board.operation(7, 0, TICKS * DIVISOR);
    let (written, made) = board.work_off(TICKS, events);
    assert_eq!(made, TICKS, "all ticks in one call");
    written
}
