//! Traces of which the original alone says where the board stands, and the original run through one of them from its first operation to its last.
//!
//! trace_replay.rs takes the original's timer out of its bytes before each operation and puts it back behind it. Here it is never taken out: at each checkpoint its bytes must be the same.

use crate::checkpoint_due::Bare;
use crate::checkpoint_judge::CheckpointJudge;
use crate::random::Random;
use crate::read_back::bare_board;
use crate::reference::Reference;
use crate::trace_random::{focused, trace_of};
use crate::trace_reader::{Operation, BETWEEN};
use original::pit::baseline::{one, Baseline};
use original::pit::board::fresh;

/// More than all time calls of a trace together, so that none yields a tick.
const LEAST_DIVISOR: u32 = u32::MAX - 1_000;
const MOST_TIME: u64 = 500_000;
/// The original makes its counts one by one.
const MOST_COUNTS: u32 = 3_000;

impl Random {
    /// A sound trace that never owes a tick and reads nothing back, so that its boards are the original's own but for the null-count marks.
    pub fn calm_trace(&mut self, number: u64) -> Vec<u8> {
        let (model, divisor, focus) = (self.below(2) as u8, LEAST_DIVISOR + self.below(1_001) as u32, self.below(4) as u8);
        let any = fresh(model, 12);
        let calm = |random: &mut Random| {
            let operation = focused(random.trace_operation(&any), focus);
            random.calmed(operation)
        };
        let operations: Vec<Operation> = (0..number).map(|_| calm(self)).collect();
        trace_of(model.into(), divisor, &operations)
    }

    fn calmed(&mut self, operation: Operation) -> Operation {
        let number = match (operation.code, operation.target) {
            // A control byte for channel 3 becomes one for channel 1.
            (1, 0x43) if operation.number >= 0xC0 => operation.number & 0x7F,
            (4, _) => operation.number % MOST_COUNTS,
            (6 | 7, _) => self.below(MOST_TIME) as u32,
            _ => operation.number,
        };
        Operation { number, ..operation }
    }
}

/// A calm trace of so many operations. The original, which is not stopped on its way, must stand where the checkpoints say; status and mark it has not.
pub fn calm(judge: &mut CheckpointJudge, making: &mut Reference, number: u64, random: &mut Random) -> Bare {
    let calm = Bare::of(making, random.calm_trace(number));
    let mut timer = Baseline::fresh(&calm.bytes);
    for (number, board) in calm.replayed.boards.iter().enumerate() {
        for index in BETWEEN * number..BETWEEN * (number + 1) {
            one(&mut timer, &calm.bytes, index);
        }
        judge.stood += 1;
        if timer.bytes() != bare_board(board) {
            judge.plain.wrong(&calm.bytes, &format!("the original stands elsewhere at checkpoint {number}"));
        }
    }
    calm
}
