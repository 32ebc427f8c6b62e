//! Sound traces, and damaged ones.

use crate::random::Random;
use crate::reference::{Reference, WORK_OFF};
use crate::trace_reader::{Operation, MOST_OPERATIONS};
use crate::trace_replay::{lent, on_a_board};
use original::pit::board::{self, Board};
use original::pit::board_time::quotient;

/// More ticks than this leave a board that a trace does not get out of soon: they are owed seldom.
const MANY_TICKS: u64 = 3_000;

/// The places of the head's fields, and where the operations begin.
const SETTINGS: usize = 0;
const DIVISOR: usize = 4;
const MODEL: usize = 8;
const COUNT: usize = 12;
const OPERATIONS: usize = 16;

/// Ways to damage a trace.
const DAMAGES: u64 = 12;

/// The operation's six bytes.
pub fn bytes_of(operation: Operation) -> [u8; 6] {
    let [a, b, c, d] = operation.number.to_le_bytes();
    [operation.code, operation.target, a, b, c, d]
}

pub fn trace_of(model: u32, divisor: u32, operations: &[Operation]) -> Vec<u8> {
    let head = [2, divisor, model, operations.len() as u32];
    head.iter().flat_map(|number| number.to_le_bytes()).chain(operations.iter().flat_map(|operation| bytes_of(*operation))).collect()
}

pub fn put(trace: &mut [u8], place: usize, number: u32) {
    trace[place..place + 4].copy_from_slice(&number.to_le_bytes());
}

/// The same operation on one channel, so that what a trace does meets; 3 leaves it, and so do bad ports and channels.
pub fn focused(operation: Operation, channel: u8) -> Operation {
    match (operation.code, operation.target) {
        _ if channel == 3 => operation,
        (1, 0x43) => Operation { number: operation.number & 0x3F | u32::from(channel) << 6, ..operation },
        (1 | 2, 0x40..=0x42) => Operation { target: 0x40 + channel, ..operation },
        (3..=5, 0..=2) => Operation { target: channel, ..operation },
        _ => operation,
    }
}

/// What becomes of an operation of a trace that is about a channel; 3 stands for all.
pub type Change = fn(&mut Random, Operation, u8) -> Operation;

/// Nothing.
pub fn as_it_is(_: &mut Random, operation: Operation, _: u8) -> Operation {
    operation
}

/// Every third control byte is for channel 3, and then names the channel; and every fourth call of counts is by the thousand.
pub fn changed(random: &mut Random, operation: Operation, channel: u8) -> Operation {
    let number = match (operation.code, operation.target) {
        (1, 0x43) if random.one_in(3) => operation.number | 0xC0 | 2 << channel & 0xE,
        (code, _) => random.often_by_thousands(code, operation.number),
    };
    Operation { number, ..operation }
}

impl Random {
    /// An operation for a trace that stands at this board.
    pub fn trace_operation(&mut self, board: &Board) -> Operation {
        loop {
            let op = self.board_operation(board, &lent(0));
            let many = matches!(op.code, 6 | 7) && quotient(board, op.number).is_some_and(|ticks| ticks > MANY_TICKS);
            if op.code <= WORK_OFF && (!many || self.one_in(512)) {
                return Operation { code: op.code, target: op.target as u8, number: op.number };
            }
        }
    }

    /// A sound trace with so many operations, made while it runs on the original, so that its times are about the board's. `change` may put others in their places.
    pub fn sound_trace(&mut self, reference: &mut Reference, number: u64, change: Change) -> Vec<u8> {
        let mut board = self.fresh_board();
        let (model, divisor) = (board[board::MODEL], board::number_at(&board, board::DIVISOR));
        let focus = self.below(4) as u8;
        let mut operations = Vec::new();
        for _ in 0..number {
            let operation = focused(self.trace_operation(&board), focus);
            let operation = change(self, operation, focus);
            board = reference.operation(&board, &lent(operation.code), on_a_board(operation)).board;
            operations.push(operation);
        }
        trace_of(model.into(), divisor, &operations)
    }

    /// How many operations: mostly up to 60, sometimes none, seldom as many as there may be.
    pub fn trace_length(&mut self) -> u64 {
        match self.below(400) {
            0 => u64::from(MOST_OPERATIONS),
            1..=20 => 0,
            21..=60 => 1,
            _ => self.below(61),
        }
    }

    /// A number that is none of the small ones, or that differs from a small one in its upper bytes alone.
    pub fn bad_number(&mut self, least: u32) -> u32 {
        match self.below(3) {
            0 => least,
            1 => (1 + self.below(255) as u32) << (8 + 8 * self.below(3)),
            _ => (self.next() as u32).max(least),
        }
    }

    /// Damages a trace in one of the ways; some leave it sound.
    pub fn damage(&mut self, trace: &mut Vec<u8>) {
        let operations = trace.len().saturating_sub(OPERATIONS) / 6;
        if trace.len() < OPERATIONS || operations == 0 {
            return self.damage_anywhere(trace);
        }
        let at = OPERATIONS + 6 * self.below(operations as u64) as usize;
        match self.below(DAMAGES) {
            0 => put(trace, SETTINGS, self.one_of(&[0, 1, 3, 0x102, 0x1_0002, 0x0200_0000, 0x8000_0002])),
            1 => put(trace, DIVISOR, 0),
            2 => put(trace, MODEL, self.bad_number(2)),
            3 => put(trace, COUNT, self.bad_number(MOST_OPERATIONS + 1)),
            4 => put(trace, COUNT, operations as u32 + 1),
            5 => put(trace, COUNT, operations as u32 - 1),
            6 => trace[at] = self.one_of(&[0, 10, 11, 16, 17, 128, 255]),
            7 => trace[at..at + 2].copy_from_slice(&[6 + self.below(4) as u8, 1 << self.below(8)]),
            8 => self.damage_number(&mut trace[at..at + 6]),
            _ => self.damage_anywhere(trace),
        }
    }

    /// A number against the rule of its code.
    fn damage_number(&mut self, operation: &mut [u8]) {
        let (code, least) = self.one_of(&[(2, 1), (5, 1), (8, 1), (1, 256), (3, 2)]);
        (operation[0], operation[1]) = (code, 0);
        let number = self.bad_number(least).max(least);
        operation[2..].copy_from_slice(&number.to_le_bytes());
    }

    fn damage_anywhere(&mut self, trace: &mut Vec<u8>) {
        match self.below(4) {
            0 => trace.truncate(self.below(trace.len() as u64 + 1) as usize),
            1 => trace.extend((0..=self.below(8)).map(|_| self.next() as u8)),
            2 => *trace = (0..self.below(40)).map(|_| self.next() as u8).collect(),
            _ if trace.is_empty() => {}
            _ => {
                let place = self.below(trace.len() as u64) as usize;
                trace[place] = self.next() as u8;
            }
        }
    }
}
