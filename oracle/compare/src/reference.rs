//! What is due of an operation on a board: the original's answer, with what read_back.rs puts over it; refusal 16 while ticks are owed, and working them off, by docs/TICK.md alone,
//! since the original owes none.

use crate::read_back;
use crate::tick_board::worked_off;
use original::pit::board::{number_at, Board, DIVISOR, OWED};
use original::pit::board_operation::{BoardOperation, BoardOracle, BoardOutcome, Events};

pub const WORK_OFF: u8 = 9;
const TICKS_OWED: u32 = 16;

#[derive(Default)]
pub struct Reference {
    pub oracle: BoardOracle,
}

impl Reference {
    pub fn operation(&mut self, start: &Board, events: &Events, op: BoardOperation) -> BoardOutcome {
        if op.code == WORK_OFF {
            worked_off(start, events, op)
        } else if must_wait(start, op) {
            BoardOutcome { status: TICKS_OWED, board: *start, events: *events, numbers: (0, 0, 0), fault: None }
        } else {
            read_back::on_board(&mut self.oracle, start, events, op)
        }
    }
}

/// 02: "16 for a port write, gate, reset, catch-up or run while ticks are owed, right after 1, 2 or 3 where these apply". What comes before it is asked of the original.
fn must_wait(start: &Board, op: BoardOperation) -> bool {
    let before = match op.code {
        1 => !(0x40..=0x43).contains(&op.target),
        3 => op.target > 2,
        6 | 7 => number_at(start, DIVISOR) == 0,
        8 => false,
        _ => return false,
    };
    !before && number_at(start, OWED) > 0
}
