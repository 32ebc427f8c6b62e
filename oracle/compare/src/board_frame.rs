//! A call of one of the two functions of a board: 240 bytes, which become the reply.
//!
//! The head has 24 bytes: the function (2 new, 3 operation), the lengths lent for board, events and answer, the operation's code or the model, the filler,
//! the target (2), the number or the divisor (4), the status of the reply (4), the event place (8). Then come 120 bytes of which the board is the first,
//! 64 of which the event bytes are, and 32 of which the answer is. All other bytes hold the filler.

use crate::linked;
use crate::ours::Call;
use original::pit::board::{Board, LENGTH};
use original::pit::board_operation::{BoardOperation, Events, Numbers};

const FRAME: usize = 240;
const BOARD: usize = 24;
const EVENTS: usize = 144;
const ANSWER: usize = 208;

/// The bytes that can be lent for a board and for an answer.
pub const BOARD_ROOM: u8 = 120;
pub const ANSWER_ROOM: u8 = 32;

#[derive(Clone, Copy, PartialEq)]
pub struct BoardFrame([u8; FRAME]);

impl Call for BoardFrame {
    const AT_A_TIME: usize = 200;

    fn bytes(&mut self) -> &mut [u8] {
        &mut self.0
    }

    fn serve_linked(&mut self) {
        let (head, lent) = self.0.split_at_mut(BOARD);
        let (board, lent) = lent.split_at_mut(EVENTS - BOARD);
        let (events, answer) = lent.split_at_mut(ANSWER - EVENTS);
        let number = u32::from_le_bytes(head[8..12].try_into().expect("4 bytes"));
        let board = &mut board[..usize::from(head[1])];
        let status = if head[0] == 2 {
            linked::board_new(board, head[4], number)
        } else {
            let op = BoardOperation {
                code: head[4],
                target: u16::from_le_bytes([head[6], head[7]]),
                number,
                place: u64::from_le_bytes(head[16..24].try_into().expect("8 bytes")),
            };
            let (events, answer) = (&mut events[..usize::from(head[2])], &mut answer[..usize::from(head[3])]);
            linked::board_operation(board, events, answer, op)
        };
        head[12..16].copy_from_slice(&status.to_le_bytes());
    }
}

impl BoardFrame {
    pub fn new(board: &Board, board_len: u8, model: u8, divisor: u32) -> Self {
        let op = BoardOperation { code: model, target: 0, number: divisor, place: 0 };
        let mut frame = Self::operation(board, &Events::zeros(0), op);
        (frame.0[0], frame.0[1]) = (2, board_len);
        frame
    }

    /// An operation with as many bytes of board and answer lent as are needed, or some more. How many, and the filler, go by the board.
    pub fn operation(board: &Board, events: &Events, op: BoardOperation) -> Self {
        let sum = board.iter().fold(u32::from(op.code), |sum, byte| sum.wrapping_mul(31).wrapping_add(u32::from(*byte)));
        let filler = (sum >> 8) as u8;
        let mut bytes = [filler; FRAME];
        bytes[..6].copy_from_slice(&[3, LENGTH as u8 + (sum % 10) as u8, events.len, 16 + (sum / 10 % 17) as u8, op.code, filler]);
        bytes[6..8].copy_from_slice(&op.target.to_le_bytes());
        bytes[8..12].copy_from_slice(&op.number.to_le_bytes());
        bytes[16..24].copy_from_slice(&op.place.to_le_bytes());
        bytes[BOARD..BOARD + LENGTH].copy_from_slice(board);
        bytes[EVENTS..EVENTS + usize::from(events.len)].copy_from_slice(events.lent());
        BoardFrame(bytes)
    }

    pub fn lending(mut self, board_len: u8, answer_len: u8) -> Self {
        (self.0[1], self.0[3]) = (board_len, answer_len);
        self
    }

    pub fn status(&self) -> u32 {
        u32::from_le_bytes(self.0[12..16].try_into().expect("4 bytes"))
    }

    /// All bytes that were lent, and those past them.
    pub fn lent(&self) -> &[u8] {
        &self.0[BOARD..]
    }

    pub fn board(&self) -> Board {
        self.0[BOARD..BOARD + LENGTH].try_into().expect("a board's bytes")
    }

    /// The event bytes that were lent.
    pub fn events(&self) -> &[u8] {
        &self.0[EVENTS..EVENTS + usize::from(self.0[2])]
    }

    pub fn numbers(&self) -> Numbers {
        let answer = &self.0[ANSWER..];
        let four = |at: usize| u32::from_le_bytes(answer[at..at + 4].try_into().expect("4 bytes"));
        (u64::from_le_bytes(answer[..8].try_into().expect("8 bytes")), four(8), four(12))
    }

    pub fn rest_untouched(&self) -> bool {
        let filler = self.0[5];
        let past_events = EVENTS + usize::from(self.0[2]);
        let rest = [BOARD + LENGTH..EVENTS, past_events..ANSWER, ANSWER + 16..FRAME];
        rest.into_iter().all(|part| self.0[part].iter().all(|byte| *byte == filler))
    }
}
