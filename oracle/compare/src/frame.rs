//! A call of one of the two functions of a channel: 80 bytes, which become the reply.
//!
//! The head has eight bytes: the function (0 fresh, 1 operation), the lengths lent for record and answer, the operation's three numbers, the filler,
//! one byte unused; in the reply its first four are the status. Then come 48 bytes of which the record is the first, and 24 of which the answer is. All
//! other bytes hold the filler, which is another in each frame.

use crate::linked;
use crate::ours::Call;
use original::pit::operation::Operation;
use original::pit::record::{Record, RECORD_BYTES};

const FRAME: usize = 80;
const RECORD: usize = 8;
const PAST_RECORD: usize = RECORD + RECORD_BYTES;
const ANSWER: usize = 56;

/// The bytes that can be lent for a record and for an answer.
pub const RECORD_ROOM: u8 = 48;
pub const ANSWER_ROOM: u8 = 24;

#[derive(Clone, Copy, PartialEq)]
pub struct Frame([u8; FRAME]);

impl Call for Frame {
    const AT_A_TIME: usize = 512;

    fn bytes(&mut self) -> &mut [u8] {
        &mut self.0
    }

    fn serve_linked(&mut self) {
        let (head, lent) = self.0.split_at_mut(RECORD);
        let (record, answer) = lent.split_at_mut(ANSWER - RECORD);
        let record = &mut record[..usize::from(head[1])];
        let answer = &mut answer[..usize::from(head[2])];
        let status = match head[0] {
            0 => linked::channel_fresh(record),
            _ => linked::channel_operation(record, answer, head[3], head[4], head[5]),
        };
        head[..4].copy_from_slice(&status.to_le_bytes());
    }
}

impl Frame {
    pub fn fresh(record: &Record, record_len: u8) -> Self {
        let mut frame = Self::operation(record, Operation { code: 0, number: 0, setting: 0 });
        (frame.0[0], frame.0[1]) = (0, record_len);
        frame
    }

    /// An operation with as many bytes lent as are needed, or some more. How many, and the filler, go by the record, so that they vary.
    pub fn operation(record: &Record, op: Operation) -> Self {
        let sum = record.iter().fold(u32::from(op.code), |sum, byte| sum.wrapping_mul(31).wrapping_add(u32::from(*byte)));
        let filler = (sum >> 8) as u8;
        let mut bytes = [filler; FRAME];
        let lent = [RECORD_BYTES as u8 + (sum % 18) as u8, 7 + (sum / 18 % 18) as u8];
        bytes[..7].copy_from_slice(&[1, lent[0], lent[1], op.code, op.number, op.setting, filler]);
        bytes[RECORD..PAST_RECORD].copy_from_slice(record);
        Frame(bytes)
    }

    pub fn lending(mut self, record_len: u8, answer_len: u8) -> Self {
        (self.0[1], self.0[2]) = (record_len, answer_len);
        self
    }

    pub fn status(&self) -> u32 {
        u32::from_le_bytes([self.0[0], self.0[1], self.0[2], self.0[3]])
    }

    /// All bytes that were lent, and those past them.
    pub fn lent(&self) -> &[u8] {
        &self.0[RECORD..]
    }

    pub fn record(&self) -> Record {
        self.0[RECORD..PAST_RECORD].try_into().expect("a record's bytes")
    }

    pub fn answer(&self) -> [u8; 7] {
        self.0[ANSWER..ANSWER + 7].try_into().expect("7 bytes")
    }

    pub fn rest_untouched(&self) -> bool {
        let filler = self.0[6];
        self.0[PAST_RECORD..ANSWER].iter().chain(&self.0[ANSWER + 7..]).all(|byte| *byte == filler)
    }
}
