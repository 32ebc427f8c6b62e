//! A call of one of the five functions of a trace, which becomes the reply. It is as long as its lengths say.
//!
//! The head has 32 bytes: the function (4 replay, 5 answers, 6 replay from a checkpoint, 7 check, 8 mark), the filler, two bytes unused, the lengths of the trace, of what is
//! lent for `out` and of what is lent for the answer (4 each), the status of the reply (4), the checkpoint's number (4), eight bytes unused. Then come the trace, the bytes
//! lent for `out` and 16 more, and 32 bytes of which the answer is the first. All other bytes hold the filler.

use crate::linked;
use crate::ours::Call;

const HEAD: usize = 32;
const PAST_OUT: usize = 16;
const ANSWER_ROOM: usize = 32;

#[derive(Clone, PartialEq)]
pub struct TraceFrame(Vec<u8>);

impl Call for TraceFrame {
    const AT_A_TIME: usize = 1;

    fn bytes(&mut self) -> &mut [u8] {
        &mut self.0
    }

    fn serve_linked(&mut self) {
        let (trace_len, out_len, answer_len) = (self.number(4), self.number(8), self.number(12));
        let checkpoint = self.number(20) as u32;
        let (head, rest) = self.0.split_at_mut(HEAD);
        let (trace, rest) = rest.split_at_mut(trace_len);
        let (out, answer) = rest.split_at_mut(out_len + PAST_OUT);
        let (out, answer) = (&mut out[..out_len], &mut answer[..answer_len]);
        let status = match head[0] {
            4 => linked::replay(trace, out, answer),
            5 => linked::answers(trace, out, answer),
            6 => linked::replay_from(trace, out, answer, checkpoint),
            7 => linked::check(trace, out, answer),
            _ => linked::mark(trace, out, answer),
        };
        head[16..20].copy_from_slice(&status.to_le_bytes());
    }
}

impl TraceFrame {
    pub fn replay(trace: &[u8], out_len: usize, answer_len: usize, filler: u8) -> Self {
        Self::of(4, trace, out_len, answer_len, filler)
    }

    pub fn answers(trace: &[u8], out_len: usize, answer_len: usize, filler: u8) -> Self {
        Self::of(5, trace, out_len, answer_len, filler)
    }

    pub fn replay_from(checkpoint: u32, trace: &[u8], out_len: usize, answer_len: usize, filler: u8) -> Self {
        let mut frame = Self::of(6, trace, out_len, answer_len, filler);
        frame.0[20..24].copy_from_slice(&checkpoint.to_le_bytes());
        frame
    }

    pub fn check(trace: &[u8], out_len: usize, answer_len: usize, filler: u8) -> Self {
        Self::of(7, trace, out_len, answer_len, filler)
    }

    pub fn mark(trace: &[u8], out_len: usize, answer_len: usize, filler: u8) -> Self {
        Self::of(8, trace, out_len, answer_len, filler)
    }

    fn of(function: u8, trace: &[u8], out_len: usize, answer_len: usize, filler: u8) -> Self {
        let mut bytes = vec![filler; HEAD + trace.len() + out_len + PAST_OUT + ANSWER_ROOM];
        bytes[0] = function;
        for (place, length) in [(4, trace.len()), (8, out_len), (12, answer_len)] {
            bytes[place..place + 4].copy_from_slice(&(length as u32).to_le_bytes());
        }
        bytes[HEAD..HEAD + trace.len()].copy_from_slice(trace);
        TraceFrame(bytes)
    }

    fn number(&self, place: usize) -> usize {
        u32::from_le_bytes(self.0[place..place + 4].try_into().expect("4 bytes")) as usize
    }

    pub fn status(&self) -> u32 {
        self.number(16) as u32
    }

    /// All bytes that were lent, and those past them.
    pub fn lent(&self) -> &[u8] {
        &self.0[HEAD..]
    }

    fn out_at(&self) -> usize {
        HEAD + self.number(4)
    }

    fn answer_at(&self) -> usize {
        self.out_at() + self.number(8) + PAST_OUT
    }

    /// The three numbers of the answer.
    pub fn numbers(&self) -> (u64, u32, u32) {
        let answer = &self.0[self.answer_at()..];
        let four = |at: usize| u32::from_le_bytes(answer[at..at + 4].try_into().expect("4 bytes"));
        (u64::from_le_bytes(answer[..8].try_into().expect("8 bytes")), four(8), four(12))
    }

    /// The first bytes of `out`; fewer where so many were not lent.
    pub fn out(&self, len: usize) -> &[u8] {
        &self.0[self.out_at()..self.out_at() + len.min(self.number(8))]
    }

    /// Whether the trace is as it was, and everything past the first `len` bytes of `out` and past the answer.
    pub fn rest_untouched(&self, trace: &[u8], len: usize) -> bool {
        let filler = self.0[1];
        let (out, answer) = (self.out_at() + len, self.answer_at());
        &self.0[HEAD..self.out_at()] == trace && self.0[out..answer].iter().chain(&self.0[answer + 16..]).all(|byte| *byte == filler)
    }
}
