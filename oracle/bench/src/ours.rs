//! Our timer behind the functions that it exports, of today's archive and of an old one.

/// The codes of a read, of counts, and of working ticks off.
pub const READ: u8 = 2;
pub const COUNTS: u8 = 4;
const WORK_OFF: u8 = 9;

/// Bytes of a board.
pub const LENGTH: usize = 111;

type BoardNew = unsafe extern "C" fn(board: *mut u8, board_len: usize, model: u8, divisor: u32) -> u32;
type BoardOperation = unsafe extern "C" fn(
    board: *mut u8,
    board_len: usize,
    events: *mut u8,
    events_len: usize,
    answer: *mut u8,
    answer_len: usize,
    place: usize,
    code: u8,
    target: u16,
    number: u32,
) -> u32;
type Whole =
    unsafe extern "C" fn(trace: *const u8, trace_len: usize, out: *mut u8, out_len: usize, answer: *mut u8, answer_len: usize) -> u32;

/// The functions as docs/ENCODING.md writes them, and three of the old archive's as ./bench names them.
mod c {
    extern "C" {
        pub fn pit_board_new(board: *mut u8, board_len: usize, model: u8, divisor: u32) -> u32;
        pub fn pit_board_operation(
            board: *mut u8,
            board_len: usize,
            events: *mut u8,
            events_len: usize,
            answer: *mut u8,
            answer_len: usize,
            place: usize,
            code: u8,
            target: u16,
            number: u32,
        ) -> u32;
        pub fn pit_replay(trace: *const u8, trace_len: usize, out: *mut u8, out_len: usize, answer: *mut u8, answer_len: usize) -> u32;
        pub fn pit_answers(trace: *const u8, trace_len: usize, out: *mut u8, out_len: usize, answer: *mut u8, answer_len: usize) -> u32;
        pub fn pit_check(trace: *const u8, trace_len: usize, out: *mut u8, out_len: usize, answer: *mut u8, answer_len: usize) -> u32;
        pub fn pit_mark(trace: *const u8, trace_len: usize, out: *mut u8, out_len: usize, answer: *mut u8, answer_len: usize) -> u32;
        pub fn pit_replay_from(
            trace: *const u8,
            trace_len: usize,
            out: *mut u8,
            out_len: usize,
            answer: *mut u8,
            answer_len: usize,
            checkpoint: u32,
        ) -> u32;
        pub fn old_pit_answers(trace: *const u8, trace_len: usize, out: *mut u8, out_len: usize, answer: *mut u8, answer_len: usize) -> u32;
        pub fn old_pit_board_new(board: *mut u8, board_len: usize, model: u8, divisor: u32) -> u32;
        pub fn old_pit_board_operation(
            board: *mut u8,
            board_len: usize,
            events: *mut u8,
            events_len: usize,
            answer: *mut u8,
            answer_len: usize,
            place: usize,
            code: u8,
            target: u16,
            number: u32,
        ) -> u32;
    }
}

/// An operation on a board of docs/ENCODING.md, with its place in the event bytes.
#[derive(Clone, Copy, Debug)]
pub struct Operation {
    pub place: usize,
    pub code: u8,
    pub target: u16,
    pub number: u32,
}

/// The two functions of a board in one archive.
#[derive(Clone, Copy)]
pub struct Door {
    board_new: BoardNew,
    board_operation: BoardOperation,
}

pub const NEW: Door = Door { board_new: c::pit_board_new, board_operation: c::pit_board_operation };
pub const OLD: Door = Door { board_new: c::old_pit_board_new, board_operation: c::old_pit_board_operation };

impl Door {
    pub fn fresh(&self, board: &mut [u8], model: u8, divisor: u32) -> u32 {
        // SAFETY: the pointer goes with the slice's length.
        unsafe { (self.board_new)(board.as_mut_ptr(), board.len(), model, divisor) }
    }

    pub fn operation(&self, board: &mut [u8], events: &mut [u8], answer: &mut [u8], op: Operation) -> u32 {
        let (b, e, a) = (board.as_mut_ptr(), events.as_mut_ptr(), answer.as_mut_ptr());
        let Operation { place, code, target, number } = op;
        // SAFETY: each pointer goes with the length of the slice that it comes from, and the three are apart.
        unsafe { (self.board_operation)(b, board.len(), e, events.len(), a, answer.len(), place, code, target, number) }
    }
}

fn whole(call: Whole, trace: &[u8], out: &mut [u8]) -> Option<usize> {
    let mut answer = [0; 16];
    // SAFETY: each pointer goes with the length of the slice that it comes from, and the three are apart.
    let status = unsafe { call(trace.as_ptr(), trace.len(), out.as_mut_ptr(), out.len(), answer.as_mut_ptr(), answer.len()) };
    (status == 0).then(|| written(&answer))
}

/// How many bytes an answer says were written.
fn written(answer: &[u8; 16]) -> usize {
    u64::from_le_bytes(answer[..8].try_into().expect("eight bytes")) as usize
}

/// The answers of a trace at the front of `out`, and how many bytes they are.
pub fn answers(trace: &[u8], out: &mut [u8]) -> Option<usize> {
    whole(c::pit_answers, trace, out)
}

/// The same through the old archive.
pub fn old_answers(trace: &[u8], out: &mut [u8]) -> Option<usize> {
    whole(c::old_pit_answers, trace, out)
}

/// What a replay of a trace prints at the front of `out`, and how many bytes that is.
pub fn replay(trace: &[u8], out: &mut [u8]) -> Option<usize> {
    whole(c::pit_replay, trace, out)
}

/// The line of a full check at the front of `out`, and how many bytes it is.
pub fn check(trace: &[u8], out: &mut [u8]) -> Option<usize> {
    whole(c::pit_check, trace, out)
}

/// A trace with its section three at the front of `out`, and how many bytes it is.
pub fn mark(trace: &[u8], out: &mut [u8]) -> Option<usize> {
    whole(c::pit_mark, trace, out)
}

/// What a replay from a checkpoint prints at the front of `out`, and how many bytes that is.
pub fn replay_from(trace: &[u8], out: &mut [u8], checkpoint: u32) -> Option<usize> {
    let mut answer = [0; 16];
    let (t, o, a) = (trace.as_ptr(), out.as_mut_ptr(), answer.as_mut_ptr());
    // SAFETY: each pointer goes with the length of the slice that it comes from, and the three are apart.
    let status = unsafe { c::pit_replay_from(t, trace.len(), o, out.len(), a, answer.len(), checkpoint) };
    (status == 0).then(|| written(&answer))
}

/// Whether an archive's reads say which half they are and whether it was held: request L3. One of before leaves these numbers 0.
pub fn has_words(door: Door) -> bool {
    let answer = Board::fresh(door, 0, 12).call(&mut [], READ, 0x40, 0).expect("a port that is there");
    answer[8] != 0
}

/// Whether an archive takes any number of counts: request L6. One of before refuses more than 65,536.
pub fn counts_any(door: Door) -> bool {
    Board::fresh(door, 0, 12).call(&mut [], COUNTS, 0, 65_537).is_ok()
}

/// Whether an archive's boards are as long as today's: request L5. One of before writes fewer bytes.
pub fn has_todays_form(door: Door) -> bool {
    let mut bytes = [0xFF; LENGTH];
    door.fresh(&mut bytes, 0, 12) == 0 && bytes[LENGTH - 1] == 0
}

/// A board in bytes, behind one of the doors.
pub struct Board {
    bytes: [u8; LENGTH],
    door: Door,
}

impl Board {
    pub fn fresh(door: Door, model: u8, divisor: u32) -> Self {
        let mut bytes = [0; LENGTH];
        assert_eq!(door.fresh(&mut bytes, model, divisor), 0, "a fresh board");
        Board { bytes, door }
    }

    fn call(&mut self, events: &mut [u8], code: u8, target: u16, number: u32) -> Result<[u8; 16], u32> {
        let mut answer = [0; 16];
        let status = self.door.operation(&mut self.bytes, events, &mut answer, Operation { place: 0, code, target, number });
        (status == 0).then_some(answer).ok_or(status)
    }

    /// One operation, with as many event bytes lent as in a trace; its refusal or the first number that it answers.
    pub fn operation(&mut self, code: u8, target: u16, number: u32) -> u64 {
        let mut events = [0; 6];
        match self.call(&mut events[..if code == WORK_OFF { 6 } else { 2 }], code, target, number) {
            Ok(answer) => u64::from_le_bytes(answer[..8].try_into().expect("eight bytes")),
            Err(status) => status.into(),
        }
    }

    /// Works off as many ticks as are stated: how many event bytes are written, and how many ticks are made.
    pub fn work_off(&mut self, stated: u32, events: &mut [u8]) -> (u64, u32) {
        let answer = self.call(events, WORK_OFF, 0, stated).expect("a number that may be stated");
        let made = u32::from_le_bytes(answer[8..12].try_into().expect("four bytes"));
        (u64::from_le_bytes(answer[..8].try_into().expect("eight bytes")), made)
    }

    /// Channel 0's counting element and output.
    pub fn shown(&self) -> (u16, bool) {
        (u16::from_le_bytes([self.bytes[19], self.bytes[20]]), self.bytes[27] == 1)
    }
}
