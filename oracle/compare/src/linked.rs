//! The exported functions of our archive, each on slices.

pub use calls::*;

#[cfg(linked)]
mod calls {
    use original::pit::board_operation::BoardOperation;

    /// The functions as docs/ENCODING.md writes them.
    mod c {
        extern "C" {
            pub fn pit_channel_fresh(record: *mut u8, record_len: usize) -> u32;
            pub fn pit_channel_operation(
                record: *mut u8,
                record_len: usize,
                answer: *mut u8,
                answer_len: usize,
                code: u8,
                number: u8,
                setting: u8,
            ) -> u32;
            pub fn pit_board_new(board: *mut u8, board_len: usize, model: u8, divisor: u32) -> u32;
            pub fn pit_board_operation(
                board: *mut u8,
                board_len: usize,
                events: *mut u8,
                events_len: usize,
                answer: *mut u8,
                answer_len: usize,
                place: usize,
                code: u8,
                target: u16,
                number: u32,
            ) -> u32;
            pub fn pit_replay(trace: *const u8, trace_len: usize, out: *mut u8, out_len: usize, answer: *mut u8, answer_len: usize) -> u32;
            pub fn pit_answers(trace: *const u8, trace_len: usize, out: *mut u8, out_len: usize, answer: *mut u8, answer_len: usize)
                -> u32;
            pub fn pit_replay_from(
                trace: *const u8,
                trace_len: usize,
                out: *mut u8,
                out_len: usize,
                answer: *mut u8,
                answer_len: usize,
                checkpoint: u32,
            ) -> u32;
            pub fn pit_check(trace: *const u8, trace_len: usize, out: *mut u8, out_len: usize, answer: *mut u8, answer_len: usize) -> u32;
            pub fn pit_mark(trace: *const u8, trace_len: usize, out: *mut u8, out_len: usize, answer: *mut u8, answer_len: usize) -> u32;
        }
    }

    // SAFETY of all calls: each pointer goes with the length of the slice that it comes from, and the slices are apart.

    pub fn channel_fresh(record: &mut [u8]) -> u32 {
        unsafe { c::pit_channel_fresh(record.as_mut_ptr(), record.len()) }
    }

    pub fn channel_operation(record: &mut [u8], answer: &mut [u8], code: u8, number: u8, setting: u8) -> u32 {
        let (r, a) = (record.as_mut_ptr(), answer.as_mut_ptr());
        unsafe { c::pit_channel_operation(r, record.len(), a, answer.len(), code, number, setting) }
    }

    pub fn board_new(board: &mut [u8], model: u8, divisor: u32) -> u32 {
        unsafe { c::pit_board_new(board.as_mut_ptr(), board.len(), model, divisor) }
    }

    pub fn board_operation(board: &mut [u8], events: &mut [u8], answer: &mut [u8], op: BoardOperation) -> u32 {
        let (b, e, a) = (board.as_mut_ptr(), events.as_mut_ptr(), answer.as_mut_ptr());
        let (place, code, target, number) = (op.place as usize, op.code, op.target, op.number);
        unsafe { c::pit_board_operation(b, board.len(), e, events.len(), a, answer.len(), place, code, target, number) }
    }

    pub fn replay(trace: &[u8], out: &mut [u8], answer: &mut [u8]) -> u32 {
        let (t, o, a) = (trace.as_ptr(), out.as_mut_ptr(), answer.as_mut_ptr());
        unsafe { c::pit_replay(t, trace.len(), o, out.len(), a, answer.len()) }
    }

    pub fn answers(trace: &[u8], out: &mut [u8], answer: &mut [u8]) -> u32 {
        let (t, o, a) = (trace.as_ptr(), out.as_mut_ptr(), answer.as_mut_ptr());
        unsafe { c::pit_answers(t, trace.len(), o, out.len(), a, answer.len()) }
    }

    pub fn replay_from(trace: &[u8], out: &mut [u8], answer: &mut [u8], checkpoint: u32) -> u32 {
        let (t, o, a) = (trace.as_ptr(), out.as_mut_ptr(), answer.as_mut_ptr());
        unsafe { c::pit_replay_from(t, trace.len(), o, out.len(), a, answer.len(), checkpoint) }
    }

    pub fn check(trace: &[u8], out: &mut [u8], answer: &mut [u8]) -> u32 {
        let (t, o, a) = (trace.as_ptr(), out.as_mut_ptr(), answer.as_mut_ptr());
        unsafe { c::pit_check(t, trace.len(), o, out.len(), a, answer.len()) }
    }

    pub fn mark(trace: &[u8], out: &mut [u8], answer: &mut [u8]) -> u32 {
        let (t, o, a) = (trace.as_ptr(), out.as_mut_ptr(), answer.as_mut_ptr());
        unsafe { c::pit_mark(t, trace.len(), o, out.len(), a, answer.len()) }
    }
}

/// A program without the archive has a worker, and comes to none of these.
#[cfg(not(linked))]
mod calls {
    use original::pit::board_operation::BoardOperation;

    const NONE: &str = "a program without the archive has a worker";

    pub fn channel_fresh(_: &mut [u8]) -> u32 {
        unreachable!("{NONE}")
    }

    pub fn channel_operation(_: &mut [u8], _: &mut [u8], _: u8, _: u8, _: u8) -> u32 {
        unreachable!("{NONE}")
    }

    pub fn board_new(_: &mut [u8], _: u8, _: u32) -> u32 {
        unreachable!("{NONE}")
    }

    pub fn board_operation(_: &mut [u8], _: &mut [u8], _: &mut [u8], _: BoardOperation) -> u32 {
        unreachable!("{NONE}")
    }

    pub fn replay(_: &[u8], _: &mut [u8], _: &mut [u8]) -> u32 {
        unreachable!("{NONE}")
    }

    pub fn answers(_: &[u8], _: &mut [u8], _: &mut [u8]) -> u32 {
        unreachable!("{NONE}")
    }

    pub fn replay_from(_: &[u8], _: &mut [u8], _: &mut [u8], _: u32) -> u32 {
        unreachable!("{NONE}")
    }

    pub fn check(_: &[u8], _: &mut [u8], _: &mut [u8]) -> u32 {
        unreachable!("{NONE}")
    }

    pub fn mark(_: &[u8], _: &mut [u8], _: &mut [u8]) -> u32 {
        unreachable!("{NONE}")
    }
}
