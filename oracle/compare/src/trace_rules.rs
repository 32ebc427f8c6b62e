//! What documents 01 and 02 say of a refused trace, rule by rule: traces that are written out, each with the line that is due, or with `sound`, and with the status of `pit_answers` and `pit_mark`. The
//! reader must say the same of each, and so must ours.

use crate::random::Random;
use crate::trace_frame::TraceFrame;
use crate::trace_judge::{TraceJudge, LINE_ROOM, NUMBERS};
use crate::trace_random::bytes_of;
use crate::trace_reader::{read, Operation};
use crate::trace_replay::{refusal_line, refusal_status};

type Bytes = &'static [u8];

struct Rule {
    head: &'static [u32],
    operations: &'static [Operation],
    behind: Bytes,
    due: &'static str,
    status: u32,
}

const fn rule(head: &'static [u32], operations: &'static [Operation], behind: Bytes, due: &'static str, status: u32) -> Rule {
    Rule { head, operations, behind, due, status }
}

const fn op(code: u8, target: u8, number: u32) -> Operation {
    Operation { code, target, number }
}

/// An operation that breaks no rule.
const READ: Operation = op(2, 0x40, 0);
const LARGEST: u32 = u32::MAX;

const RULES: [Rule; 66] = [
    // "The older line stays for faults outside operations": a field that is not there, then the head's rules from the front.
    rule(&[], &[], &[], "trace refused 9 at 0", 9),
    rule(&[2, 12, 0], &[], &[0, 0, 0], "trace refused 9 at 15", 9),
    rule(&[3, 0, 2, 4_097], &[], &[], "trace refused 10 at 0", 10),
    rule(&[2, 0, 2, 4_097], &[], &[], "trace refused 3 at 4", 3),
    // "21 .. model too large"
    rule(&[2, 12, 2, 4_097], &[], &[], "trace refused 21 at 8", 21),
    rule(&[2, 12, 256, 0], &[], &[], "trace refused 21 at 8", 21),
    rule(&[2, 12, LARGEST, 1], &[op(10, 1, 1)], &[], "trace refused 21 at 8", 21),
    rule(&[2, 12, 1, 0], &[], &[], "sound", 0),
    rule(&[2, 12, 1, 4_097], &[op(10, 1, 1)], &[], "trace refused 11 at 12", 11),
    // "12 now means not 1 to 9", whatever target and number are. "name the operation's index, counted from 0, beside the byte offset"
    rule(&[2, 12, 0, 1], &[op(0, 0, 0)], &[], "trace refused 12 at 16 operation 0", 268),
    rule(&[2, 12, 0, 1], &[op(10, 1, 1)], &[], "trace refused 12 at 16 operation 0", 268),
    rule(&[2, 12, 0, 3], &[READ, op(10, 0, 0), READ], &[], "trace refused 12 at 22 operation 1", 524),
    rule(&[2, 12, 0, 3], &[READ, READ, op(255, 255, LARGEST)], &[], "trace refused 12 at 28 operation 2", 780),
    // "19 target not 0 where it must be": "Target 0 for 6, 7, 8"; "Trace code 9, target 0"
    rule(&[2, 12, 0, 1], &[op(6, 1, 0)], &[], "trace refused 19 at 17 operation 0", 275),
    rule(&[2, 12, 0, 1], &[op(7, 255, 30)], &[], "trace refused 19 at 17 operation 0", 275),
    rule(&[2, 12, 0, 1], &[op(8, 1, 0)], &[], "trace refused 19 at 17 operation 0", 275),
    rule(&[2, 12, 0, 1], &[op(9, 1, 0)], &[], "trace refused 19 at 17 operation 0", 275),
    rule(&[2, 12, 0, 3], &[READ, op(6, 128, LARGEST), READ], &[], "trace refused 19 at 23 operation 1", 531),
    rule(&[2, 12, 0, 3], &[READ, READ, op(7, 1, 0)], &[], "trace refused 19 at 29 operation 2", 787),
    rule(&[2, 12, 0, 1], &[op(9, 2, LARGEST)], &[], "trace refused 19 at 17 operation 0", 275),
    // "then code, target, number": of both wrong the target is told
    rule(&[2, 12, 0, 1], &[op(8, 1, 1)], &[], "trace refused 19 at 17 operation 0", 275),
    rule(&[2, 12, 0, 2], &[READ, op(8, 255, LARGEST)], &[], "trace refused 19 at 23 operation 1", 531),
    // "20 number not 0 where it must be": "Number 0 for 2, 5, 8", however large
    rule(&[2, 12, 0, 1], &[op(2, 0x40, 1)], &[], "trace refused 20 at 18 operation 0", 276),
    rule(&[2, 12, 0, 1], &[op(5, 0, 1)], &[], "trace refused 20 at 18 operation 0", 276),
    rule(&[2, 12, 0, 1], &[op(8, 0, 1)], &[], "trace refused 20 at 18 operation 0", 276),
    rule(&[2, 12, 0, 3], &[READ, op(2, 255, 256), READ], &[], "trace refused 20 at 24 operation 1", 532),
    rule(&[2, 12, 0, 3], &[READ, READ, op(5, 255, 1 << 24)], &[], "trace refused 20 at 30 operation 2", 788),
    rule(&[2, 12, 0, 1], &[op(2, 0, LARGEST)], &[], "trace refused 20 at 18 operation 0", 276),
    rule(&[2, 12, 0, 1], &[op(5, 0, LARGEST)], &[], "trace refused 20 at 18 operation 0", 276),
    rule(&[2, 12, 0, 1], &[op(8, 0, LARGEST)], &[], "trace refused 20 at 18 operation 0", 276),
    // "21 number .. too large": "at most 255 for 1; at most 1 for 3"
    rule(&[2, 12, 0, 1], &[op(1, 0x43, 256)], &[], "trace refused 21 at 18 operation 0", 277),
    rule(&[2, 12, 0, 1], &[op(3, 0, 2)], &[], "trace refused 21 at 18 operation 0", 277),
    rule(&[2, 12, 0, 3], &[READ, op(1, 255, LARGEST), READ], &[], "trace refused 21 at 24 operation 1", 533),
    rule(&[2, 12, 0, 3], &[READ, READ, op(3, 255, LARGEST)], &[], "trace refused 21 at 30 operation 2", 789),
    rule(&[2, 12, 0, 1], &[op(1, 0x43, 1 << 24)], &[], "trace refused 21 at 18 operation 0", 277),
    rule(&[2, 12, 0, 1], &[op(3, 0, 256)], &[], "trace refused 21 at 18 operation 0", 277),
    // What breaks no rule. "Ports and channels are checked only when run", and so is 15.
    rule(&[2, 12, 0, 2], &[op(1, 0, 0), op(1, 255, 255)], &[], "sound", 0),
    rule(&[2, 12, 0, 2], &[op(2, 0, 0), op(2, 255, 0)], &[], "sound", 0),
    rule(&[2, 12, 0, 3], &[op(3, 0, 0), op(3, 0, 1), op(3, 255, 1)], &[], "sound", 0),
    rule(&[2, 12, 0, 2], &[op(4, 0, LARGEST), op(4, 255, 65_537)], &[], "sound", 0),
    rule(&[2, 12, 0, 2], &[op(5, 0, 0), op(5, 255, 0)], &[], "sound", 0),
    rule(&[2, 12, 0, 2], &[op(6, 0, 0), op(6, 0, LARGEST)], &[], "sound", 0),
    rule(&[2, 12, 0, 2], &[op(7, 0, 0), op(7, 0, LARGEST)], &[], "sound", 0),
    rule(&[2, 12, 0, 1], &[op(8, 0, 0)], &[], "sound", 0),
    rule(&[2, 12, 0, 3], &[op(9, 0, 0), op(9, 0, 65_537), op(9, 0, LARGEST)], &[], "sound", 0),
    // "Fields are checked from the front": of two operations the first is told.
    rule(&[2, 12, 0, 2], &[op(3, 0, 2), op(10, 0, 0)], &[], "trace refused 21 at 18 operation 0", 277),
    rule(&[2, 12, 0, 3], &[READ, op(8, 0, 1), op(6, 1, 0)], &[], "trace refused 20 at 24 operation 1", 532),
    // "an unfinished operation still has only its total length", whatever its bytes would break.
    rule(&[2, 12, 0, 1], &[], &[], "trace refused 9 at 16", 9),
    rule(&[2, 12, 0, 2], &[READ], &[], "trace refused 9 at 22", 9),
    rule(&[2, 12, 0, 1], &[], &[10], "trace refused 9 at 17", 9),
    rule(&[2, 12, 0, 1], &[], &[6, 1, 0, 0, 0], "trace refused 9 at 21", 9),
    rule(&[2, 12, 0, 2], &[READ], &[8, 0, 1, 1, 1], "trace refused 9 at 27", 9),
    rule(&[2, 12, 0, 2], &[READ], &[1, 0x43, 0, 1], "trace refused 9 at 26", 9),
    // .. but an operation before it has its fault.
    rule(&[2, 12, 0, 3], &[READ, op(6, 1, 0)], &[10], "trace refused 19 at 23 operation 1", 531),
    // Section three: the older line, behind all operations.
    rule(&[2, 12, 0, 1], &[READ], &[0, 0, 0], "trace refused 9 at 25", 9),
    rule(&[2, 12, 0, 1], &[READ], &[1, 0, 0, 0], "trace refused 17 at 22", 17),
    rule(&[2, 12, 0, 1], &[READ], &[0, 0, 0, 0, 0], "trace refused 13 at 26", 13),
    rule(&[2, 12, 0, 1], &[READ], &[0, 0, 0, 0], "sound", 0),
    rule(&[2, 12, 0, 1], &[op(10, 0, 0)], &[0, 0, 0], "trace refused 12 at 16 operation 0", 268),
    rule(&[2, 12, 0, 1], &[op(9, 1, 0)], &[1, 0, 0, 0], "trace refused 19 at 17 operation 0", 275),
    rule(&[2, 12, 0, 2], &[READ, op(8, 0, 1)], &[0, 0, 0, 0, 0], "trace refused 20 at 24 operation 1", 532),
    // The last of as many operations as there may be.
    rule(&[2, 12, 0, 4_096], &[READ; 4_095], &[10, 0, 0, 0, 0, 0], "trace refused 12 at 24586 operation 4095", 1_048_588),
    rule(&[2, 12, 0, 4_096], &[READ; 4_095], &[9, 1, 0, 0, 0, 0], "trace refused 19 at 24587 operation 4095", 1_048_595),
    rule(&[2, 12, 0, 4_096], &[READ; 4_095], &[2, 0, 0, 1, 0, 0], "trace refused 20 at 24588 operation 4095", 1_048_596),
    rule(&[2, 12, 0, 4_096], &[READ; 4_095], &[3, 0, 2, 0, 0, 0], "trace refused 21 at 24588 operation 4095", 1_048_597),
    rule(&[2, 12, 0, 4_096], &[READ; 4_095], &[3, 0, 2, 0, 0], "trace refused 9 at 24591", 9),
];

/// Hands back how many traces these are.
pub fn run(judge: &mut TraceJudge) -> usize {
    let mut random = Random(47);
    for rule in &RULES {
        let trace = rule.trace();
        let (line, status) = read(&trace).map_or_else(|fault| (refusal_line(fault), refusal_status(fault)), |_| ("sound\n".to_string(), 0));
        if line.strip_suffix('\n') != Some(rule.due) || status != rule.status {
            judge.wrong(&trace, &format!("the reader says {line:?} and {status}, documents 01 and 02 {:?} and {}", rule.due, rule.status));
        }
        judge.ask(&trace, &mut random);
        if rule.status != 0 {
            judge.refuses(&trace, TraceFrame::mark(&trace, LINE_ROOM, NUMBERS, 0x5A), rule.status);
        }
    }
    RULES.len()
}

impl Rule {
    fn trace(&self) -> Vec<u8> {
        let head = self.head.iter().flat_map(|number| number.to_le_bytes());
        let operations = self.operations.iter().flat_map(|operation| bytes_of(*operation));
        head.chain(operations).chain(self.behind.iter().copied()).collect()
    }
}
