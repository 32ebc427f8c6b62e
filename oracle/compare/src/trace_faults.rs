//! Traces in which an operation breaks a rule: each rule and several at once, in the first operation, in one between others and in the last, of few and of many. Beside these faults stand others: of
//! the head, of a later operation, an operation that is cut off, bytes behind the last operation that are no section three. Request L8 of document 02 tells them apart.

use crate::random::Random;
use crate::reference::{Reference, WORK_OFF};
use crate::trace_judge::TraceJudge;
use crate::trace_random::{bytes_of, changed, put};
use crate::trace_reader::Operation;

/// How many operations the traces have; and up to how many are few, so that all that is asked of one is soon run.
const LENGTHS: [usize; 8] = [1, 2, 3, 9, 255, 257, 4_095, 4_096];
const FEW: usize = 9;

/// Where the operations begin.
const OPERATIONS: usize = 16;

/// One operation for each number: 12, 19, 20, 21.
pub const BROKEN: [Operation; 4] = [operation(10, 0, 0), operation(9, 1, 0), operation(5, 2, 1), operation(1, 0x43, 256)];

const fn operation(code: u8, target: u8, number: u32) -> Operation {
    Operation { code, target, number }
}

pub fn run(judge: &mut TraceJudge, random: &mut Random) {
    let mut making = Reference::default();
    for length in LENGTHS {
        let sound = random.sound_trace(&mut making, length as u64, changed);
        in_each_place(judge, &sound, length, random);
        if length <= FEW {
            beside_the_head(judge, &sound, random);
            twice(judge, &sound, length, random);
        }
        unfinished(judge, &sound, length, random);
        before_a_section(judge, &sound, length, random);
    }
    if !judge.damaged.everywhere() {
        judge.wrong(&[], "a refusal inside an operation did not come up at every place");
    }
}

/// Operations that break a rule. "then code, target, number": the code is wrong whatever the target and the number, the target whatever the number. A number that must be 0 is never too large.
pub fn broken() -> Vec<Operation> {
    let mut all = Vec::new();
    for code in [0, 10, 11, 0x81, 255] {
        all.extend([(0, 0), (1, 0), (0, 1), (0x40, 256), (255, u32::MAX)].map(|(target, number)| operation(code, target, number)));
    }
    for (code, target) in (6..=9).flat_map(|code| [1, 2, 0x40, 0x80, 255].map(|target| (code, target))) {
        all.extend([0, 1, 256, 65_537, u32::MAX].map(|number| operation(code, target, number)));
    }
    for (code, target) in [(2, 0), (2, 0x40), (2, 255), (5, 0), (5, 255), (8, 0)] {
        all.extend([1, 2, 255, 256, 1 << 16, 1 << 24, 1 << 31, u32::MAX].map(|number| operation(code, target, number)));
    }
    for target in [0, 0x43, 255] {
        all.extend([256, 257, 1 << 16, 1 << 24, 1 << 31, u32::MAX].map(|number| operation(1, target, number)));
        all.extend([2, 3, 255, 256, 1 << 16, 1 << 24, 1 << 31, u32::MAX].map(|number| operation(3, target, number)));
    }
    all
}

/// Operations that break none, at the limits.
fn at_the_limits(random: &mut Random) -> Vec<Operation> {
    let mut all = vec![operation(1, 255, 255), operation(2, 255, 0), operation(3, 255, 1), operation(5, 255, 0), operation(8, 0, 0)];
    let numbers = [1, 255, 256, 65_536, 65_537, u32::MAX, random.next() as u32, random.next() as u32];
    for number in numbers {
        all.extend([(4, 255), (6, 0), (7, 0), (WORK_OFF, 0)].map(|(code, target)| operation(code, target, number)));
    }
    all
}

/// The first of so many operations, one between others, and the last.
pub fn places(length: usize) -> Vec<usize> {
    let mut places = vec![0, length / 2, length - 1];
    places.dedup();
    places
}

/// The trace with another operation in the place of one.
pub fn with(trace: &[u8], index: usize, operation: Operation) -> Vec<u8> {
    let (mut trace, at) = (trace.to_vec(), OPERATIONS + 6 * index);
    trace[at..at + 6].copy_from_slice(&bytes_of(operation));
    trace
}

fn in_each_place(judge: &mut TraceJudge, sound: &[u8], length: usize, random: &mut Random) {
    for index in places(length) {
        for operation in broken() {
            judge.ask(&with(sound, index, operation), random);
        }
        for operation in at_the_limits(random).iter().filter(|_| length <= FEW) {
            judge.ask(&with(sound, index, *operation), random);
        }
    }
}

/// "Fields are checked from the front": the head's fault is told, and has no index.
fn beside_the_head(judge: &mut TraceJudge, sound: &[u8], random: &mut Random) {
    for operation in BROKEN {
        for (place, number) in [(0, 3), (4, 0), (8, 2), (8, 256), (8, u32::MAX), (12, 4_097), (12, u32::MAX)] {
            let mut trace = with(sound, 0, operation);
            put(&mut trace, place, number);
            judge.ask(&trace, random);
        }
    }
}

/// Of two operations that break a rule the first is told.
fn twice(judge: &mut TraceJudge, sound: &[u8], length: usize, random: &mut Random) {
    for (first, second) in (1..length).flat_map(|second| (0..second).map(move |first| (first, second))) {
        for (one, other) in BROKEN.iter().flat_map(|one| BROKEN.iter().map(move |other| (*one, *other))) {
            judge.ask(&with(&with(sound, first, one), second, other), random);
        }
    }
}

/// "an unfinished operation still has only its total length", whatever its bytes are; a fault in an operation before it is told, with that one's index.
fn unfinished(judge: &mut TraceJudge, sound: &[u8], length: usize, random: &mut Random) {
    let last = OPERATIONS + 6 * (length - 1);
    for operation in broken() {
        let trace = with(sound, length - 1, operation);
        for there in 0..6 {
            judge.ask(&trace[..last + there], random);
        }
    }
    for (index, operation) in places(length).iter().flat_map(|index| BROKEN.map(|operation| (*index, operation))) {
        let trace = with(&with(sound, length - 1, BROKEN[1]), index, operation);
        for there in 0..6 {
            judge.ask(&trace[..last + there], random);
        }
    }
}

/// Behind the last operation stand bytes that begin section three and do not end it, the count of no checkpoint or of another number of them, and bytes too many.
fn before_a_section(judge: &mut TraceJudge, sound: &[u8], length: usize, random: &mut Random) {
    let right = ((length / 256) as u32).to_le_bytes();
    let behind = [vec![10], vec![0; 3], vec![0; 4], right.to_vec(), vec![7, 0, 0, 0], vec![0; 5], [&right[..], &[2; 200]].concat()];
    for (index, operation) in places(length).iter().flat_map(|index| BROKEN.map(|operation| (*index, operation))) {
        for behind in &behind {
            judge.ask(&[&with(sound, index, operation)[..], behind].concat(), random);
        }
    }
}

impl Random {
    /// Breaks a rule of an operation of a trace, of the first, of the last or of any, in one field or in several.
    pub fn damage_operation(&mut self, trace: &mut [u8]) {
        let there = trace.len().saturating_sub(OPERATIONS) / 6;
        if there == 0 {
            return;
        }
        let count = u32::from_le_bytes([trace[12], trace[13], trace[14], trace[15]]) as usize;
        let length = count.clamp(1, there);
        let index = match self.below(4) {
            0 => 0,
            1 => length - 1,
            _ => self.below(length as u64) as usize,
        };
        let broken = self.one_of(&broken());
        let at = OPERATIONS + 6 * index;
        trace[at..at + 6].copy_from_slice(&bytes_of(broken));
    }
}
