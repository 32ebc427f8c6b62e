//! A sample of the original's answers, for tests that have no Rust at hand. Ours is not asked when it is made; `replay` asks ours for each case.
//!
//! A case is 72 bytes: the record before (31), the operation's code, number and setting (3), the record after (31), the answer (7). Cases
//! follow one another with nothing between. The seed is fixed, so the same text of the original gives the same bytes.

use crate::exhaustive::{ACCESSES, FLAG, MODES, STATES};
use crate::fields::*;
use crate::frame::Frame;
use crate::operations::{operation, NAMES};
use crate::ours::Ours;
use crate::random::Random;
use crate::read_back;
use original::pit::operation::{Operation, Oracle};
use original::pit::record::{Record, RECORD_BYTES};

const CASES: usize = 3000;
/// Places in a case.
const CODE: usize = RECORD_BYTES;
const AFTER: usize = CODE + 3;
const ANSWER: usize = AFTER + RECORD_BYTES;
const CASE: usize = ANSWER + 7;
const SEED: u64 = 8254;

/// Starts at which a decimal count borrows from one digit, two or three, or from a digit above 9, and some beside them.
const BORROWS: &[u32] = &[0, 1, 0x10, 0x100, 0x1000, 0xA0, 0xA00, 0xA000, 0xF0, 0x9990, 0x9900, 0x9000, 0x9999, 0xFFFF];

struct Sample {
    random: Random,
    cases: Vec<(Record, Operation)>,
}

impl Sample {
    /// One case for each combination and operation, each on a random record of its own.
    fn add(&mut self, chosen: &[(&Field, &[u32])], operations: &[Operation]) {
        let mut combinations = Vec::new();
        each_combination(&[0; RECORD_BYTES], chosen, &mut |record| combinations.push(*record));
        for combination in combinations {
            for op in operations {
                let mut record = self.random.record();
                chosen.iter().for_each(|(field, _)| field.put(&mut record, field.get(&combination)));
                self.cases.push((record, *op));
            }
        }
    }
}

fn sample() -> Vec<(Record, Operation)> {
    let mut sample = Sample { random: Random(SEED), cases: Vec::new() };
    let controls: Vec<Operation> = (0..512).map(|n| operation(16, n as u8, (n >> 8) as u8)).collect();
    sample.add(&[], &controls);
    sample.add(&[(MODE, MODES), (STATE, STATES), (GATE, FLAG)], &[operation(3, 0, 0), operation(3, 1, 0)]);
    sample.add(
        &[(MODE, MODES), (ACCESS, ACCESSES), (LOAD_STATE, FLAG), (LOAD_TYPE, FLAG), (RELOAD_ON_TRIGGER, FLAG)],
        &[operation(1, 0x00, 1), operation(1, 0xC5, 0)],
    );
    sample.add(&[(READ_STATE, FLAG), (ACCESS, ACCESSES), (LATCHED, FLAG), (STATUS_LATCH, &[0, 0x96])], &[operation(2, 0, 0); 2]);
    // Read-backs of count and status, of either and of neither, with bit 0 set, with no channel named, and on the 8253.
    let read_backs = [(0xC2, 1), (0xD4, 1), (0xE8, 1), (0xFE, 1), (0xC3, 1), (0xC0, 1), (0xC2, 0)];
    sample.add(
        &[(LATCHED, FLAG), (STATUS_LATCH, &[0, 0xB6]), (READ_STATE, FLAG), (NULL_COUNT, FLAG)],
        &read_backs.map(|(byte, model)| operation(16, byte, model)),
    );
    sample.add(&[(ELEMENT, BORROWS), (BCD, FLAG), (LATCHED, FLAG)], &[operation(4, 0, 0)]);
    sample.add(&[(STATE, STATES), (MASK, &[0xFFFF, 0xFFFE, 0x0FF0]), (LATCHED, FLAG), (DIRTY, FLAG)], &[operation(5, 0, 0)]);
    // A load that is due in every mode (3 is `WaitingForLoadCycle`), with the masks that mode 3 leaves and one that only a record has.
    sample.add(&[(MODE, MODES), (STATE, &[3]), (MASK, &[0xFFFF, 0xFFFE, 0x00FF])], &[operation(5, 0, 0)]);
    let plain: Vec<Operation> = NAMES.iter().map(|(code, _)| operation(*code, 0, 0)).collect();
    sample.add(&[(MODE, MODES), (STATE, STATES)], &plain);
    while sample.cases.len() < CASES {
        let case = (sample.random.record(), sample.random.operation());
        sample.cases.push(case);
    }
    sample.cases
}

/// The sample's bytes, with the original's answers.
pub fn answered() -> Result<Vec<u8>, String> {
    let mut oracle = Oracle::default();
    let mut bytes = Vec::new();
    for (record, op) in sample() {
        let outcome = read_back::on_channel(&mut oracle, &record, op);
        if let Some(fault) = outcome.fault {
            return Err(fault.to_string());
        }
        bytes.extend_from_slice(&record);
        bytes.extend_from_slice(&[op.code, op.number, op.setting]);
        bytes.extend_from_slice(&outcome.record);
        bytes.extend_from_slice(&outcome.answer);
    }
    Ok(bytes)
}

/// How many cases of a sample ours answers otherwise than it says.
pub fn replay(path: &str) -> Result<u64, String> {
    let bytes = std::fs::read(path).map_err(|error| format!("{path}: {error}"))?;
    if bytes.is_empty() || bytes.len() % CASE != 0 {
        return Err(format!("{path}: not a number of whole cases"));
    }
    let mut ours = Ours::start()?;
    let mut differ = 0;
    for case in bytes.chunks(CASE) {
        let start: Record = case[..CODE].try_into().expect("a record's bytes");
        let reply =
            ours.call(Frame::operation(&start, operation(case[CODE], case[CODE + 1], case[CODE + 2])).lending(RECORD_BYTES as u8, 7));
        if reply.status() != 0 || reply.record() != case[AFTER..ANSWER] || reply.answer() != case[ANSWER..] || !reply.rest_untouched() {
            differ += 1;
        }
    }
    println!("{} cases replayed, {differ} differ", bytes.len() / CASE);
    Ok(differ)
}
