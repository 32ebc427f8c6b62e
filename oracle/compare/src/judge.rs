//! Asks both sides the same and counts. Our calls are made some at a time, since they may go to another process; the original runs at once, and
//! its record is what a chain of operations goes on from.

use crate::fields::{differing, FIELDS, OUTPUT};
use crate::frame::Frame;
use crate::operations;
use crate::ours::{Call, Ours};
use crate::read_back;
use crate::words_off::Pairs;
use original::pit::operation::{fresh, Operation, Oracle, Outcome};
use original::pit::record::Record;

/// Calls that are made at a time.
const MOST: usize = Frame::AT_A_TIME;

/// Differences of one operation that are printed; all are counted.
const PRINTED: u64 = 2;

struct Waiting {
    start: Record,
    op: Operation,
    outcome: Outcome,
}

pub struct Judge<'a> {
    pub oracle: Oracle,
    pub ours: &'a mut Ours,
    waiting: Vec<Waiting>,
    frames: Vec<Frame>,
    /// Operations compared, by their place in the table of names.
    pub compared: [u64; operations::NAMES.len()],
    pub refused: u64,
    pub fresh: u64,
    /// How often the reads said which words.
    pub pairs: Pairs,
    /// Control bytes that ask for a count or a status of a channel.
    pub read_backs: u64,
    pub differ: u64,
    /// Differences other than of an operation that both sides make.
    said: u64,
    /// Differences seen, by the operation's place in the table.
    seen: [u64; operations::NAMES.len()],
}

impl<'a> Judge<'a> {
    pub fn new(ours: &'a mut Ours) -> Self {
        let (waiting, frames) = (Vec::with_capacity(MOST), Vec::with_capacity(MOST));
        let (oracle, compared, pairs) = (Oracle::default(), [0; operations::NAMES.len()], Pairs::default());
        Self { oracle, ours, waiting, frames, compared, refused: 0, fresh: 0, pairs, read_backs: 0, differ: 0, said: 0, seen: compared }
    }

    pub fn total(&self) -> u64 {
        self.compared.iter().sum::<u64>() + self.refused + self.fresh
    }

    /// Asks both sides for one operation and hands back the original's record after it.
    pub fn ask(&mut self, start: &Record, op: Operation) -> Record {
        let outcome = read_back::on_channel(&mut self.oracle, start, op);
        self.waiting.push(Waiting { start: *start, op, outcome });
        self.frames.push(Frame::operation(start, op));
        self.compared[operations::place(op.code).expect("a code of the table")] += 1;
        if op.code == 2 {
            let [_, _, _, half, _, held, _] = outcome.answer;
            self.pairs.add(half, held);
        }
        self.read_backs += u64::from(op.code == 16 && read_back::asks(op.number, op.setting));
        if self.frames.len() == MOST {
            self.settle();
        }
        outcome.record
    }

    /// Makes the calls that wait and compares them.
    pub fn settle(&mut self) {
        self.ours.serve(&mut self.frames);
        let (waiting, frames) = (std::mem::take(&mut self.waiting), std::mem::take(&mut self.frames));
        for (asked, reply) in waiting.iter().zip(&frames) {
            if wrong(asked, reply).is_some() {
                let place = operations::place(asked.op.code).expect("a code of the table");
                self.differ += 1;
                self.seen[place] += 1;
                if self.seen[place] <= PRINTED {
                    self.report(&asked.start, asked.op);
                }
            }
        }
        (self.waiting, self.frames) = (waiting, frames);
        self.waiting.clear();
        self.frames.clear();
    }

    fn both(&mut self, start: &Record, op: Operation) -> (Waiting, Frame) {
        let outcome = read_back::on_channel(&mut self.oracle, start, op);
        (Waiting { start: *start, op, outcome }, self.ours.call(Frame::operation(start, op)))
    }

    /// The same difference from a start that has as many fields as possible as in the fresh channel.
    fn smallest(&mut self, start: &Record, op: Operation) -> Record {
        let mut small = *start;
        for field in &FIELDS {
            let mut smaller = small;
            field.put(&mut smaller, field.get(&fresh()));
            let (asked, reply) = self.both(&smaller, op);
            if wrong(&asked, &reply).is_some() {
                small = smaller;
            }
        }
        small
    }

    fn report(&mut self, start: &Record, op: Operation) {
        let start = self.smallest(start, op);
        let (asked, reply) = self.both(&start, op);
        println!("difference: {}", operations::show(op));
        println!("  start: the fresh channel with {}", differing(&start, &fresh()));
        println!("  what:  {}", wrong(&asked, &reply).unwrap_or("gone when asked again"));
        if reply.status() != 0 {
            println!("  ours:  status {}", reply.status());
        } else {
            println!("  ours:         {}", differing(&reply.record(), &asked.outcome.record));
            println!("  due:          {}", differing(&asked.outcome.record, &reply.record()));
            println!("  answers: ours {:02X?}, due {:02X?}", reply.answer(), asked.outcome.answer);
        }
    }

    /// Counts something of ours that is not as it should be, and says it while there are few.
    pub fn wrong(&mut self, what: &str) {
        self.differ += 1;
        self.said += 1;
        if self.said <= 10 {
            println!("difference: {what}");
        }
    }
}

/// What is not the same on both sides, if anything. The level before is the start's on both; the levels after are in record and answer.
fn wrong(asked: &Waiting, reply: &Frame) -> Option<&'static str> {
    if asked.outcome.fault.is_some() {
        asked.outcome.fault
    } else if reply.status() != 0 {
        Some("ours refuses")
    } else if reply.record() != asked.outcome.record {
        Some("the records after it differ")
    } else if reply.answer() != asked.outcome.answer {
        Some("the answers differ")
    } else if OUTPUT.get(&reply.record()) != u32::from(reply.answer()[0]) {
        Some("the answer's level is not the record's")
    } else if !reply.rest_untouched() {
        Some("bytes past the record or the answer changed")
    } else {
        None
    }
}
