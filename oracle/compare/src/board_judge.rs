//! Asks both sides the same of a board and counts, as judge.rs does of a channel.

use crate::board_fields::{all, differing};
use crate::board_frame::BoardFrame;
use crate::board_operations::{self, NAMES};
use crate::ours::{Call, Ours};
use crate::read_back;
use crate::reference::{Reference, WORK_OFF};
use crate::words_off::Pairs;
use original::pit::board::{fresh, Board};
use original::pit::board_operation::{BoardOperation, BoardOutcome, Events};

/// Calls that are made at a time, and differences of one operation that are printed.
const MOST: usize = BoardFrame::AT_A_TIME;
const PRINTED: u64 = 2;

struct Waiting {
    start: Board,
    events: Events,
    op: BoardOperation,
    outcome: BoardOutcome,
}

pub struct BoardJudge<'a> {
    pub reference: Reference,
    pub ours: &'a mut Ours,
    waiting: Vec<Waiting>,
    frames: Vec<BoardFrame>,
    /// Operations compared, by their place in the table of names.
    pub compared: [u64; NAMES.len()],
    /// Of these, the ones refused, by their number in documents 01 and 02.
    pub refusals: [u64; 17],
    /// Of these, the ones that wrote an event.
    pub events: u64,
    /// Ticks that were worked off.
    pub ticks: u64,
    /// How often the reads said which words.
    pub pairs: Pairs,
    /// Port writes, not refused, that ask for a count or a status of a channel.
    pub read_backs: u64,
    /// Calls that only docs/ENCODING.md judges: refused ones, and those that make a board.
    pub refused: u64,
    pub made: u64,
    pub differ: u64,
    said: u64,
    seen: [u64; NAMES.len()],
}

impl<'a> BoardJudge<'a> {
    pub fn new(ours: &'a mut Ours) -> Self {
        let (waiting, frames, none) = (Vec::with_capacity(MOST), Vec::with_capacity(MOST), [0; NAMES.len()]);
        let (reference, refusals, pairs) = (Reference::default(), [0; 17], Pairs::default());
        let (events, ticks, read_backs, refused, made, differ, said) = (0, 0, 0, 0, 0, 0, 0);
        let (compared, seen) = (none, none);
        Self { reference, ours, waiting, frames, compared, refusals, events, ticks, pairs, read_backs, refused, made, differ, said, seen }
    }

    pub fn total(&self) -> u64 {
        self.compared.iter().sum::<u64>() + self.refused + self.made
    }

    /// Asks both sides for one operation and hands back what is due.
    pub fn ask(&mut self, start: &Board, events: &Events, op: BoardOperation) -> BoardOutcome {
        let outcome = self.reference.operation(start, events, op);
        self.expect(start, events, op, outcome);
        outcome
    }

    /// Asks ours alone, where what is due is known.
    pub fn expect(&mut self, start: &Board, events: &Events, op: BoardOperation, outcome: BoardOutcome) {
        self.waiting.push(Waiting { start: *start, events: *events, op, outcome });
        self.frames.push(BoardFrame::operation(start, events, op));
        self.compared[board_operations::place(op.code).expect("a code of the table")] += 1;
        self.refusals[outcome.status as usize] += 1;
        if matches!(op.code, 1 | 3 | WORK_OFF) && outcome.status == 0 {
            self.events += u64::from(outcome.numbers.0 != op.place);
            self.ticks += u64::from(outcome.numbers.1);
        }
        if op.code == 2 && outcome.status == 0 {
            self.pairs.add(outcome.numbers.1 as u8, outcome.numbers.2 as u8);
        }
        self.read_backs += u64::from(outcome.status == 0 && read_back::reads_back(start, op));
        if self.frames.len() == MOST {
            self.settle();
        }
    }

    /// Makes the calls that wait and compares them.
    pub fn settle(&mut self) {
        self.ours.serve(&mut self.frames);
        let (waiting, frames) = (std::mem::take(&mut self.waiting), std::mem::take(&mut self.frames));
        for (asked, reply) in waiting.iter().zip(&frames) {
            if wrong(asked, reply).is_some() {
                let place = board_operations::place(asked.op.code).expect("a code of the table");
                self.differ += 1;
                self.seen[place] += 1;
                if self.seen[place] <= PRINTED {
                    self.report(asked);
                }
            }
        }
        (self.waiting, self.frames) = (waiting, frames);
        self.waiting.clear();
        self.frames.clear();
    }

    fn both(&mut self, start: &Board, events: &Events, op: BoardOperation) -> (Waiting, BoardFrame) {
        let outcome = self.reference.operation(start, events, op);
        (Waiting { start: *start, events: *events, op, outcome }, self.ours.call(BoardFrame::operation(start, events, op)))
    }

    /// The same difference from a start that has as many fields as possible as in the fresh board.
    fn smallest(&mut self, asked: &Waiting) -> Board {
        let mut small = asked.start;
        for field in all() {
            let mut smaller = small;
            field.put(&mut smaller, field.get(&fresh(0, 12)));
            let (asked, reply) = self.both(&smaller, &asked.events, asked.op);
            if wrong(&asked, &reply).is_some() {
                small = smaller;
            }
        }
        small
    }

    fn report(&mut self, asked: &Waiting) {
        let start = self.smallest(asked);
        let (asked, reply) = self.both(&start, &asked.events, asked.op);
        let outcome = &asked.outcome;
        println!("difference: {}", board_operations::show(asked.op));
        println!("  start: the fresh 8253 board with divisor 12, and {}", differing(&start, &fresh(0, 12)));
        println!("  what:  {}", wrong(&asked, &reply).unwrap_or("gone when asked again"));
        println!("  status: ours {}, due {}", reply.status(), outcome.status);
        println!("  ours:         {}", differing(&reply.board(), &outcome.board));
        println!("  due:          {}", differing(&outcome.board, &reply.board()));
        println!("  events: before {:?}, ours {:?}, due {:?}", asked.events.lent(), reply.events(), outcome.events.lent());
        println!("  answers: ours {:?}, due {:?}", reply.numbers(), outcome.numbers);
    }

    /// Counts something of ours that is not as it should be, and says it while there are few.
    pub fn wrong(&mut self, what: &str) {
        self.differ += 1;
        self.said += 1;
        if self.said <= 10 {
            println!("difference: {what}");
        }
    }
}

/// What is not the same on both sides, if anything. A refused call must leave all lent bytes, the answer's too.
fn wrong(asked: &Waiting, reply: &BoardFrame) -> Option<&'static str> {
    let outcome = &asked.outcome;
    if outcome.fault.is_some() {
        outcome.fault
    } else if reply.status() != outcome.status {
        Some("the statuses differ")
    } else if reply.board() != outcome.board {
        Some("the boards after it differ")
    } else if reply.events() != outcome.events.lent() {
        Some("the event bytes differ")
    } else if outcome.status != 0 {
        let untouched = BoardFrame::operation(&asked.start, &asked.events, asked.op);
        (reply.lent() != untouched.lent()).then_some("refused, and a lent byte changed")
    } else if reply.numbers() != outcome.numbers {
        Some("the answers differ")
    } else if !reply.rest_untouched() {
        Some("bytes past the board, the events or the answer changed")
    } else {
        None
    }
}
