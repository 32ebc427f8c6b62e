//! One operation of docs/ENCODING.md, made by the original's own functions.
//!
//! Each is made with the record as channel 0, 1 and 2, since the original's bus calls go by the channel's number. Record and answer
//! must be the same in all three, and the bus calls must be those of the change of level and no others.

use super::record::{dump, load, Record};
use super::words::{words, OTHER_HALF};
use super::*;
use crate::bus::Call;

pub type Answer = [u8; 7];

#[derive(Clone, Copy, Debug, PartialEq)]
pub struct Operation {
    pub code: u8,
    pub number: u8,
    pub setting: u8,
}

/// What an operation leaves. A fault is something in the original's behaviour that the driver did not expect; it counts as a difference.
#[derive(Clone, Copy)]
pub struct Outcome {
    pub record: Record,
    pub answer: Answer,
    pub fault: Option<&'static str>,
}

pub struct Oracle {
    pub(super) timer: ProgrammableIntervalTimer,
    pub(super) bus: BusInterface,
}

impl Default for Oracle {
    fn default() -> Self {
        Self { timer: Pit::new(PitType::Model8253, 0.0, 12, None), bus: BusInterface::default() }
    }
}

pub fn model(setting: u8) -> PitType {
    if setting == 1 {
        PitType::Model8254
    } else {
        PitType::Model8253
    }
}

/// The level and the three numbers as the bytes of an answer.
pub fn answer_of(level: u8, numbers: [u16; 3]) -> Answer {
    let mut answer = [level, 0, 0, 0, 0, 0, 0];
    for (place, number) in numbers.iter().enumerate() {
        answer[1 + 2 * place..3 + 2 * place].copy_from_slice(&number.to_le_bytes());
    }
    answer
}

/// The record after the original's own `latch_count`.
pub fn latched(start: &Record) -> Record {
    let mut channel = load(start, 0, PitType::Model8254);
    channel.latch_count();
    dump(&channel)
}

/// The fresh channel by document 01.
pub fn fresh() -> Record {
    dump(&added::fresh(0, PitType::Model8253))
}

impl Oracle {
    pub fn operation(&mut self, start: &Record, op: Operation) -> Outcome {
        match op.code {
            8 => self.reset(start),
            16 => self.control(start, op.number, model(op.setting)),
            _ => self.on_each_channel(start, op),
        }
    }

    /// Puts the record in all three channels.
    pub(super) fn place(&mut self, start: &Record, ptype: PitType) {
        self.timer.ptype = ptype;
        for c in 0..3 {
            self.timer.channels[c] = load(start, c, ptype);
        }
        self.bus.forget_calls();
    }

    /// A channel's record and an answer with its level.
    pub(super) fn outcome(&self, c: usize, numbers: [u16; 3]) -> Outcome {
        let answer = answer_of(self.timer.get_output_state(c).into(), numbers);
        Outcome { record: dump(&self.timer.channels[c]), answer, fault: None }
    }

    fn on_each_channel(&mut self, start: &Record, op: Operation) -> Outcome {
        let mut first = None;
        for c in 0..3 {
            self.timer.channels[c] = load(start, c, PitType::Model8253);
            self.bus.forget_calls();
            let (numbers, fault) = if op.code == 2 { self.read(c) } else { (self.run(c, op), None) };
            let mut outcome = self.outcome(c, numbers);
            outcome.fault = fault.or(wrong_calls(&self.bus, c, start, &outcome.record));
            first = Some(match first {
                None => outcome,
                Some(before) => joined(before, &outcome, "the original does not do the same on channels 0, 1 and 2"),
            });
        }
        first.expect("three channels")
    }

    /// The byte, and the words of the channel as it is before the read; with a fault where they do not go together.
    fn read(&mut self, c: usize) -> ([u16; 3], Option<&'static str>) {
        let channel = &mut self.timer.channels[c];
        let (words, latch) = (words(channel), *channel.output_latch);
        let byte = channel.read_byte();
        let [half, held] = words.numbers();
        ([byte, half, held].map(u16::from), (!words.fit(byte, latch)).then_some(OTHER_HALF))
    }

    fn run(&mut self, c: usize, op: Operation) -> [u16; 3] {
        let channel = &mut self.timer.channels[c];
        match op.code {
            1 => channel.write_byte(op.number, op.setting == 1, &mut self.bus),
            3 => channel.set_gate(op.number == 1, &mut self.bus),
            4 => channel.count(),
            5 => added::load_cycle(channel),
            _ => return self.query(c, op.code),
        }
        [0; 3]
    }

    fn query(&mut self, c: usize, code: u8) -> [u16; 3] {
        match code {
            17 => [self.timer.get_output_state(c).into(), 0, 0],
            18 => {
                let (register, element, counting) = self.timer.get_channel_count(c);
                [register, element, counting.into()]
            }
            19 => [self.timer.does_channel_retrigger(c).into(), 0, 0],
            20 => {
                let (dirty, counting, ticked) = self.timer.is_dirty(c);
                [dirty.into(), counting.into(), ticked.into()]
            }
            _ => panic!("not an operation: {code}"),
        }
    }

    fn reset(&mut self, start: &Record) -> Outcome {
        self.place(start, PitType::Model8253);
        self.timer.reset();
        self.timer.channels.iter_mut().for_each(added::after_reset);
        let mut outcome = self.outcome(0, [0; 3]);
        for c in 1..3 {
            outcome = joined(outcome, &self.outcome(c, [0; 3]), "a reset does not leave three equal channels");
        }
        // "It raises no event, even if an output changes level."
        if self.bus.calls().next().is_some() {
            outcome.fault = Some("a reset calls the bus");
        }
        outcome
    }
}

/// The first of two outcomes that must be the same, with a fault where they are not.
pub(super) fn joined(one: Outcome, other: &Outcome, unlike: &'static str) -> Outcome {
    let same = one.record == other.record && one.answer == other.answer;
    Outcome { fault: one.fault.or(other.fault).or(if same { None } else { Some(unlike) }), ..one }
}

pub(super) const WRONG_CALLS: &str = "the original's bus calls are not those of the change of level";

/// The call of the change of level between two records of a channel.
pub(super) fn due_call(c: usize, before: &Record, after: &Record) -> Option<Call> {
    let (before, after) = (before[27] == 1, after[27] == 1);
    match (before != after, c, after) {
        (false, _, _) => None,
        (true, 0, true) => Some(Call::InterruptRequested(0)),
        (true, 0, false) => Some(Call::InterruptCleared(0)),
        (true, 1, true) => Some(Call::DmaServiceRequested(0)),
        (true, 1, false) => None,
        (true, _, level) => Some(Call::PpiOutputBit(level)),
    }
}

/// Whether the calls made are others than those of the change of level between two records.
pub(super) fn wrong_calls(bus: &BusInterface, c: usize, before: &Record, after: &Record) -> Option<&'static str> {
    (!bus.calls().eq(due_call(c, before, after))).then_some(WRONG_CALLS)
}
