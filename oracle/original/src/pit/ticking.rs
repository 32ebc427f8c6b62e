//! The original's own ticks, its text unchanged: `Channel::tick` from any record, the timer's `tick` and its `run` from any board. Document 02 draws the tick from the
//! data sheets, so this is not what ours must do; docs/DIFFERENCES.md lists in what the two differ, R1 to R13.

use super::board::{self, Board};
use super::operation::{due_call, model, wrong_calls, WRONG_CALLS};
use super::record::{dump, load, Record};
use super::*;

/// What a tick leaves. A fault is something in the original's behaviour that the driver did not expect; it counts as a difference.
pub struct Ticked<T> {
    pub after: T,
    pub fault: Option<&'static str>,
}

pub struct Ticker {
    timer: ProgrammableIntervalTimer,
    bus: BusInterface,
}

impl Default for Ticker {
    fn default() -> Self {
        Self { timer: Pit::new(PitType::Model8253, 0.0, 1, None), bus: BusInterface::default() }
    }
}

impl Ticker {
    /// One tick of one channel, made with the record as channel 0, 1 and 2, since the bus calls go by the channel's number: the record after it must be the same in
    /// all three, and the calls those of the change of level.
    pub fn channel(&mut self, start: &Record, model_number: u8) -> Ticked<Record> {
        let mut first: Option<Ticked<Record>> = None;
        for c in 0..3 {
            self.bus.forget_calls();
            let mut channel = load(start, c, model(model_number));
            channel.tick(&mut self.bus, None);
            let after = dump(&channel);
            let fault = wrong_calls(&self.bus, c, start, &after);
            first = Some(match first {
                None => Ticked { after, fault },
                Some(before) => {
                    let unlike = (before.after != after).then_some("the original does not tick alike on channels 0, 1 and 2");
                    Ticked { fault: before.fault.or(fault).or(unlike), ..before }
                }
            });
        }
        first.expect("three channels")
    }

    /// One tick of the added tick that ./bench has on the original's record.
    pub fn added(&mut self, start: &Record, model_number: u8) -> Record {
        let mut channel = load(start, 0, model(model_number));
        channel.added_tick(&mut self.bus);
        self.bus.forget_calls();
        dump(&channel)
    }

    /// The timer's own `tick`. It sets channel 2's gate to what the PPI says, which here is the level that stands (A21).
    pub fn board(&mut self, start: &Board) -> Ticked<Board> {
        self.place(start);
        self.timer.tick(&mut self.bus, 0, None);
        let after = self.left(start);
        let due = (0..3).filter_map(|c| due_call(c, &board::record_of(start, c), &board::record_of(&after, c)));
        let fault = (!self.bus.calls().eq(due)).then_some(WRONG_CALLS);
        Ticked { after, fault }
    }

    /// As many ticks through the timer's own `run`: a divisor of 1 makes each system tick a timer tick.
    pub fn run(&mut self, start: &Board, ticks: u32) -> Board {
        self.place(start);
        (self.timer.clock_divisor, self.timer.sys_tick_accumulator) = (1, 0);
        self.timer.timewarp = DeviceRunTimeUnit::SystemTicks(0);
        self.timer.run(&mut self.bus, DeviceRunTimeUnit::SystemTicks(ticks), None);
        self.left(start)
    }

    fn place(&mut self, start: &Board) {
        board::load(start, &mut self.timer);
        self.bus.set_channel2_gate(*self.timer.channels[2].gate);
        self.bus.forget_calls();
    }

    /// The three channels after the ticks; all else is as it was.
    fn left(&self, start: &Board) -> Board {
        let mut after = *start;
        for c in 0..3 {
            board::put_record(&mut after, c, &dump(&self.timer.channels[c]));
        }
        after
    }
}
