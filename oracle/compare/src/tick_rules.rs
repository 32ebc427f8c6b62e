//! One tick of one channel by docs/TICK.md, table by table, and the thirteen entries R1 to R13 of docs/DIFFERENCES.md, in which pit.rs's own
//! tick does otherwise: each can be put in alone. Each rule stands under its sentence there; nothing is shared with our code or with the
//! original's functions. With all thirteen put in it must be pit.rs's tick on every record, with none ours.

use crate::tick_channel::{Channel, State};
use original::pit::record::Record;

pub const ROWS: usize = 13;

/// Which of R1 to R13 are put in.
#[derive(Clone, Copy)]
pub struct Departures([bool; ROWS]);

impl Departures {
    pub const NONE: Self = Departures([false; ROWS]);
    pub const ALL: Self = Departures([true; ROWS]);

    /// All but one.
    pub fn without(row: usize) -> Self {
        let mut rows = Self::ALL;
        rows.0[row - 1] = false;
        rows
    }

    fn has(&self, row: usize) -> bool {
        self.0[row - 1]
    }
}

/// What a tick does: table A. The last is R5's alone.
enum Due {
    Idle,
    Deferred,
    Load,
    Reload,
    Count,
    Three,
}

impl Channel {
    pub fn tick(&mut self, rows: &Departures) {
        match self.due(rows) {
            Due::Idle => {
                self.age();
                self.rest(rows);
            }
            Due::Deferred => {
                self.enter(State::WaitingForLoadCycle);
                self.rest(rows);
            }
            Due::Load => self.load_at(self.load_level(rows), rows),
            // "reload: mode 3: load at the level opposite to the output. Other modes: as load."
            Due::Reload if self.mode == 3 && !rows.has(3) => self.load_at(!self.output, rows),
            Due::Reload => self.load_at(self.load_level(rows), rows),
            Due::Count => self.counted(rows),
            Due::Three => {
                self.element = 3;
                self.age();
                self.rest(rows);
            }
        }
    }

    /// Table A. R5: "waiting for a trigger: first tick puts 3 into the element, later ones count; mode 4 too". The first tick is the one of an armed channel with cycles 0.
    fn due(&self, rows: &Departures) -> Due {
        match self.state {
            State::WaitingForReload => Due::Idle,
            State::DeferLoadCycle => Due::Deferred,
            State::WaitingForLoadCycle => Due::Load,
            State::WaitingForLoadTrigger if rows.has(5) && self.cycles == 0 && self.armed => Due::Three,
            State::WaitingForLoadTrigger if rows.has(5) => self.counting_due(rows),
            State::WaitingForLoadTrigger if self.triggered() => Due::Idle,
            State::WaitingForLoadTrigger => Due::Load,
            // R6: "`WaitingForGate` never counts again".
            State::WaitingForGate if rows.has(6) => Due::Idle,
            State::WaitingForGate | State::CountingNormal => self.counting_due(rows),
            // R13: "`Counting(ReloadNextCycle)` loads with the gate low".
            State::CountingReloadNextCycle if self.runs() || rows.has(13) => Due::Reload,
            State::CountingReloadNextCycle => Due::Idle,
        }
    }

    fn counting_due(&self, rows: &Departures) -> Due {
        if !self.runs() {
            Due::Idle
        // R7: "mode 2 reloads by `Counting(ReloadNextCycle)`", and so not by the element.
        } else if self.mode == 2 && self.element == 1 && !rows.has(7) {
            Due::Reload
        } else {
            Due::Count
        }
    }

    /// Table D, idle and deferred. R10: "a pulse is not ended by a tick that does not count".
    fn rest(&mut self, rows: &Departures) {
        self.output |= matches!(self.mode, 2 | 4 | 5) && !rows.has(10);
    }

    /// Table D, load. R3: "a load sets the output from `output_on_reload`".
    fn load_level(&self, rows: &Departures) -> bool {
        if rows.has(3) {
            self.output_on_reload
        } else {
            self.mode >= 2
        }
    }

    /// "mode 2 or 3 and reload value 1: enter `WaitingForLoadCycle`, output high, nothing else". R4: "a count of 1 is loaded in modes 2, 3".
    fn never_loaded(&self, rows: &Departures) -> bool {
        matches!(self.mode, 2 | 3) && self.reload == 1 && !rows.has(4)
    }

    fn send_back(&mut self) {
        self.enter(State::WaitingForLoadCycle);
        self.output = true;
    }

    fn load_at(&mut self, level: bool, rows: &Departures) {
        if self.never_loaded(rows) {
            return self.send_back();
        }
        self.take(level, rows);
        self.enter(State::CountingNormal);
    }

    /// "The load mask has a say in mode 3 alone" (T10). R2: "in mode 3 a load by a tick is not masked".
    fn load_value(&self, rows: &Departures) -> u16 {
        if self.mode == 3 && !rows.has(2) {
            self.reload & self.mask
        } else {
            self.reload
        }
    }

    /// "the element becomes the load value .., the output latch too unless latched, the output takes the level, the channel is armed". R1: "a load by a tick does not
    /// reach the output latch"; R9: "armed is not touched". L5: the null-count mark is "cleared when a load cycle moves the value", and a tick that loads does.
    fn take(&mut self, level: bool, rows: &Departures) {
        self.element = self.load_value(rows);
        if !rows.has(1) {
            self.follow();
        }
        self.output = level;
        self.armed |= !rows.has(9);
        self.null_count = false;
    }

    /// Table C. R8: "mode 3 takes odd or even from the count register, a half-written one too; the 8254 always takes 2".
    fn takes(&self, rows: &Departures) -> u32 {
        if self.mode != 3 {
            1
        } else if self.element & 1 == 0 || rows.has(8) && (self.model8254 || self.register & 1 == 0) {
            2
        } else if self.output {
            1
        } else {
            3
        }
    }

    fn counted(&mut self, rows: &Departures) {
        for _ in 0..self.takes(rows) {
            self.count();
        }
        match self.mode {
            3 if self.element == 0 => return self.half_over(rows),
            3 => {}
            2 if self.element == 1 => return self.at_one(rows),
            // Part of R7: the original's mode 2 sets the output only when it counts to 1.
            2 => self.output |= !rows.has(7),
            4 | 5 => self.strobe(rows),
            // R12: "mode 1 goes high at zero only if armed".
            1 => self.output |= self.element == 0 && (self.armed || !rows.has(12)),
            _ => self.output |= self.element == 0,
        }
        self.count_on();
    }

    /// "a channel that was in `Counting(Normal)` ages, one that was in `WaitingForGate` enters `Counting(Normal)`"; with R5 one that waits for its trigger stays there.
    fn count_on(&mut self) {
        match self.state {
            State::WaitingForGate => self.enter(State::CountingNormal),
            _ => self.age(),
        }
    }

    /// Mode 2 has counted to 1: low. R7: `Counting(ReloadNextCycle)` is "entered when a tick counts to 1"; R3: "the tick writes that flag (mode 2 at 1 ..)".
    fn at_one(&mut self, rows: &Departures) {
        self.output = false;
        self.output_on_reload |= rows.has(3);
        if rows.has(7) {
            self.enter_next(rows);
        } else {
            self.count_on();
        }
    }

    /// R11: cycles in state "are 1 on entering `Counting(ReloadNextCycle)`".
    fn enter_next(&mut self, rows: &Departures) {
        self.enter(State::CountingReloadNextCycle);
        self.cycles = rows.has(11).into();
    }

    /// Table D, modes 4 and 5. R9: "modes 4, 5 strobe at every zero; armed is not touched".
    fn strobe(&mut self, rows: &Departures) {
        let strobes = self.element == 0 && (self.armed || rows.has(9));
        self.output = !strobes;
        self.armed &= !strobes || rows.has(9);
    }

    /// "mode 3 and element 0: if the model is the 8254, the output is high and the reload value is odd, enter `Counting(ReloadNextCycle)`, output unchanged; otherwise load at
    /// the level opposite to the output, in this same tick". R8: odd by the count register; R3: the flag is written "(.. 8254 mode 3)"; R11: "cycles in state go on over mode 3's
    /// load at zero".
    fn half_over(&mut self, rows: &Departures) {
        let count = if rows.has(8) { self.register } else { self.reload };
        if self.model8254 && self.output && count & 1 == 1 {
            self.output_on_reload &= !rows.has(3);
            return self.enter_next(rows);
        }
        if self.never_loaded(rows) {
            return self.send_back();
        }
        self.take(!self.output, rows);
        if rows.has(11) {
            self.count_on();
        } else {
            self.enter(State::CountingNormal);
        }
    }
}

/// The record after one tick.
pub fn ticked(record: &Record, model: u8, rows: &Departures) -> Record {
    let mut channel = Channel::load(record, model);
    channel.tick(rows);
    let mut after = *record;
    channel.store(&mut after);
    after
}
