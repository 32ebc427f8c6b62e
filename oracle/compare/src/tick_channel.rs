//! What a tick goes by, taken out of a record and put back: docs/TICK.md, "One tick of one channel", its words *triggered*, *runs*, *enter*, *age* and *counts*.

use crate::fields::*;

#[derive(Clone, Copy, PartialEq)]
pub enum State {
    WaitingForReload,
    WaitingForGate,
    DeferLoadCycle,
    WaitingForLoadCycle,
    WaitingForLoadTrigger,
    CountingNormal,
    CountingReloadNextCycle,
}

/// In the order of their numbers in docs/ENCODING.md.
const STATES: [State; 7] = [
    State::WaitingForReload,
    State::WaitingForGate,
    State::DeferLoadCycle,
    State::WaitingForLoadCycle,
    State::WaitingForLoadTrigger,
    State::CountingNormal,
    State::CountingReloadNextCycle,
];

/// What a tick reads of a record, and what it can change.
#[derive(Clone, Copy)]
pub struct Channel {
    pub model8254: bool,
    pub mode: u32,
    pub bcd: bool,
    pub output_on_reload: bool,
    pub mask: u16,
    pub register: u16,
    pub reload: u16,
    pub armed: bool,
    pub state: State,
    pub cycles: u32,
    pub element: u16,
    pub ticked: bool,
    pub latch: u16,
    pub latched: bool,
    pub gate: bool,
    pub output: bool,
    pub dirty: bool,
    pub null_count: bool,
}

impl Channel {
    pub fn load(record: &[u8], model: u8) -> Self {
        let flag = |field: &Field| field.get(record) == 1;
        let word = |field: &Field| field.get(record) as u16;
        Channel {
            model8254: model == 1,
            mode: MODE.get(record),
            bcd: flag(BCD),
            output_on_reload: flag(OUTPUT_ON_RELOAD),
            mask: word(MASK),
            register: word(REGISTER),
            reload: word(RELOAD),
            armed: flag(ARMED),
            state: STATES[STATE.get(record) as usize],
            cycles: CYCLES.get(record),
            element: word(ELEMENT),
            ticked: flag(TICKED),
            latch: word(LATCH),
            latched: flag(LATCHED),
            gate: flag(GATE),
            output: flag(OUTPUT),
            dirty: flag(DIRTY),
            null_count: flag(NULL_COUNT),
        }
    }

    /// "It changes at most state, cycles in state, element, output latch, output, armed, dirty, ticked." R3 adds `output_on_reload`, L5 the null-count mark.
    pub fn store(&self, record: &mut [u8]) {
        OUTPUT_ON_RELOAD.put(record, self.output_on_reload.into());
        ARMED.put(record, self.armed.into());
        STATE.put(record, self.state as u32);
        CYCLES.put(record, self.cycles);
        ELEMENT.put(record, self.element.into());
        TICKED.put(record, self.ticked.into());
        LATCH.put(record, self.latch.into());
        OUTPUT.put(record, self.output.into());
        DIRTY.put(record, self.dirty.into());
        NULL_COUNT.put(record, self.null_count.into());
    }

    /// "*Triggered* modes: 1 and 5".
    pub fn triggered(&self) -> bool {
        matches!(self.mode, 1 | 5)
    }

    /// "A channel *runs* if its mode is triggered or its gate is high".
    pub fn runs(&self) -> bool {
        self.triggered() || self.gate
    }

    /// "*Enter* is 01's entry into a state: cycles in state 0, and dirty when `Counting` is entered from a state that is not `Counting`."
    pub fn enter(&mut self, state: State) {
        let counting = |state| matches!(state, State::CountingNormal | State::CountingReloadNextCycle);
        self.dirty |= counting(state) && !counting(self.state);
        self.cycles = 0;
        self.state = state;
    }

    /// "*Age*: cycles in state plus one, at most 4,294,967,295".
    pub fn age(&mut self) {
        self.cycles = self.cycles.saturating_add(1);
    }

    /// 01: "A count takes one from the counting element; below zero the binary count goes round to 65,535. In BCD zero becomes 0x9999; otherwise take 1, 0x7, 0x67 or 0x667
    /// as the lowest non-zero digit is the ones, tens, hundreds or thousands." "The output latch follows unless latched; `ticked` becomes true."
    pub fn count(&mut self) {
        let (e, digit) = (self.element, |place: u32| self.element >> (4 * place) & 0xF);
        self.element = match self.bcd {
            false => e.wrapping_sub(1),
            true if e == 0 => 0x9999,
            true if digit(0) != 0 => e - 1,
            true if digit(1) != 0 => e - 0x7,
            true if digit(2) != 0 => e - 0x67,
            true => e - 0x667,
        };
        self.follow();
        self.ticked = true;
    }

    pub fn follow(&mut self) {
        if !self.latched {
            self.latch = self.element;
        }
    }
}
