//! "Add the per-mode tick for all six modes on both models, from the data sheets, an added part" (02, L1), by docs/TICK.md, on the original's record and with its own
//! `count`, `change_channel_state` and `change_output_state`. ./bench has it in the original's place where a trace works ticks off: there the bytes of both sides must be
//! the same, and the original's own tick does otherwise (its rows R1 to R13). The comparison does not judge by this one; compare/src/tick_rules.rs has its own.

use super::*;

const NORMAL: ChannelState = ChannelState::Counting(ReloadFlag::Normal);
const NEXT: ChannelState = ChannelState::Counting(ReloadFlag::ReloadNextCycle);

impl Channel {
    /// Modes 1 and 5: a trigger starts them, and the gate's level is nothing.
    fn is_triggered(&self) -> bool {
        matches!(*self.mode, ChannelMode::HardwareRetriggerableOneShot | ChannelMode::HardwareTriggeredStrobe)
    }

    fn runs(&self) -> bool {
        self.is_triggered() || *self.gate
    }

    fn is_strobe(&self) -> bool {
        matches!(*self.mode, ChannelMode::SoftwareTriggeredStrobe | ChannelMode::HardwareTriggeredStrobe)
    }

    /// Table A, and table B for what is due.
    pub fn added_tick(&mut self, bus: &mut BusInterface) {
        match self.channel_state {
            ChannelState::WaitingForReload => self.idle(bus),
            ChannelState::DeferLoadCycle => {
                self.change_channel_state(ChannelState::WaitingForLoadCycle);
                self.rest(bus);
            }
            ChannelState::WaitingForLoadTrigger if self.is_triggered() => self.idle(bus),
            ChannelState::WaitingForLoadCycle | ChannelState::WaitingForLoadTrigger => self.load(bus),
            _ if !self.runs() => self.idle(bus),
            ChannelState::Counting(ReloadFlag::ReloadNextCycle) if *self.mode == ChannelMode::SquareWaveGenerator => {
                self.load_at(!*self.output, bus);
            }
            ChannelState::Counting(ReloadFlag::ReloadNextCycle) => self.load(bus),
            _ if *self.mode == ChannelMode::RateGenerator && *self.counting_element == 1 => self.load(bus),
            _ => self.count_by_mode(bus),
        }
    }

    fn idle(&mut self, bus: &mut BusInterface) {
        self.cycles_in_state = self.cycles_in_state.saturating_add(1);
        self.rest(bus);
    }

    /// Table D, idle: the pulse of modes 2, 4 and 5 ends.
    fn rest(&mut self, bus: &mut BusInterface) {
        if *self.mode == ChannelMode::RateGenerator || self.is_strobe() {
            self.change_output_state(true, bus);
        }
    }

    /// Table D, load: low in modes 0 and 1, high in 2 to 5.
    fn load(&mut self, bus: &mut BusInterface) {
        let low = matches!(*self.mode, ChannelMode::InterruptOnTerminalCount | ChannelMode::HardwareRetriggerableOneShot);
        self.load_at(!low, bus);
    }

    fn load_at(&mut self, level: bool, bus: &mut BusInterface) {
        let repeats = matches!(*self.mode, ChannelMode::RateGenerator | ChannelMode::SquareWaveGenerator);
        if repeats && *self.reload_value == 1 {
            self.change_channel_state(ChannelState::WaitingForLoadCycle);
            self.change_output_state(true, bus);
            return;
        }
        let value = added::load_value(self);
        self.counting_element.update(value);
        if !self.count_is_latched {
            self.output_latch.update(value);
        }
        self.change_output_state(level, bus);
        self.armed = true;
        self.change_channel_state(NORMAL);
    }

    /// Table C, and what follows the counts.
    fn count_by_mode(&mut self, bus: &mut BusInterface) {
        if *self.mode == ChannelMode::SquareWaveGenerator {
            match (*self.counting_element & 1, *self.output) {
                (0, _) => self.count2(),
                (_, true) => self.count(),
                (_, false) => self.count3(),
            }
            if *self.counting_element == 0 {
                return self.end_half(bus);
            }
        } else {
            self.count();
            self.mark(bus);
        }
        match self.channel_state {
            ChannelState::Counting(_) => self.cycles_in_state = self.cycles_in_state.saturating_add(1),
            _ => self.change_channel_state(NORMAL),
        }
    }

    fn end_half(&mut self, bus: &mut BusInterface) {
        if self.ptype == PitType::Model8254 && *self.output && *self.reload_value & 1 == 1 {
            self.change_channel_state(NEXT);
        } else {
            self.load_at(!*self.output, bus);
        }
    }

    /// Table D, count.
    fn mark(&mut self, bus: &mut BusInterface) {
        let element = *self.counting_element;
        match *self.mode {
            ChannelMode::RateGenerator => self.change_output_state(element != 1, bus),
            _ if self.is_strobe() => {
                let strobes = self.armed && element == 0;
                self.armed &= !strobes;
                self.change_output_state(!strobes, bus);
            }
            _ if element == 0 => self.change_output_state(true, bus),
            _ => {}
        }
    }
}
