//! A control byte, by two routes that must agree.
//!
//! The first is the original's `control_register_write` on a timer all three of whose channels hold the record; it takes the byte apart with
//! the bit field, which is a stand-in. The second takes the byte apart by shifts and masks and calls `latch_count` or `set_mode` itself.

use super::operation::{joined, wrong_calls, Oracle, Outcome};
use super::record::{dump, load, Record};
use super::*;

const NOTHING: u16 = 3;

impl Oracle {
    pub(super) fn control(&mut self, start: &Record, byte: u8, ptype: PitType) -> Outcome {
        let mut outcome = self.by_the_original(start, byte, ptype);
        for c in 0..3 {
            let other = self.by_hand(start, byte, ptype, c);
            outcome = joined(outcome, &other, "the bit field and the shifts take the control byte apart differently");
        }
        outcome
    }

    fn by_the_original(&mut self, start: &Record, byte: u8, ptype: PitType) -> Outcome {
        self.place(start, ptype);
        self.timer.control_register_write(byte, &mut self.bus);
        let named = ControlByte::from_bytes([byte]).channel();
        // Where no channel is named, any of the three shows that nothing happened.
        let shown = if u16::from(named) == NOTHING { 0 } else { usize::from(named) };
        let mut outcome = self.outcome(shown, [named.into(), 0, 0]);
        outcome.fault = wrong_calls(&self.bus, shown, start, &outcome.record);
        for c in (0..3).filter(|c| *c != usize::from(named)) {
            if dump(&self.timer.channels[c]) != *start {
                outcome.fault = Some("a control byte changes a channel that it does not name");
            }
        }
        outcome
    }

    fn by_hand(&mut self, start: &Record, byte: u8, ptype: PitType, c: usize) -> Outcome {
        self.bus.forget_calls();
        self.timer.channels[c] = load(start, c, ptype);
        let channel = &mut self.timer.channels[c];
        let named = u16::from(byte >> 6);
        let mode = (byte >> 1) & 7;
        let bcd = byte & 1 == 1;
        match (named, (byte >> 4) & 3) {
            (NOTHING, _) => {}
            (_, 0) => channel.latch_count(),
            (_, 1) => channel.set_mode(mode.into(), RwMode::Lsb, bcd, &mut self.bus),
            (_, 2) => channel.set_mode(mode.into(), RwMode::Msb, bcd, &mut self.bus),
            (_, _) => channel.set_mode(mode.into(), RwMode::LsbMsb, bcd, &mut self.bus),
        }
        let mut outcome = self.outcome(c, [named, 0, 0]);
        outcome.fault = wrong_calls(&self.bus, c, start, &outcome.record);
        outcome
    }
}
