//! The original as it stands, where document 01 asks for something else: its own new channel, reset and tick, its bus calls and its mode
//! conversion. Only the rows A of docs/DIFFERENCES.md are run on these.

use super::operation::{model, Operation, Oracle};
use super::record::{dump, load, Record};
use super::*;
use crate::bus::Call;
use crate::panics::caught;

pub fn fresh(ptype: PitType) -> Record {
    dump(&Channel::new(0, ptype))
}

pub fn reset(start: &Record, ptype: PitType) -> Record {
    let mut oracle = Oracle::default();
    oracle.place(start, ptype);
    oracle.timer.reset();
    dump(&oracle.timer.channels[0])
}

pub fn tick(start: &Record, ptype: PitType) -> Record {
    let mut channel = load(start, 0, ptype);
    channel.tick(&mut BusInterface::default(), None);
    dump(&channel)
}

/// The bus calls that a control byte for channel 0 makes; none for other operations, whose calls the oracle itself judges.
pub fn calls_of(start: &Record, op: Operation) -> Vec<Call> {
    let mut oracle = Oracle::default();
    oracle.place(start, model(op.setting));
    if op.code == 16 {
        oracle.timer.control_register_write(op.number, &mut oracle.bus);
    }
    oracle.bus.calls().collect()
}

/// Whether the conversion from a number to a mode panics.
pub fn mode_panics(number: u8) -> bool {
    caught(|| ChannelMode::from(number)).is_err()
}
