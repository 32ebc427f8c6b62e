//! Whether the original panics at a port or a channel that is not there. A panic is slow, so each is asked for once and remembered; the timer that is
//! asked is a throwaway, whose divisor and ticks do no harm.

use super::*;
use crate::panics::caught;

/// What is asked for: the original's `read_u8` and `write_u8` of a port, or one of its queries of a channel.
#[derive(Clone, Copy)]
pub enum Asked {
    Read = 0,
    Write = 1,
    Query17 = 2,
    Query18 = 3,
    Query19 = 4,
    Query20 = 5,
}

impl Asked {
    pub fn query(code: u8) -> Self {
        [Asked::Query17, Asked::Query18, Asked::Query19, Asked::Query20][usize::from(code) - 17]
    }
}

pub struct Remembered {
    /// For each thing asked for, each port or channel: not yet asked, or whether it panics.
    tables: [Vec<Option<bool>>; 6],
}

impl Default for Remembered {
    fn default() -> Self {
        Self { tables: std::array::from_fn(|_| vec![None; 0x1_0000]) }
    }
}

impl Remembered {
    pub fn panics(&mut self, asked: Asked, target: u16) -> bool {
        *self.tables[asked as usize][usize::from(target)].get_or_insert_with(|| ask(asked, target))
    }
}

fn ask(asked: Asked, target: u16) -> bool {
    let mut timer = Pit::new(PitType::Model8253, 0.0, 12, None);
    let mut bus = BusInterface::default();
    let (channel, now) = (usize::from(target), DeviceRunTimeUnit::SystemTicks(0));
    caught(|| match asked {
        Asked::Read => drop(timer.read_u8(target, now)),
        Asked::Write => timer.write_u8(target, 0, Some(&mut bus), now, None),
        Asked::Query17 => drop(timer.get_output_state(channel)),
        Asked::Query18 => drop(timer.get_channel_count(channel)),
        Asked::Query19 => drop(timer.does_channel_retrigger(channel)),
        Asked::Query20 => drop(timer.is_dirty(channel)),
    })
    .is_err()
}
