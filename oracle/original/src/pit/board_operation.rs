//! One operation on a board of docs/ENCODING.md, made by the original's own functions.
//!
//! The original has no event bytes and no refusals. An event is taken from the levels before and after, and the bus calls must be those of that change; a
//! refusal 1 or 2 stands for a panic, or for the gate call that returns silently; 7 and 8 are document 01's. What a refusal leaves is the start. Nor has the
//! original owed ticks: those of a time call are put into the board's bytes, and whoever asks sees to it that an operation which must wait for them is not asked here.

use super::board::{self, number_at, record_of, Board};
use super::many_counts::Thousands;
use super::operation::wrong_calls;
use super::remembered::{Asked, Remembered};
use super::words::{words, COMMAND_PORT, OTHER_HALF};
use super::*;

/// The most event bytes that are ever lent here.
pub const EVENT_ROOM: usize = 48;

const COMMAND: u16 = PIT_COMMAND_REGISTER;
const FIRST_DATA: u16 = PIT_CHANNEL_0_DATA_PORT;
const LAST_DATA: u16 = PIT_CHANNEL_2_DATA_PORT;

/// Event bytes: `len` of them are lent, the others stand for what lies past them.
#[derive(Clone, Copy, Debug, PartialEq)]
pub struct Events {
    pub bytes: [u8; EVENT_ROOM],
    pub len: u8,
}

impl Events {
    /// So many bytes lent, all 0.
    pub const fn zeros(len: u8) -> Self {
        Events { bytes: [0; EVENT_ROOM], len }
    }

    pub fn lent(&self) -> &[u8] {
        &self.bytes[..usize::from(self.len)]
    }
}

#[derive(Clone, Copy, Debug, PartialEq)]
pub struct BoardOperation {
    pub code: u8,
    pub target: u16,
    pub number: u32,
    /// Where in the event bytes an event is to be written.
    pub place: u64,
}

/// What an operation answers: a number of eight bytes and two of four.
pub type Numbers = (u64, u32, u32);

/// What an operation leaves. A fault is something in the original's behaviour that the driver did not expect; it counts as a difference.
#[derive(Clone, Copy)]
pub struct BoardOutcome {
    pub status: u32,
    pub board: Board,
    pub events: Events,
    pub numbers: Numbers,
    pub fault: Option<&'static str>,
}

pub struct BoardOracle {
    pub(super) timer: ProgrammableIntervalTimer,
    /// For `catch_up` and `run`, whose ticks the board itself must not see (board_time.rs).
    pub(super) second: ProgrammableIntervalTimer,
    /// For `write_u8`.
    whole: ProgrammableIntervalTimer,
    pub(super) bus: BusInterface,
    pub(super) fault: Option<&'static str>,
    remembered: Remembered,
    /// Time calls that document 01 judges alone, since the original would not come back, or not soon.
    pub alone: u64,
    /// Time calls whose quotient is the original's, and whose warp and defer flag are document 01's.
    pub not_ticked: u64,
    /// Time calls in which the original ran into a panic that docs/DIFFERENCES.md lists.
    pub listed: u64,
    /// Port writes that went through the original's `write_u8` too.
    pub whole_writes: u64,
    /// Calls of many counts.
    pub thousands: Thousands,
}

impl Default for BoardOracle {
    fn default() -> Self {
        let timer = || Pit::new(PitType::Model8253, 0.0, 12, None);
        let (timer, second, whole, bus) = (timer(), timer(), timer(), BusInterface::default());
        Self {
            timer,
            second,
            whole,
            bus,
            fault: None,
            remembered: Remembered::default(),
            alone: 0,
            not_ticked: 0,
            listed: 0,
            whole_writes: 0,
            thousands: Thousands::default(),
        }
    }
}

impl BoardOracle {
    pub fn operation(&mut self, start: &Board, events: &Events, op: BoardOperation) -> BoardOutcome {
        board::load(start, &mut self.timer);
        self.bus.forget_calls();
        self.fault = None;
        let made = self.make(start, op);
        let after = board::dump(&self.timer, owed_after(start, op, &made));
        if !board::in_place(&self.timer) {
            self.blame("a channel's number or model changed");
        }
        let left = made.and_then(|numbers| match op.code {
            1 | 3 => written(self.event(start, &after, op), events, op.place).map(|(events, place)| (events, (place, 0, 0))),
            _ => Ok((*events, numbers)),
        });
        if !matches!(op.code, 1 | 3) && self.bus.calls().next().is_some() {
            self.blame("an operation that moves no output calls the bus");
        }
        let fault = self.fault;
        match left {
            Ok((events, numbers)) => BoardOutcome { status: 0, board: after, events, numbers, fault },
            Err(status) => BoardOutcome { status, board: *start, events: *events, numbers: (0, 0, 0), fault },
        }
    }

    /// Keeps the first fault.
    pub(super) fn blame(&mut self, fault: &'static str) {
        self.fault = self.fault.or(Some(fault));
    }

    /// The operation on the timer, without its event: what it answers, or the number of its refusal.
    fn make(&mut self, start: &Board, op: BoardOperation) -> Result<Numbers, u32> {
        match op.code {
            1 => self.write(start, op.target, op.number as u8),
            2 => self.read(op.target),
            3 => self.gate(start, op.target, op.number == 1),
            4 => self.counts(op.target, op.number),
            5 => self.load_cycle(op.target),
            6 | 7 => self.time(start, op),
            8 => self.reset(),
            17..=20 => self.query(op.code, op.target),
            21 => Ok((self.timer.get_timer_accum().into(), 0, 0)),
            code => panic!("not an operation: {code}"),
        }
    }

    fn write(&mut self, start: &Board, port: u16, byte: u8) -> Result<Numbers, u32> {
        match port {
            COMMAND => self.timer.control_register_write(byte, &mut self.bus),
            FIRST_DATA..=LAST_DATA => self.timer.data_write(usize::from(port - FIRST_DATA), byte, &mut self.bus),
            _ => return self.must_panic(Asked::Write, port, 1),
        }
        self.whole_write(start, port, byte);
        Ok((0, 0, 0))
    }

    /// The original's `write_u8` catches up first, and so always defers. On a board that defers, at the moment of its warp and with less than a
    /// tick's remainder that changes nothing, so there the whole function must do the same.
    fn whole_write(&mut self, start: &Board, port: u16, byte: u8) {
        let (divisor, warp) = (number_at(start, board::DIVISOR), number_at(start, board::WARP));
        if start[board::DEFER] == 0 || number_at(start, board::REMAINDER) >= divisor || divisor < PIT_WRITE_LATENCY {
            return;
        }
        board::load(start, &mut self.whole);
        let mut bus = BusInterface::default();
        self.whole.write_u8(port, byte, Some(&mut bus), DeviceRunTimeUnit::SystemTicks(warp), None);
        self.whole_writes += 1;
        if board::dump(&self.whole, 0) != board::dump(&self.timer, 0) || !bus.calls().eq(self.bus.calls()) {
            self.blame("write_u8 does otherwise than the function that it calls");
        }
    }

    /// The byte, and the words of the channel as it is before the read.
    fn read(&mut self, port: u16) -> Result<Numbers, u32> {
        let (words, latch) = match port {
            COMMAND => (COMMAND_PORT, 0),
            FIRST_DATA..=LAST_DATA => {
                let channel = &self.timer.channels[usize::from(port - FIRST_DATA)];
                (words(channel), *channel.output_latch)
            }
            _ => return self.must_panic(Asked::Read, port, 1),
        };
        let byte = self.timer.read_u8(port, DeviceRunTimeUnit::SystemTicks(0));
        if !words.fit(byte, latch) {
            self.blame(OTHER_HALF);
        }
        let [half, held] = words.numbers();
        Ok((byte.into(), half.into(), held.into()))
    }

    /// A refusal for which the original panics.
    fn must_panic(&mut self, asked: Asked, target: u16, status: u32) -> Result<Numbers, u32> {
        if !self.remembered.panics(asked, target) {
            self.blame("the original takes a port or a channel that is refused here");
        }
        Err(status)
    }

    fn gate(&mut self, start: &Board, channel: u16, level: bool) -> Result<Numbers, u32> {
        self.timer.set_channel_gate(channel.into(), level, &mut self.bus);
        if channel <= 2 {
            return Ok((0, 0, 0));
        }
        // "In 000 a gate call above channel 2 returns silently; here the same outcome has number 2."
        if board::dump(&self.timer, number_at(start, board::OWED)) != *start || self.bus.calls().next().is_some() {
            self.blame("the original's gate above channel 2 does something");
        }
        Err(2)
    }

    fn counts(&mut self, channel: u16, number: u32) -> Result<Numbers, u32> {
        if channel > 2 {
            return Err(2);
        }
        let channel = &mut self.timer.channels[usize::from(channel)];
        self.thousands.make(channel, number);
        Ok((0, 0, 0))
    }

    fn load_cycle(&mut self, channel: u16) -> Result<Numbers, u32> {
        if channel > 2 {
            return Err(2);
        }
        added::load_cycle(&mut self.timer.channels[usize::from(channel)]);
        Ok((0, 0, 0))
    }

    fn reset(&mut self) -> Result<Numbers, u32> {
        self.timer.reset();
        self.timer.channels.iter_mut().for_each(added::after_reset);
        Ok((0, 0, 0))
    }

    fn query(&mut self, code: u8, channel: u16) -> Result<Numbers, u32> {
        if channel > 2 {
            return self.must_panic(Asked::query(code), channel, 2);
        }
        let c = usize::from(channel);
        Ok(match code {
            17 => (self.timer.get_output_state(c).into(), 0, 0),
            18 => {
                let (register, element, counting) = self.timer.get_channel_count(c);
                (register.into(), element.into(), counting.into())
            }
            19 => (self.timer.does_channel_retrigger(c).into(), 0, 0),
            _ => {
                let (dirty, counting, ticked) = self.timer.is_dirty(c);
                (dirty.into(), counting.into(), ticked.into())
            }
        })
    }

    /// The channel whose level changed and its level. The channels that the operation does not name must be as before.
    fn event(&mut self, start: &Board, after: &Board, op: BoardOperation) -> Option<[u8; 2]> {
        let named = match (op.code, op.target) {
            (1, COMMAND) => (op.number >> 6) as usize,
            (1, port) => usize::from(port.wrapping_sub(FIRST_DATA)),
            (_, channel) => usize::from(channel),
        };
        if (0..3).any(|c| c != named && record_of(start, c) != record_of(after, c)) || start[board::MODEL..] != after[board::MODEL..] {
            self.blame("something changes that the operation does not name");
        }
        if named > 2 {
            if self.bus.calls().next().is_some() {
                self.blame("a write that names no channel calls the bus");
            }
            return None;
        }
        let (before, now) = (record_of(start, named), record_of(after, named));
        if let Some(fault) = wrong_calls(&self.bus, named, &before, &now) {
            self.blame(fault);
        }
        (before[27] != now[27]).then_some([named as u8, now[27]])
    }
}

/// The ticks that are owed after an operation. 02: "Timer ticks of a run or catch-up become owed ticks on the board."
fn owed_after(start: &Board, op: BoardOperation, made: &Result<Numbers, u32>) -> u32 {
    match (op.code, made) {
        (6 | 7, Ok((yielded, _, _))) => *yielded as u32,
        _ => number_at(start, board::OWED),
    }
}

/// The event bytes after an event that may be due, and the new place; or refusal 7 or 8.
fn written(event: Option<[u8; 2]>, events: &Events, place: u64) -> Result<(Events, u64), u32> {
    // "event place past the end of the event bytes"
    let Some(left) = u64::from(events.len).checked_sub(place) else { return Err(7) };
    let Some(event) = event else { return Ok((*events, place)) };
    // "an event is due and fewer than 2 bytes are left from the place"
    if left < 2 {
        return Err(8);
    }
    let mut after = *events;
    after.bytes[place as usize..place as usize + 2].copy_from_slice(&event);
    Ok((after, place + 2))
}
