//! What `pit_answers` and `pit_replay` do, made by the original: the same trace in, the same bytes out. ./bench measures this beside ours.
//!
//! It stands in the original's own module, so that the compiler can inline the original's functions into the loop. The trace is judged first, as ours is, then run. A time call
//! leaves its ticks owed, as document 02 asks, and code 9 works them off (baseline_ticks.rs).

use super::board::{self, Board};
use super::words::{words, Words, COMMAND_PORT};
use super::*;
use crate::lines::Lines;

/// Bytes of an answer: docs/ENCODING.md, "The answers of a trace".
const ANSWER: usize = 16;
/// Bytes for a line.
const LINE: usize = 64;

#[derive(Clone, Copy)]
struct Op {
    code: u8,
    target: u8,
    number: u32,
}

pub(super) enum Reply {
    Refused(u8),
    Done,
    Out(u8, bool),
    Byte(u8, Words),
    Ticks(u32),
    Worked(Worked),
}

/// Ticks made, and the event bytes that tell of them.
pub(super) struct Worked {
    pub made: u32,
    pub events: [u8; 6],
    pub written: usize,
}

fn long(bytes: &[u8], place: usize) -> u32 {
    u32::from_le_bytes([bytes[place], bytes[place + 1], bytes[place + 2], bytes[place + 3]])
}

fn op_at(trace: &[u8], index: usize) -> Op {
    let place = 16 + 6 * index;
    let six = &trace[place..place + 6];
    Op { code: six[0], target: six[1], number: long(six, 2) }
}

fn sound(op: Op) -> bool {
    match op.code {
        1 => op.number <= 255,
        2 | 5 => op.number == 0,
        3 => op.number <= 1,
        4 => true,
        6 | 7 | 9 => op.target == 0,
        8 => op.target == 0 && op.number == 0,
        _ => false,
    }
}

/// How many operations a sound trace has. What is wrong with another is not asked here.
fn judged(trace: &[u8]) -> Option<usize> {
    if trace.len() < 16 || long(trace, 0) != 2 || long(trace, 4) == 0 || long(trace, 8) > 1 || long(trace, 12) > 4096 {
        return None;
    }
    let number = long(trace, 12) as usize;
    let whole = trace.len() == 16 + 6 * number;
    (whole && (0..number).all(|index| sound(op_at(trace, index)))).then_some(number)
}

/// The original's timer with its bus, as a host keeps them.
pub struct Baseline {
    pub(super) timer: Pit,
    pub(super) bus: BusInterface,
    /// 02: "Timer ticks of a run or catch-up become owed ticks on the board."
    pub(super) owed: u32,
}

impl Baseline {
    pub fn fresh(trace: &[u8]) -> Self {
        let ptype = if long(trace, 8) == 1 { PitType::Model8254 } else { PitType::Model8253 };
        let mut timer = Pit::new(ptype, 0.0, long(trace, 4), None);
        for (c, channel) in timer.channels.iter_mut().enumerate() {
            *channel = added::fresh(c, ptype);
        }
        Self { timer, bus: BusInterface::counting(), owed: 0 }
    }

    /// Where it stands, in the bytes of docs/ENCODING.md.
    pub fn bytes(&self) -> Board {
        board::dump(&self.timer, self.owed)
    }

    fn write(&mut self, port: u8, byte: u8) -> Reply {
        let c = match port {
            0x40..=0x42 => usize::from(port - 0x40),
            // A control byte for no channel: any channel shows that nothing changes.
            0x43 => usize::from(byte >> 6).min(2),
            _ => return Reply::Refused(1),
        };
        if self.owed > 0 {
            return Reply::Refused(16);
        }
        let before = *self.timer.channels[c].output;
        if port == 0x43 {
            self.timer.control_register_write(byte, &mut self.bus);
        } else {
            self.timer.data_write(c, byte, &mut self.bus);
        }
        self.changed(c, before)
    }

    fn changed(&self, c: usize, before: bool) -> Reply {
        let after = *self.timer.channels[c].output;
        if before == after {
            Reply::Done
        } else {
            Reply::Out(c as u8, after)
        }
    }

    fn read(&mut self, port: u8) -> Reply {
        let words = match port {
            0x40..=0x42 => words(&self.timer.channels[usize::from(port - 0x40)]),
            0x43 => COMMAND_PORT,
            _ => return Reply::Refused(1),
        };
        Reply::Byte(self.timer.read_u8(port.into(), DeviceRunTimeUnit::SystemTicks(0)), words)
    }

    fn gate(&mut self, c: usize, level: bool) -> Reply {
        if c > 2 {
            return Reply::Refused(2);
        }
        if self.owed > 0 {
            return Reply::Refused(16);
        }
        let before = *self.timer.channels[c].output;
        self.timer.set_channel_gate(c, level, &mut self.bus);
        self.changed(c, before)
    }

    fn counts(&mut self, c: usize, number: u32) -> Reply {
        if c > 2 {
            return Reply::Refused(2);
        }
        let channel = &mut self.timer.channels[c];
        for _ in 0..number {
            channel.count();
        }
        Reply::Done
    }

    fn elapse(&mut self, ticks: u32, catch_up: bool) -> Reply {
        if self.owed > 0 {
            return Reply::Refused(16);
        }
        let DeviceRunTimeUnit::SystemTicks(warp) = self.timer.timewarp else { return Reply::Refused(0) };
        if ticks < warp {
            return Reply::Refused(4);
        }
        if self.timer.sys_tick_accumulator.checked_add(ticks - warp).is_none() {
            return Reply::Refused(5);
        }
        let given = DeviceRunTimeUnit::SystemTicks(ticks);
        let (yielded, _) = self.timer.ticks_from_time(given, self.timer.timewarp);
        if catch_up {
            self.timer.timewarp = given;
            self.timer.defer_reload_flag = true;
        } else {
            self.timer.timewarp = DeviceRunTimeUnit::SystemTicks(0);
        }
        self.owed = yielded;
        Reply::Ticks(yielded)
    }

    /// A query by its code of docs/ENCODING.md; a trace has none. All that the original hands back is used.
    fn asked(&mut self, code: u8, c: usize) -> u32 {
        let timer = &mut self.timer;
        match code {
            17 => timer.get_output_state(c).into(),
            18 => std::hint::black_box(timer.get_channel_count(c)).0.into(),
            20 => std::hint::black_box(timer.is_dirty(c)).0.into(),
            21 => timer.get_timer_accum(),
            _ => unreachable!("no row has this query"),
        }
    }

    fn make(&mut self, op: Op) -> Reply {
        let c = usize::from(op.target);
        match op.code {
            1 => self.write(op.target, op.number as u8),
            2 => self.read(op.target),
            3 => self.gate(c, op.number == 1),
            4 => self.counts(c, op.number),
            5 => {
                if c > 2 {
                    return Reply::Refused(2);
                }
                added::load_cycle(&mut self.timer.channels[c]);
                Reply::Done
            }
            6 => self.elapse(op.number, true),
            7 => self.elapse(op.number, false),
            9 => self.work_off(op.number),
            _ if self.owed > 0 => Reply::Refused(16),
            _ => {
                self.timer.reset();
                self.timer.channels.iter_mut().for_each(added::after_reset);
                Reply::Done
            }
        }
    }
}

fn answer(reply: &Reply, left: u32, bytes: &mut [u8]) {
    const NONE: [u8; 7] = [0; 7];
    let (refusal, events, value) = match *reply {
        Reply::Refused(number) => (number, NONE, 0),
        Reply::Done => (0, NONE, 0),
        Reply::Out(c, level) => (0, [2, c, level.into(), 0, 0, 0, 0], 0),
        Reply::Byte(byte, words) => {
            let [half, held] = words.numbers();
            (0, NONE, u32::from_le_bytes([byte, half, held, 0]))
        }
        Reply::Ticks(ticks) => (0, NONE, ticks),
        Reply::Worked(Worked { made, events: [a, b, c, d, e, f], written }) => (0, [written as u8, a, b, c, d, e, f], made),
    };
    bytes[0] = refusal;
    bytes[1..8].copy_from_slice(&events);
    bytes[8..12].copy_from_slice(&value.to_le_bytes());
    bytes[12..16].copy_from_slice(&left.to_le_bytes());
}

fn made<'a, 'b>(lines: &'a mut Lines<'b>, worked: &Worked) -> &'a mut Lines<'b> {
    lines.text(b" made ").decimal(worked.made);
    for event in worked.events[..worked.written].chunks_exact(2) {
        lines.text(b" out ").decimal(event[0].into()).text(b" ").decimal(event[1].into());
    }
    lines
}

/// A read byte and its two words.
fn read<'a, 'b>(lines: &'a mut Lines<'b>, byte: u8, words: Words) -> &'a mut Lines<'b> {
    let [half, held] = words.numbers();
    let (half, held) = (Words::HALVES[usize::from(half)], Words::MARKS[usize::from(held)]);
    lines.text(b" read ").hex(byte).text(b" ").text(half.as_bytes()).text(b" ").text(held.as_bytes())
}

fn line(lines: &mut Lines, index: usize, reply: &Reply, left: u32) {
    lines.decimal(index as u32);
    match *reply {
        Reply::Refused(number) => lines.text(b" refused ").decimal(number.into()),
        Reply::Done => lines.text(b" ok"),
        Reply::Out(c, level) => lines.text(b" out ").decimal(c.into()).text(b" ").decimal(level.into()),
        Reply::Byte(byte, words) => read(lines, byte, words),
        Reply::Ticks(ticks) => lines.text(b" ticks ").decimal(ticks).text(b" left ").decimal(left),
        Reply::Worked(ref worked) => made(lines, worked),
    };
    lines.text(b"\n");
}

/// What a replay of a sound trace prints, at the front of `out`, and how many bytes that is.
pub fn replay(trace: &[u8], out: &mut [u8]) -> Option<usize> {
    let number = judged(trace)?;
    let mut lines = Lines::new(out.get_mut(..LINE * (number + 2))?);
    let mut board = Baseline::fresh(trace);
    let model: &[u8] = if long(trace, 8) == 1 { b"8254" } else { b"8253" };
    lines.text(b"pit ").text(model).text(b" divisor ").decimal(long(trace, 4)).text(b"\n");
    for index in 0..number {
        let reply = board.make(op_at(trace, index));
        line(&mut lines, index, &reply, board.timer.sys_tick_accumulator);
    }
    std::hint::black_box(board.bus.counted());
    lines.text(b"end ").decimal(number as u32).text(b"\n");
    Some(lines.len())
}

/// One operation of a trace, or a query, on a board that the caller keeps: what the bench measures one at a time. Answers its refusal or
/// the first number that docs/ENCODING.md has for it.
pub fn one(board: &mut Baseline, trace: &[u8], index: usize) -> u32 {
    let op = op_at(trace, index);
    if op.code >= 17 {
        return board.asked(op.code, op.target.into());
    }
    match board.make(op) {
        Reply::Refused(number) => number.into(),
        Reply::Done => 0,
        Reply::Out(..) => 2,
        Reply::Byte(byte, words) => {
            std::hint::black_box(words);
            byte.into()
        }
        Reply::Ticks(ticks) => ticks,
        Reply::Worked(worked) => std::hint::black_box(worked).written as u32,
    }
}

/// The answers of a sound trace at the front of `out`, and how many bytes they are.
pub fn answers(trace: &[u8], out: &mut [u8]) -> Option<usize> {
    let number = judged(trace)?;
    let out = out.get_mut(..ANSWER * number)?;
    let mut board = Baseline::fresh(trace);
    for (index, bytes) in out.chunks_exact_mut(ANSWER).enumerate() {
        let reply = board.make(op_at(trace, index));
        answer(&reply, board.timer.sys_tick_accumulator, bytes);
    }
    std::hint::black_box(board.bus.counted());
    Some(ANSWER * number)
}
