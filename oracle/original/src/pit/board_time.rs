//! Time on a board: the original's `ticks_from_time` on the board itself, and its `catch_up` or `run` on a second board, whose channels are ignored and
//! whose remainder, warp and defer flag are compared.
//!
//! The original divides by taking the divisor away again and again, and then ticks that often. So a large quotient is asked of `ticks_from_time` alone,
//! and one that would take seconds, and divisor 0, which takes for ever, are document 01's alone.

use super::board::{self, number_at, Board};
use super::board_operation::{BoardOperation, BoardOracle, Numbers};
use super::*;
use crate::panics::{caught, ADD, SUBTRACT};

/// Quotients up to which the second board is ticked, and up to which the original divides.
const MOST_TICKED: u64 = 3_000;
const MOST_DIVIDED: u64 = 2_000_000;

const CATCH_UP: u8 = 6;

impl BoardOracle {
    pub(super) fn time(&mut self, start: &Board, op: BoardOperation) -> Result<Numbers, u32> {
        let Some(quotient) = quotient(start, op.number) else {
            // "divisor 0"
            self.alone += 1;
            return Err(3);
        };
        if quotient > MOST_DIVIDED {
            self.alone += 1;
            self.by_01(start, op.number);
            self.after_01(op);
            return Ok((quotient, 0, 0));
        }
        let yielded = self.divided(start, op.number)?;
        if quotient <= MOST_TICKED {
            self.on_the_second(start, op, quotient);
        } else {
            self.not_ticked += 1;
            self.after_01(op);
        }
        Ok((yielded, 0, 0))
    }

    /// The original's own quotient; its panics stand for refusals 4 and 5.
    fn divided(&mut self, start: &Board, ticks: u32) -> Result<u64, u32> {
        let (unit, warp) = (DeviceRunTimeUnit::SystemTicks(ticks), self.timer.timewarp);
        let made = caught(|| self.timer.ticks_from_time(unit, warp));
        if made.is_err() && board::dump(&self.timer, number_at(start, board::OWED)) != *start {
            self.blame("a panic in ticks_from_time leaves another board");
        }
        match made {
            Ok((yielded, warp)) => {
                if warp != number_at(start, board::WARP) {
                    self.blame("ticks_from_time hands back another warp");
                }
                Ok(yielded.into())
            }
            Err(message) if message == SUBTRACT => Err(4),
            Err(message) if message == ADD => Err(5),
            Err(_) => {
                self.blame("ticks_from_time panics otherwise than in a checked sum");
                Err(0)
            }
        }
    }

    /// `catch_up` or `run`: its remainder must be that of the division, its warp and defer flag are what the board gets.
    fn on_the_second(&mut self, start: &Board, op: BoardOperation, quotient: u64) {
        board::load_time(start, &mut self.second);
        let (second, bus, unit) = (&mut self.second, &mut self.bus, DeviceRunTimeUnit::SystemTicks(op.number));
        let made = caught(|| if op.code == CATCH_UP { second.catch_up(bus, unit, None) } else { second.run(bus, unit, None) });
        self.bus.forget_calls();
        match (made.err(), listed_panic(start, op, quotient)) {
            (None, None) => {}
            (Some(message), Some(due)) if message == due => {
                self.listed += 1;
                // "Catch-up then sets [..] the defer flag to true": the panic comes before that.
                self.second.defer_reload_flag |= op.code == CATCH_UP;
            }
            _ => self.blame("catch_up or run panics otherwise than docs/DIFFERENCES.md lists"),
        }
        if self.second.sys_tick_accumulator != self.timer.sys_tick_accumulator {
            self.blame("catch_up or run leaves another remainder than ticks_from_time");
        }
        self.timer.timewarp = self.second.timewarp;
        self.timer.defer_reload_flag = self.second.defer_reload_flag;
    }

    /// The remainder by document 01, where the original would take too long.
    fn by_01(&mut self, start: &Board, ticks: u32) {
        // "adds ticks minus warp to the remainder, yields quotient by the divisor as timer ticks, keeps the rest"
        self.timer.sys_tick_accumulator = (sum(start, ticks) % u64::from(self.timer.clock_divisor)) as u32;
    }

    /// The warp and the defer flag by document 01.
    fn after_01(&mut self, op: BoardOperation) {
        if op.code == CATCH_UP {
            // "Catch-up then sets the warp to its ticks and the defer flag to true"
            self.timer.timewarp = DeviceRunTimeUnit::SystemTicks(op.number);
            self.timer.defer_reload_flag = true;
        } else {
            // "run sets the warp to 0"
            self.timer.timewarp = DeviceRunTimeUnit::SystemTicks(0);
        }
    }
}

/// Remainder plus ticks less the warp; 0 where the ticks are below the warp, which the original is then asked for.
fn sum(start: &Board, ticks: u32) -> u64 {
    let passed = ticks.checked_sub(number_at(start, board::WARP));
    passed.map_or(0, |passed| u64::from(number_at(start, board::REMAINDER)) + u64::from(passed))
}

/// The quotient that document 01 yields; 0 where it refuses with 4 or 5, nothing for divisor 0.
pub fn quotient(start: &Board, ticks: u32) -> Option<u64> {
    let sum = sum(start, ticks);
    let fits = if sum <= u64::from(u32::MAX) { sum } else { 0 };
    fits.checked_div(number_at(start, board::DIVISOR).into())
}

/// The panics of an overflow-checked build that docs/DIFFERENCES.md lists. The number of a tick, counted from the warp, may pass 32 bits where the
/// remainder was not below the divisor; and a catch-up takes 3 from the divisor.
fn listed_panic(start: &Board, op: BoardOperation, quotient: u64) -> Option<&'static str> {
    if quotient > 0 && u64::from(number_at(start, board::WARP)) + quotient - 1 > u64::from(u32::MAX) {
        Some(ADD)
    } else if op.code == CATCH_UP && number_at(start, board::DIVISOR) < PIT_WRITE_LATENCY {
        Some(SUBTRACT)
    } else {
        None
    }
}
