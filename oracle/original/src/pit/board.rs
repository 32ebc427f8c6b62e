//! The original's timer as the 111 bytes of docs/ENCODING.md, in both directions.
//!
//! A load gives the board's model to the timer and to its three channels. What document 01 leaves behind (`pit_cycles`, `chan1_source`, the
//! speaker, the fraction of the microsecond branch) stays as it is in the timer and is in no dump. The original owes no ticks: what a dump has there is the caller's.
//! Of the status latches and null-count marks of the three records it has 0, as record.rs has.

use super::operation::model;
use super::record::{self, Record, RECORD_BYTES};
use super::*;

/// Bytes of a board.
pub const LENGTH: usize = 111;

pub type Board = [u8; LENGTH];

/// The places of what the board itself holds, behind its three records.
pub const MODEL: usize = 93;
pub const DIVISOR: usize = 94;
pub const REMAINDER: usize = 98;
pub const WARP: usize = 102;
pub const DEFER: usize = 106;
pub const OWED: usize = 107;

/// Where a channel's record begins.
pub const fn record_at(c: usize) -> usize {
    RECORD_BYTES * c
}

pub fn load(board: &Board, timer: &mut ProgrammableIntervalTimer) {
    timer.ptype = model(board[MODEL]);
    for c in 0..3 {
        timer.channels[c] = record::load(&record_of(board, c), c, timer.ptype);
    }
    load_time(board, timer);
}

/// All but the channels and the model.
pub(super) fn load_time(board: &Board, timer: &mut ProgrammableIntervalTimer) {
    timer.clock_divisor = number_at(board, DIVISOR);
    timer.sys_tick_accumulator = number_at(board, REMAINDER);
    timer.timewarp = DeviceRunTimeUnit::SystemTicks(number_at(board, WARP));
    timer.defer_reload_flag = board[DEFER] == 1;
}

pub fn dump(timer: &ProgrammableIntervalTimer, owed: u32) -> Board {
    let mut board = [0; LENGTH];
    for c in 0..3 {
        put_record(&mut board, c, &record::dump(&timer.channels[c]));
    }
    board[MODEL] = (timer.ptype == PitType::Model8254).into();
    put_number(&mut board, DIVISOR, timer.clock_divisor);
    put_number(&mut board, REMAINDER, timer.sys_tick_accumulator);
    put_number(&mut board, WARP, warp(timer));
    board[DEFER] = timer.defer_reload_flag.into();
    put_number(&mut board, OWED, owed);
    board
}

/// The warp in system ticks. Only the microsecond branch, which is not driven, would leave another unit.
pub(super) fn warp(timer: &ProgrammableIntervalTimer) -> u32 {
    match timer.timewarp {
        DeviceRunTimeUnit::SystemTicks(ticks) => ticks,
        DeviceRunTimeUnit::Microseconds(_) => panic!("a warp in microseconds"),
    }
}

/// Whether each channel still has its number and the board's model, which a dump takes for granted.
pub(super) fn in_place(timer: &ProgrammableIntervalTimer) -> bool {
    timer.channels.len() == 3 && timer.channels.iter().enumerate().all(|(c, channel)| channel.c == c && channel.ptype == timer.ptype)
}

/// The fresh board by document 01: "A fresh board has remainder and warp 0 and defer flag false." It owes no ticks. 02, L5: "a fresh channel has neither" status nor mark.
pub fn fresh(model_number: u8, divisor: u32) -> Board {
    let mut board = [0; LENGTH];
    for c in 0..3 {
        put_record(&mut board, c, &record::dump(&added::fresh(c, model(model_number))));
    }
    board[MODEL] = model_number;
    put_number(&mut board, DIVISOR, divisor);
    board
}

pub fn record_of(board: &Board, c: usize) -> Record {
    board[record_at(c)..record_at(c + 1)].try_into().expect("a record's bytes")
}

pub fn put_record(board: &mut Board, c: usize, record: &Record) {
    board[record_at(c)..record_at(c + 1)].copy_from_slice(record);
}

pub fn number_at(board: &Board, place: usize) -> u32 {
    u32::from_le_bytes(board[place..place + 4].try_into().expect("4 bytes"))
}

pub fn put_number(board: &mut Board, place: usize, number: u32) {
    board[place..place + 4].copy_from_slice(&number.to_le_bytes());
}
