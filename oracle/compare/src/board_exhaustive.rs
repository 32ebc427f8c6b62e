//! Every port and channel number, every control and data byte, read-backs beside all that is held, every place of a read on all three channels, every gate edge at every event room and place, and
//! every time call at the edges of warp, divisor and the 32 bits.

use crate::board_judge::BoardJudge;
use crate::board_operations::{operation, NAMES};
use crate::exhaustive::{ACCESSES, FLAG};
use crate::fields::{each_combination, Field, ACCESS, GATE, LATCHED, MODE, NULL_COUNT, OUTPUT, READ_STATE, STATE, STATUS_LATCH};
use crate::random::Random;
use original::pit::board::{fresh, put_number, record_at, Board, DEFER, DIVISOR, MODEL, REMAINDER, WARP};
use original::pit::board_operation::{BoardOperation, Events, EVENT_ROOM};
use original::pit::record::RECORD_BYTES;

const ROOMS: std::ops::RangeInclusive<u8> = 0..=6;
pub const ROOMY: Events = Events { bytes: [0xEE; EVENT_ROOM], len: 8 };

/// Divisors, and numbers of ticks, at which something changes.
const DIVISORS: [u32; 14] = [0, 1, 2, 3, 4, 5, 11, 12, 13, 65_536, 0x10_0000, 0x7FFF_FFFF, 0xFFFF_FFFE, 0xFFFF_FFFF];
const SPANS: [u32; 14] = [0, 1, 2, 3, 11, 12, 13, 24, 25, 0x7FFF_FFFF, 0x8000_0000, 0xFFFF_FFFD, 0xFFFF_FFFE, 0xFFFF_FFFF];

pub fn run(judge: &mut BoardJudge) {
    targets(judge);
    bytes(judge);
    read_backs(judge);
    reads(judge);
    gates(judge);
    times(judge);
    judge.settle();
}

/// All 65,536 ports and channels, each on a board of its own.
fn targets(judge: &mut BoardJudge) {
    let mut random = Random(21);
    for (code, target) in [1, 2, 3, 4, 5, 17, 18, 19, 20].iter().flat_map(|code| (0..=0xFFFF).map(move |target| (*code, target))) {
        let number = if matches!(code, 1 | 3 | 4) { random.below(2) as u32 } else { 0 };
        judge.ask(&random.board(), &ROOMY, operation(code, target, number));
    }
}

/// The rooms of event bytes with the places in them, at their end and past it.
pub fn rooms_and_places() -> impl Iterator<Item = (u8, u64)> {
    let past = |room: u8| (0..=u64::from(room) + 2).chain([1 << 32, u64::MAX]);
    ROOMS.flat_map(move |room| past(room).map(move |place| (room, place)))
}

/// Every byte to every port, on both models, deferred and not; each with every room and place on some board.
fn bytes(judge: &mut BoardJudge) {
    let mut random = Random(22);
    for (port, byte) in (0x40..=0x43).flat_map(|port| (0..=255).map(move |byte| (port, byte))) {
        for (model, defer) in [(0, 0), (0, 1), (1, 0), (1, 1)] {
            for (room, place) in rooms_and_places() {
                let mut board = random.board();
                (board[MODEL], board[DEFER]) = (model, defer);
                let events = random.events_of(room);
                judge.ask(&board, &events, BoardOperation { place, ..operation(1, port, byte) });
            }
        }
    }
}

/// Every control byte on both models, with each channel latched or not, status held or not, half read or not, mark set or not, beside some of the others'; and every byte for channel 3 on
/// the 8254 beside every one of the others'. After each, two reads of every data port.
fn read_backs(judge: &mut BoardJudge) {
    let mut random = Random(26);
    let chosen: &[(&Field, &[u32])] = &[(LATCHED, FLAG), (STATUS_LATCH, &[0, 0x5B]), (READ_STATE, FLAG), (NULL_COUNT, FLAG)];
    let mut kept = Vec::new();
    each_combination(&[0; RECORD_BYTES], chosen, &mut |record| kept.push(*record));
    let number = kept.len();
    let ask = |judge: &mut BoardJudge, random: &mut Random, model: u8, byte: u32, three: [usize; 3]| {
        let mut board = random.board();
        board[MODEL] = model;
        for (c, of) in three.into_iter().enumerate() {
            chosen.iter().for_each(|(field, _)| field.put(&mut board[record_at(c)..], field.get(&kept[of % number])));
        }
        judge.ask(&board, &ROOMY, operation(1, 0x43, byte)).board
    };
    for (byte, of) in (0..256).flat_map(|byte| (0..number).map(move |of| (byte, of))) {
        for (model, turn) in [(0, 0), (0, 1), (1, 0), (1, 1), (1, 2)] {
            let mut board = ask(judge, &mut random, model, byte, [of, of + 5 + turn, of + 11 + 3 * turn]);
            for port in [0x40, 0x41, 0x42, 0x40, 0x41, 0x42] {
                board = judge.ask(&board, &ROOMY, operation(2, port, 0)).board;
            }
        }
    }
    for (byte, three) in (0xC0..256).flat_map(|byte| (0..number.pow(3)).map(move |three| (byte, three))) {
        ask(judge, &mut random, 1, byte, [three, three / number, three / number.pow(2)]);
    }
}

/// Every access, place of a read and latch of each channel, with a status held and without, beside every one of the others', so that no channel's words pass for another's. From each, four reads of every port: the
/// command port's too, whatever is latched.
fn reads(judge: &mut BoardJudge) {
    let mut random = Random(25);
    let mut places = Vec::new();
    each_combination(
        &[0; RECORD_BYTES],
        &[(ACCESS, ACCESSES), (READ_STATE, FLAG), (LATCHED, FLAG), (STATUS_LATCH, &[0, 0x5B])],
        &mut |record| places.push(*record),
    );
    let number = places.len();
    for (three, port) in (0..number.pow(3)).flat_map(|three| (0x40..=0x43).map(move |port| (three, port))) {
        let mut board = random.board();
        for (c, place) in [three % number, three / number % number, three / number.pow(2)].into_iter().enumerate() {
            for field in [ACCESS, READ_STATE, LATCHED, STATUS_LATCH] {
                field.put(&mut board[record_at(c)..], field.get(&places[place]));
            }
        }
        for _ in 0..4 {
            board = judge.ask(&board, &ROOMY, operation(2, port, 0)).board;
        }
    }
}

/// Every edge and every level that stands, on every channel, in every mode and state, with every room and place.
fn gates(judge: &mut BoardJudge) {
    let mut random = Random(23);
    let combinations = (0..3).flat_map(|c| (0..6).flat_map(move |mode| (0..7).map(move |state| (c, mode, state))));
    for (c, mode, state) in combinations {
        for (levels, (room, place)) in (0..8).flat_map(|levels| rooms_and_places().map(move |at| (levels, at))) {
            let mut board = random.board();
            let record = &mut board[record_at(usize::from(c))..];
            for (field, value) in [(MODE, mode), (STATE, state), (GATE, levels & 1), (OUTPUT, levels >> 1 & 1)] {
                field.put(record, value);
            }
            let events = random.events_of(room);
            judge.ask(&board, &events, BoardOperation { place, ..operation(3, c, levels >> 2) });
        }
    }
}

/// Both time calls, over divisors, remainders, warps and ticks; and all other operations on boards with these numbers, which must leave them alone.
fn times(judge: &mut BoardJudge) {
    for (divisor, remainder) in DIVISORS.iter().flat_map(|divisor| SPANS.iter().map(move |remainder| (*divisor, *remainder))) {
        for (warp, defer) in SPANS.iter().flat_map(|warp| [(*warp, 0), (*warp, 1)]) {
            let board = timed([divisor, remainder, warp], defer);
            for ticks in SPANS {
                judge.ask(&board, &ROOMY, operation(6, 0, ticks));
                judge.ask(&board, &ROOMY, operation(7, 0, ticks));
            }
            for (code, _) in NAMES.iter().filter(|(code, _)| !matches!(code, 6 | 7)) {
                judge.ask(&board, &ROOMY, operation(*code, if *code <= 2 { 0x40 } else { 0 }, 0));
            }
        }
    }
}

fn timed(numbers: [u32; 3], defer: u8) -> Board {
    let mut board = fresh(0, 1);
    for (place, number) in [DIVISOR, REMAINDER, WARP].iter().zip(numbers) {
        put_number(&mut board, *place, number);
    }
    board[DEFER] = defer;
    board
}
